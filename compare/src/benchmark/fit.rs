//! The straight line nearest to measured points, to show that growth is linear.

/// Value at 0, slope, and the greatest distance of a point from the line (least squares).
pub fn straight(points: &[(f64, f64)]) -> (f64, f64, f64) {
    let count = points.len() as f64;
    let mean = |value: &dyn Fn(&(f64, f64)) -> f64| points.iter().map(value).sum::<f64>() / count;
    let (x, y) = (mean(&|point| point.0), mean(&|point| point.1));
    let slope = mean(&|point| (point.0 - x) * (point.1 - y)) / mean(&|point| (point.0 - x).powi(2));
    let start = y - slope * x;
    let far = points.iter().map(|point| (point.1 - start - slope * point.0).abs()).fold(0.0, f64::max);
    (start, slope, far)
}
