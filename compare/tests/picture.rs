//! Pictures of scripts: well-formed XML without a script in it, what is drawn of a long script, and what stands in one.

mod common;

use common::scenario_files;
use judge::generate::scripts::script;
use judge::tell::columns::columns;
use judge::tell::picture::Picture;

/// The open elements up to the end of a text; what is wrong with it as XML, of the kind that pictures are: elements,
/// attributes in double quotes, text with the five entities.
fn well_formed(xml: &str) -> Result<(), String> {
    let (mut open, mut rest, mut roots) = (Vec::new(), xml, 0);
    while let Some(start) = rest.find('<') {
        text_fits(&rest[..start], open.is_empty())?;
        let end = rest.find('>').ok_or("a tag without its end")?;
        let tag = &rest[start + 1..end];
        rest = &rest[end + 1..];
        if let Some(name) = tag.strip_prefix('/') {
            let opened: Option<String> = open.pop();
            if opened.as_deref() != Some(name) {
                return Err(format!("</{name}> closes {opened:?}"));
            }
            continue;
        }
        roots += usize::from(open.is_empty());
        let (whole, tag) = (tag.ends_with('/'), tag.trim_end_matches('/'));
        let (name, attributes) = tag.split_once(' ').unwrap_or((tag, ""));
        attributes_fit(name, attributes)?;
        if !whole {
            open.push(name.to_string());
        }
    }
    text_fits(rest, true)?;
    if open.is_empty() && roots == 1 {
        Ok(())
    } else {
        Err(format!("open at the end: {open:?}; {roots} roots"))
    }
}

fn attributes_fit(name: &str, attributes: &str) -> Result<(), String> {
    let is_name = |name: &str| !name.is_empty() && name.chars().all(|c| c.is_ascii_alphanumeric() || c == '-');
    let mut parts = attributes.split('"');
    let (mut names, mut ended) = (Vec::new(), false);
    while let Some(before) = parts.next() {
        match (before.trim().strip_suffix('='), parts.next()) {
            (Some(attribute), Some(value)) if is_name(attribute) && !names.contains(&attribute) => {
                text_fits(value, false)?;
                names.push(attribute);
            }
            (None, None) if before.trim().is_empty() => ended = true,
            _ => return Err(format!("<{name}>: {attributes}")),
        }
    }
    if is_name(name) && ended {
        Ok(())
    } else {
        Err(format!("<{name}>: {attributes}"))
    }
}

fn text_fits(text: &str, outside: bool) -> Result<(), String> {
    let entities = ["amp;", "lt;", "gt;", "quot;", "apos;"];
    let sound = text.split('&').skip(1).all(|rest| entities.iter().any(|entity| rest.starts_with(entity)));
    let printable = text.chars().all(|c| c == '\n' || !c.is_control());
    if sound && printable && (!outside || text.trim().is_empty()) {
        Ok(())
    } else {
        Err(format!("text: {text:?}"))
    }
}

#[test]
fn what_is_not_well_formed() {
    assert_eq!(well_formed(r#"<a b="c &amp; d"><e/>f &lt; g</a>"#), Ok(()));
    let wrong = [
        "<a>",
        "<a></b>",
        "<a/><b/>",
        "a<b/>",
        "<a/>b",
        "<a>&</a>",
        "<a b=c/>",
        r#"<a b="c" b="d"/>"#,
        r#"<a b="&"/>"#,
        "<a",
        "",
        "<a>\u{1}</a>",
        r#"<a b="c/>"#,
    ];
    for xml in wrong {
        assert!(well_formed(xml).is_err(), "{xml:?}");
    }
}

fn pictures_of(scripts: impl Iterator<Item = Vec<u8>>) -> usize {
    let mut count = 0;
    for script in scripts {
        let Picture { svg, .. } = Picture::of("a < b & c\u{1}", &script);
        assert_eq!(well_formed(&svg), Ok(()));
        assert!(!svg.contains("<script") && svg.contains("<text"));
        count += 1;
    }
    count
}

#[test]
fn pictures_are_well_formed() {
    let stored = scenario_files("txt").into_iter().map(|path| std::fs::read(path).unwrap());
    assert!(pictures_of(stored) > 20);
    pictures_of((0..40).map(|seed| script(seed).text));
    pictures_of([Vec::new(), b"<&>\"\x01\xff\n".to_vec()].into_iter());
}

fn drawn(calls: &str) -> Picture {
    Picture::of("name", &columns(calls.as_bytes()).unwrap())
}

#[test]
fn how_much_is_drawn() {
    assert_eq!(drawn("open 1\nview 0 1\n").drawn, "all 2 lines");
    assert_eq!(drawn("open 1\n").drawn, "1 line");
    assert_eq!(drawn("open 3\nview 7 1\nblock 1\n").drawn, "all 3 lines, 2 refused");
    assert_eq!(drawn("open 4\nview 8 1\n").drawn, "all 2 lines; replicas 7 to 8 in one lane");
    let long = format!("open 1\n{}", "reserve 0\n".repeat(2000));
    assert_eq!(drawn(&long).drawn, "lines 1 to 80 of 2,001");
    assert!(drawn(&long).svg.contains("lines 1 to 80 of 2,001"));
}

/// How often a piece stands in the picture.
fn count(svg: &str, piece: &str) -> usize {
    svg.matches(piece).count()
}

#[test]
fn what_stands_in_a_picture() {
    let calls =
        "open 1\nview 0 1\nview 1 1\nview 1 1\naccumulate 0 0 1\nblock 0\nprepare-on-acc 0 1 2\nstore 0 3\nstore 1 3\n\
                 store 1 3\ndecide 0 4 5\ndecide 0 4 4\nreboot 2\nrequest 2\nreply 0 6\nreply 1 6\nrecover 2 7 8\nverbatim x\nopen 1 0 1\n";
    let svg = drawn(calls).svg;
    let arrows = |kind: &str| count(&svg, &format!(r#"<path class="arrow {kind}-line""#));
    let pale = |kind: &str| count(&svg, &format!(r#"<path class="arrow {kind}-line pale""#));
    let kinds = ["newview", "acc", "prop", "commit", "req", "reply"];
    assert_eq!((kinds.map(arrows), kinds.map(pale)), ([2, 1, 2, 2, 2, 2], [0, 0, 1, 1, 0, 0]));
    assert_eq!(count(&svg, r#"class="found newview-line""#), 1);
    assert_eq!(count(&svg, r#"<circle class="refused""#), 4);
    assert_eq!(count(&svg, r#"<line class="cut""#), 1);
    assert_eq!(count(&svg, r#"<line class="recovering""#), 1);
    let attribute = |element: &str, name: &str| {
        let (_, rest) = svg.split_once(&format!(r#"class="{element}""#)).unwrap();
        rest.split(&format!(r#" {name}=""#)).nth(1).unwrap().split('"').next().unwrap().to_string()
    };
    assert_eq!(attribute("recovering", "y1"), attribute("cut", "y1"));
    assert_eq!(attribute("recovering", "y2"), attribute("back", "cy"));
    assert_eq!(count(&svg, r#"<rect class="panel""#), 3);
    for words in [
        "power cut: boot 1",
        "back at view 64",
        "decides block 1",
        "stores PROP 3 (view 1, block 1)",
        "decides on COMMITs 4 and 5 (view 1)",
        "panel of 0: 1",
        "10: 1 column",
    ] {
        assert!(svg.contains(words), "{words}");
    }
}

/// With f = 4 one lane stands for replicas 7 and 8: their cuts are marked, and it is no replica's own status that it shows.
#[test]
fn a_lane_for_the_others() {
    let svg = drawn("open 4\nreboot 7\nreboot 8\n").svg;
    assert_eq!((count(&svg, ">replica 6<"), count(&svg, ">replica 7<"), count(&svg, ">the others<")), (1, 0, 1));
    assert_eq!((count(&svg, r#"<line class="cut""#), count(&svg, r#"<line class="recovering""#)), (2, 0));
}
