//! Two checkers on one netting: answer, balance and every word; of an accepted one the balances of all replicas.

use super::checkers::Checker;
use crate::generate::movements::Limits;
use crate::generate::netting::Netting;
use crate::netting::MAX_BALANCE;
use crate::refusal::ACCEPTED;

/// What differs between the two, or what no netting may show, in words; none if all is well.
pub fn netting_difference(one: &dyn Checker, other: &dyn Checker, netting: &Netting) -> Option<String> {
    let (mut left, mut right) = (netting.clone(), netting.clone());
    let (given, expected) = (one.balance(&mut left), other.balance(&mut right));
    if given != expected {
        return Some(format!("answer and balance {given:?} and {expected:?}"));
    }
    let changed = changed_slice(netting, &left).or_else(|| changed_slice(netting, &right));
    if changed.is_some() || given.0 != ACCEPTED {
        return changed;
    }
    all_difference(one, other, netting)
}

fn changed_slice(before: &Netting, after: &Netting) -> Option<String> {
    let mut pairs = slices(before).into_iter().zip(slices(after));
    let (changed, _) = pairs.find(|(before, after)| before != after)?;
    Some(format!("the netting changed a word of the {}", changed.0))
}

fn slices(netting: &Netting) -> [(&'static str, &[u32]); 4] {
    let Netting { memory, movements, .. } = netting;
    [("table", &memory.table), ("log", &memory.log), ("blocks", &memory.blocks), ("list", movements)]
}

/// "All balances add up to 0", and each is within what the list can move.
fn all_difference(one: &dyn Checker, other: &dyn Checker, netting: &Netting) -> Option<String> {
    let (all, expected) = (balances(one, netting), balances(other, netting));
    if let Some(replica) = all.iter().zip(&expected).position(|(given, expected)| given != expected) {
        return Some(format!("replica {replica}: balance {:?} and {:?}", all[replica], expected[replica]));
    }
    if let Some(&balance) = all.iter().find(|balance| balance.unsigned_abs() > MAX_BALANCE.unsigned_abs()) {
        return Some(format!("a balance of {balance}"));
    }
    let total: i64 = all.iter().copied().map(i64::from).sum();
    (total != 0).then(|| format!("balances {all:?} add up to {total}"))
}

/// Of every replica; one that is refused counts as more than any balance.
fn balances(checker: &dyn Checker, netting: &Netting) -> Vec<i32> {
    let mut asked = netting.clone();
    let of_replica = |replica| {
        asked.replica = replica;
        match checker.balance(&mut asked) {
            (ACCEPTED, balance) => balance,
            _ => i32::MAX,
        }
    };
    (0..Limits::of(&netting.memory).n).map(of_replica).collect()
}
