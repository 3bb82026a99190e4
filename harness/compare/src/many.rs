//! Many edits in one call, in every order of their positions.

use crate::asks;
use crate::exhaustive::{counted, Part};
use crate::lists::ToEdit;
use crate::tally::Tally;
use harness::kept::random::Random;
use harness::orders::{fitting, Fault, Many, Wanted, FAULTS, ORDERS};

/// How many of a hundred edits stand where the one before them does.
const EQUAL: [u64; 4] = [0, 10, 90, 100];

/// No fault, and each one.
fn faults() -> impl Iterator<Item = Option<Fault>> {
    std::iter::once(None).chain(FAULTS.map(Some))
}

fn to_edit(Many { list, pool, fives }: Many) -> ToEdit {
    let edits = fives.into_iter().map(|five| five.map(|number| number as usize)).collect();
    ToEdit { list: counted(list, 1), edits, pool: counted(pool, 2) }
}

/// Edits that fit, but for a fault if there is one.
fn drawn(random: &mut Random, count: usize, equal: u64, fault: Option<Fault>) -> Many {
    let many = fitting(random, &Wanted { count, pool: count as u64, equal });
    match fault {
        Some(fault) => many.with(fault),
        None => many,
    }
}

/// So many edits in each order, at positions apart and at equal ones, without a fault and with each.
pub fn each_order(tally: &mut Tally, count: usize, part: Part) {
    let kinds = EQUAL.iter().flat_map(|&equal| faults().map(move |fault| (equal, fault)));
    let cases = kinds.flat_map(|kind| ORDERS.iter().map(move |order| (kind, order)));
    for (number, ((equal, fault), order)) in cases.enumerate().filter(|(number, _)| number % part.of == part.mine) {
        let mut random = Random::new(number as u64);
        let many = drawn(&mut random, count, equal, fault).given(order, &mut random);
        let ToEdit { list, edits, pool } = to_edit(many);
        asks::edit(tally, &list, &edits, &pool);
    }
}

/// So many edits in any order; most fit.
pub fn any(random: &mut Random, count: usize) -> ToEdit {
    let (equal, order) = (*random.pick(&EQUAL), random.pick(&ORDERS));
    let fault = random.percent(35).then(|| *random.pick(&FAULTS));
    to_edit(drawn(random, count, equal, fault).given(order, random))
}
