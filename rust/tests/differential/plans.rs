//! Job 5: the full plan.
use std::collections::BTreeSet;

use darnerflax::{plan, Plan};

use crate::lent::Lent;
use crate::random::{exact_net, net, words, Random, Size};
use crate::reference::{decode, encode, refuse, Net, Pair};
use crate::tally::Tally;
use crate::trails::{least_timings, longest_cycle, Fraction};

fn try_plan(random: &mut Random, words: &[u32], tally: &mut Tally) {
    let decoded = decode(words);
    let (n, need) = decoded.as_ref().map_or((3, 9), |net| (net.registers(), net.scratch()));
    let (room, spare) = (random.room(2 * n).max(random.pick(&[0, 2 * n])), random.room(need).max(random.pick(&[0, need])));
    let mut list = Lent::input(random, words);
    let (mut answer, mut scratch) = (Lent::new(random, room), Lent::new(random, spare));
    if decoded.is_ok() {
        tally.lent("answer", room, 2 * n);
        tally.lent("scratch", spare, need);
    }
    let expected = decoded.and_then(|net| {
        if room < 2 * n {
            refuse(2, 0)
        } else if spare < need {
            refuse(1, 0)
        } else {
            Ok(net.plan())
        }
    });
    let told = expected.as_ref().map(|(plan, _)| *plan).map_err(|refusal| *refusal);
    assert_eq!(plan(list.slice(), answer.slice(), scratch.slice()), told, "{words:x?}");
    let zeros = vec![0; if expected.is_ok() { need } else { 0 }];
    let stored = expected.map(|(_, timings)| timings).unwrap_or_default();
    assert!(list.kept() && answer.holds(&stored), "{words:x?}");
    assert!(scratch.holds(&zeros), "{words:x?}");
    tally.answer(&told, order);
}

fn order(plan: &Plan) -> &'static str {
    match (plan.free < plan.two, plan.two < plan.common) {
        (false, false) => "free = two = common",
        (false, true) => "free = two < common",
        (true, false) => "free < two = common",
        (true, true) => "free < two < common",
    }
}

const ORDERS: &[&str] = &["free = two = common", "free = two < common", "free < two = common", "free < two < common"];

fn planned(refusals: &[&'static str]) -> Vec<&'static str> {
    [ORDERS, refusals].concat()
}

#[test]
fn small_nets_planned() {
    let mut random = Random::new(31);
    let mut tally = Tally::default();
    for _ in 0..100_000 {
        let delay = random.pick(&[6, 40, 1_000_000]);
        let need = random.pick(&[3, 9_999]);
        let net = net(&mut random, Size { registers: 10, pairs: 14, delay, need });
        let words = words(&mut random, &net);
        try_plan(&mut random, &words, &mut tally);
    }
    tally.all_met("small nets planned", &planned(&["1", "2", "11", "12", "13", "14", "15", "16", "17", "18", "19", "20"]));
}

#[test]
fn middle_nets_planned() {
    let mut random = Random::new(32);
    let mut tally = Tally::default();
    for _ in 0..10_000 {
        let delay = random.pick(&[30, 1_000, 1_000_000]);
        let need = random.pick(&[30, 9_999]);
        let net = net(&mut random, Size { registers: 80, pairs: 120, delay, need });
        let words = words(&mut random, &net);
        try_plan(&mut random, &words, &mut tally);
    }
    tally.all_met("middle nets planned", &planned(&["1", "2", "11", "12", "13", "14", "15", "16", "17", "18", "19", "20"]));
}

#[test]
fn full_nets_planned() {
    let mut random = Random::new(33);
    let mut tally = Tally::default();
    for _ in 0..1_600 {
        let delay = random.pick(&[30, 1_000, 1_000_000]);
        let m = random.pick(&[2_048, 600, 512, 511]);
        let need = random.pick(&[30, 9_999]);
        let net = exact_net(&mut random, 512, m, delay, need);
        try_plan(&mut random, &encode(&net), &mut tally);
    }
    tally.all_met("full nets planned", &planned(&["1", "2"]));
}

/// Against all periods, offsets and splits, tried one by one, and all trails for the free part; rivals also have an offset in
/// halves, thirds and fifths.
#[test]
fn tiny_nets_planned_plainly() {
    let mut random = Random::new(34);
    let mut tally = Tally::default();
    for _ in 0..40_000 {
        let net = net(&mut random, Size { registers: 6, pairs: 9, delay: 8, need: 3 });
        let (two, offset) = net.plain_two();
        let free = longest_cycle(&net).map_or(1, Fraction::whole);
        let expected = Plan { common: net.common(), free, two, offset };
        let mut stored = least_timings(&net, free);
        stored.extend(net.plain_split(two, offset).expect("the search found one"));
        let (mut answer, mut scratch) = (Lent::new(&mut random, 2 * net.registers()), Lent::new(&mut random, net.scratch()));
        assert_eq!(plan(&encode(&net), answer.slice(), scratch.slice()), Ok(expected), "{net:?}");
        assert!(answer.holds(&stored) && scratch.holds(&vec![0; net.scratch()]), "{net:?}");
        for parts in [2, 3, 5] {
            no_fraction_beats(&net.times(parts), parts * (two - 1), parts * two, parts * offset);
        }
        count_shapes(&net, &mut tally);
        tally.count(order(&expected));
    }
    tally.all_met("tiny nets planned, all periods, offsets and splits", &[ORDERS, SHAPES].concat());
}

/// No offset works at `shorter`, and none below `least` at `period`; all in parts of a picosecond. A split that works at some
/// period works at every longer one, so that no period below `shorter` has to be tried.
fn no_fraction_beats(net: &Net, shorter: u32, period: u32, least: u32) {
    if shorter > 0 {
        assert_eq!(net.plain_offset(shorter), None, "{net:?}");
    }
    assert!((0..least).all(|offset| net.plain_split(period, offset).is_none()), "{net:?}");
}

const SHAPES: &[&str] = &["six registers", "no pairs", "a register to itself", "there and back", "needs"];

fn count_shapes(net: &Net, tally: &mut Tally) {
    let ends: BTreeSet<_> = net.pairs.iter().map(Pair::ends).collect();
    let itself = ends.iter().any(|(a, b)| a == b);
    let back = ends.iter().any(|(a, b)| a != b && ends.contains(&(*b, *a)));
    let met = [net.registers() == 6, ends.is_empty(), itself, back, net.needy()];
    SHAPES.iter().zip(met).filter(|(_, met)| *met).for_each(|(shape, _)| tally.count(*shape));
}
