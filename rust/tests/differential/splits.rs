//! Job 4: the first split at a period and an offset.
use darnerflax::{split, Split};

use crate::lent::Lent;
use crate::random::{exact_net, net, words, Random, Size};
use crate::reference::{decode, encode, refuse, Need, Net, Pair};
use crate::tally::Tally;

fn try_split(
    random: &mut Random,
    words: &[u32],
    period: u32,
    offset: u32,
    by: fn(&Net, u32, u32) -> Option<Vec<u32>>,
    tally: &mut Tally,
) {
    let decoded = decode(words);
    let (n, need) = decoded.as_ref().map_or((3, 9), |net| (net.registers(), net.scratch()));
    let (room, spare) = (random.room(n).max(random.pick(&[0, n])), random.room(need).max(random.pick(&[0, need])));
    let mut list = Lent::input(random, words);
    let (mut answer, mut scratch) = (Lent::new(random, room), Lent::new(random, spare));
    if decoded.is_ok() {
        tally.lent("answer", room, n);
        tally.lent("scratch", spare, need);
    }
    let expected = decoded.and_then(|net| {
        if !(1..=1_009_999).contains(&period) || offset > 1_009_999 {
            refuse(3, 0)
        } else if room < n {
            refuse(2, 0)
        } else if spare < need {
            refuse(1, 0)
        } else {
            Ok(by(&net, period, offset))
        }
    });
    let told = expected.clone().map(|found| if found.is_some() { Split::Found } else { Split::None });
    let found = split(list.slice(), period, offset, answer.slice(), scratch.slice());
    assert_eq!(found, told, "{words:x?} {period} {offset}");
    let zeros = vec![0; if expected.is_ok() { need } else { 0 }];
    let stored = expected.ok().flatten().unwrap_or_default();
    assert!(list.kept() && answer.holds(&stored), "{words:x?} {period} {offset}");
    assert!(scratch.holds(&zeros), "{words:x?} {period} {offset}");
    tally.answer(&told, |s| if *s == Split::Found { "found" } else { "none" });
}

/// A period and an offset that often lie near the edge of what works.
fn near(random: &mut Random, net: &Net) -> (u32, u32) {
    let common = net.common();
    let period = match random.below(4) {
        0 => 1 + random.upto(common - 1),
        1 => common.max(2) - 1,
        2 => common + random.upto(1),
        _ => (common - random.upto(common / 4)).max(1),
    };
    let offset = match random.below(4) {
        0 => random.upto(common),
        1 => common.saturating_sub(period) + random.upto(2),
        2 => net.pairs.first().map_or(0, |p| net.shortest_way(p) as u32),
        _ => common.saturating_sub(period),
    };
    match random.below(40) {
        0 => (random.pick(&[0, 1, 1_009_999, 1_010_000, u32::MAX]), offset),
        1 => (period, random.pick(&[0, 1, 1_009_999, 1_010_000, u32::MAX])),
        _ => (period, offset),
    }
}

const SPLIT: &[&str] = &["found", "none", "1", "2", "3", "11", "12", "13", "14", "15", "16", "17", "18", "19", "20"];

/// Damage can make a net of many registers.
fn plainly(net: &Net, period: u32, offset: u32) -> Option<Vec<u32>> {
    if net.registers() <= 6 {
        net.plain_split(period, offset)
    } else {
        net.first_split(period, offset)
    }
}

/// Against all splits, tried one by one.
#[test]
fn tiny_nets_split_plainly() {
    let mut random = Random::new(21);
    let mut tally = Tally::default();
    for _ in 0..150_000 {
        let delay = random.pick(&[3, 8, 1_000_000]);
        let need = random.pick(&[3, 9_999]);
        let net = net(&mut random, Size { registers: 6, pairs: 8, delay, need });
        let words = words(&mut random, &net);
        let (period, offset) = near(&mut random, &net);
        try_split(&mut random, &words, period, offset, plainly, &mut tally);
    }
    tally.all_met("tiny nets split, all splits", SPLIT);
}

#[test]
fn small_nets_split() {
    let mut random = Random::new(22);
    let mut tally = Tally::default();
    for _ in 0..150_000 {
        let delay = random.pick(&[6, 40, 1_000_000]);
        let need = random.pick(&[6, 9_999]);
        let net = net(&mut random, Size { registers: 20, pairs: 30, delay, need });
        let words = words(&mut random, &net);
        let (period, offset) = near(&mut random, &net);
        try_split(&mut random, &words, period, offset, Net::first_split, &mut tally);
    }
    tally.all_met("small nets split", SPLIT);
}

#[test]
fn full_nets_split() {
    let mut random = Random::new(23);
    let mut tally = Tally::default();
    for _ in 0..200 {
        let delay = random.pick(&[30, 1_000, 1_000_000]);
        let m = random.pick(&[2_048, 600, 511]);
        let need = random.pick(&[30, 9_999]);
        let net = exact_net(&mut random, 512, m, delay, need);
        let (plan, _) = net.plan();
        let words = encode(&net);
        for _ in 0..20 {
            let (period, offset) = match random.below(5) {
                0 => (plan.two, plan.offset),
                1 => (plan.two.max(2) - 1, plan.common - plan.two.max(2) + 1),
                2 => (plan.two + 1, plan.offset),
                _ => near(&mut random, &net),
            };
            try_split(&mut random, &words, period, offset, Net::first_split, &mut tally);
        }
    }
    tally.all_met("full nets split", &["found", "none", "1", "2", "3"]);
}

/// Period and offset up to their limit pass, and one more does not.
#[test]
fn limits_of_a_split() {
    let needs = vec![Need { hold: 0, setup: 9_999 }; 2];
    let words = encode(&Net { needs, pairs: vec![Pair { launch: 0, capture: 1, least: 1_000_000, greatest: 1_000_000 }] });
    let at = |period, offset| split(&words, period, offset, &mut [0; 2], &mut [0; 16]);
    assert_eq!([at(1_009_998, 0), at(1_009_999, 0), at(1_010_000, 0)], [Ok(Split::None), Ok(Split::Found), refuse(3, 0)]);
    assert_eq!(
        [at(9_999, 1_000_000), at(9_998, 1_000_000), at(9_998, 1_000_001)],
        [Ok(Split::Found), Ok(Split::None), Ok(Split::None)]
    );
    assert_eq!(
        [at(1_009_999, 1_009_999), at(1_009_999, 1_010_000), at(1, 1_010_000)],
        [Ok(Split::Found), refuse(3, 0), refuse(3, 0)]
    );
}
