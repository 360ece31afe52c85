//! Jobs 2 and 3: checking a schedule, the free period and the free schedule.
use darnerflax::{check, free, Checked, Periods, Rule, Smallest};

use crate::lent::Lent;
use crate::random::{damaged, exact_net, net, words, Random, Size};
use crate::reference::{decode, encode, refuse, Need, Net, Pair};
use crate::tally::Tally;
use crate::trails::{least_timings, longest_cycle, Fraction};

fn named(found: &Checked) -> &'static str {
    match found {
        Checked::NoPairs => "no pairs",
        Checked::Admissible { .. } => "admissible",
        Checked::Broken { rule: Rule::Setup, .. } => "setup",
        Checked::Broken { rule: Rule::Hold, .. } => "hold",
    }
}

fn try_check(random: &mut Random, words: &[u32], period: u32, timings: &[u32], tally: &mut Tally) {
    let expected = decode(words).and_then(|net| {
        let fits =
            (1..=1_009_999).contains(&period) && timings.len() == net.registers() && timings.iter().all(|t| *t <= 516_109_489);
        if fits {
            Ok(net.check(period, timings))
        } else {
            refuse(3, 0)
        }
    });
    let (mut list, mut schedule) = (Lent::input(random, words), Lent::input(random, timings));
    assert_eq!(check(list.slice(), period, schedule.slice()), expected, "{words:x?} {period} {timings:?}");
    assert!(list.kept() && schedule.kept(), "{words:x?} {period} {timings:?}");
    tally.answer(&expected, named);
}

/// A schedule that is admissible or nearly so, at a period at or near the least for it.
fn try_near(random: &mut Random, periods: Periods, mut timings: Vec<u32>, words: &[u32], tally: &mut Tally) {
    let mut period = random.pick(&[periods.free, periods.free, periods.common, periods.free + 1, periods.free - 1]);
    if random.one_in(3) {
        let by = random.upto(1_000);
        timings.iter_mut().for_each(|t| *t += by);
    }
    if random.one_in(2) {
        let r = random.below(timings.len());
        timings[r] = timings[r].wrapping_add(random.pick(&[1, u32::MAX, 2, 1_000]));
    }
    match random.below(30) {
        0 => period = random.pick(&[0, 1, 1_009_998, 1_009_999, 1_010_000, u32::MAX]),
        1 => timings.push(0),
        2 => drop(timings.pop()),
        3 => {
            let r = random.below(timings.len());
            timings[r] = random.pick(&[516_109_489, 516_109_490, u32::MAX]);
        }
        4 => timings.iter_mut().for_each(|t| *t = random.upto(516_109_489)),
        _ => {}
    }
    try_check(random, words, period, &timings, tally);
}

const CHECKED: &[&str] =
    &["admissible", "no pairs", "setup", "hold", "3", "11", "12", "13", "14", "15", "16", "17", "18", "19", "20"];

/// A full list has pairs.
const FULL_CHECKED: &[&str] = &["admissible", "setup", "hold", "3", "11", "12", "13", "14", "15", "16", "17", "18", "19", "20"];

#[test]
fn small_schedules_checked() {
    let mut random = Random::new(11);
    let mut tally = Tally::default();
    for _ in 0..200_000 {
        let delay = random.pick(&[5, 20, 1_000_000]);
        let need = random.pick(&[3, 9_999]);
        let net = net(&mut random, Size { registers: 7, pairs: 9, delay, need });
        let words = words(&mut random, &net);
        let (periods, timings) = net.free();
        try_near(&mut random, periods, timings, &words, &mut tally);
    }
    tally.all_met("small schedules checked", CHECKED);
}

#[test]
fn full_schedules_checked() {
    let mut random = Random::new(12);
    let mut tally = Tally::default();
    for _ in 0..100 {
        let net = exact_net(&mut random, 512, 2_048, 1_000_000, 9_999);
        let words = encode(&net);
        let (periods, timings) = net.free();
        for _ in 0..100 {
            try_near(&mut random, periods, timings.clone(), &words, &mut tally);
        }
        for _ in 0..20 {
            let words = damaged(&mut random, &net);
            try_near(&mut random, periods, timings.clone(), &words, &mut tally);
        }
    }
    tally.all_met("full schedules checked", FULL_CHECKED);
}

/// Signs of the smallest margin, and which margins are the same.
fn count_margins(net: &Net, period: u32, timings: &[u32], tally: &mut Tally) {
    let margins = net.margins(period, timings);
    let Some(low) = margins.iter().min() else {
        tally.count("no pairs");
        return;
    };
    tally.count(match low.signum() {
        1 => "above 0",
        0 => "at 0",
        _ => "below 0",
    });
    let same: Vec<usize> = (0..margins.len()).filter(|i| margins[*i] == *low).collect();
    match same[..] {
        [_] => {}
        [i, j, ..] if i / 2 == j / 2 => tally.count("setup and hold of a pair the same"),
        [i, j, ..] if i % 2 == 1 && j % 2 == 0 => tally.count("hold, and setup of a later pair the same"),
        _ => tally.count("two pairs the same"),
    }
}

/// Any schedule with timings up to four, so that many margins are the same.
#[test]
fn small_margins() {
    let mut random = Random::new(19);
    let (mut answers, mut margins) = (Tally::default(), Tally::default());
    for _ in 0..100_000 {
        let net = net(&mut random, Size { registers: 4, pairs: 5, delay: 4, need: 2 });
        let timings: Vec<u32> = (0..net.registers()).map(|_| random.upto(4)).collect();
        let period = 1 + random.upto(8);
        try_check(&mut random, &encode(&net), period, &timings, &mut answers);
        count_margins(&net, period, &timings, &mut margins);
    }
    answers.all_met("small margins", &["admissible", "no pairs", "setup", "hold"]);
    let ties = ["setup and hold of a pair the same", "hold, and setup of a later pair the same", "two pairs the same"];
    margins.all_met("small margins", &[&["above 0", "at 0", "below 0", "no pairs"], &ties[..]].concat());
}

fn try_free(random: &mut Random, words: &[u32], tally: &mut Tally) {
    let decoded = decode(words);
    let n = decoded.as_ref().map_or(3, |net| net.registers());
    let room = random.room(n);
    let (mut list, mut answer) = (Lent::input(random, words), Lent::new(random, room));
    if decoded.is_ok() {
        tally.lent("answer", room, n);
    }
    let (expected, stored) = match decoded {
        Ok(_) if room < n => (refuse(2, 0), vec![]),
        Ok(net) => {
            let (periods, timings) = net.free();
            (Ok(periods), timings)
        }
        Err(refusal) => (Err(refusal), vec![]),
    };
    assert_eq!(free(list.slice(), answer.slice()), expected, "{words:x?}");
    assert!(list.kept() && answer.holds(&stored), "{words:x?}");
    tally.answer(&expected, |periods| if periods.free < periods.common { "shorter" } else { "common" });
}

const FREED: &[&str] = &["shorter", "common", "2", "11", "12", "13", "14", "15", "16", "17", "18", "19", "20"];

#[test]
fn small_nets_freed() {
    let mut random = Random::new(13);
    let mut tally = Tally::default();
    for _ in 0..200_000 {
        let delay = random.pick(&[4, 30, 1_000_000]);
        let need = random.pick(&[3, 9_999]);
        let net = net(&mut random, Size { registers: 9, pairs: 14, delay, need });
        let words = words(&mut random, &net);
        try_free(&mut random, &words, &mut tally);
    }
    tally.all_met("small nets freed", FREED);
}

#[test]
fn middle_nets_freed() {
    let mut random = Random::new(14);
    let mut tally = Tally::default();
    for _ in 0..20_000 {
        let delay = random.pick(&[30, 1_000, 1_000_000]);
        let need = random.pick(&[30, 9_999]);
        let net = net(&mut random, Size { registers: 60, pairs: 150, delay, need });
        let words = words(&mut random, &net);
        try_free(&mut random, &words, &mut tally);
    }
    tally.all_met("middle nets freed", FREED);
}

#[test]
fn full_nets_freed() {
    let mut random = Random::new(15);
    let mut tally = Tally::default();
    for _ in 0..500 {
        let delay = random.pick(&[30, 1_000, 1_000_000]);
        let m = random.pick(&[2_048, 2_048, 600, 512, 511]);
        let need = random.pick(&[30, 9_999]);
        let net = exact_net(&mut random, 512, m, delay, need);
        try_free(&mut random, &encode(&net), &mut tally);
    }
    tally.all_met("full nets freed", &["shorter", "common", "2"]);
}

/// A chain of 512 whose steps each ask for all that a delay and a need allow: the free period is 1, or what the needs take.
fn try_chain(random: &mut Random, need: Need, period: u32, step: u32) {
    let pairs = (0..511).map(|r| Pair { launch: r, capture: r + 1, least: 1_000_000, greatest: 1_000_000 }).collect();
    let chain = Net { needs: vec![need; 512], pairs };
    let (periods, timings) = chain.free();
    assert_eq!((periods.common, periods.free, timings[511]), (1_000_000 + need.setup, period, 511 * step));
    let mut answer = Lent::new(random, 512);
    assert_eq!(free(&encode(&chain), answer.slice()), Ok(periods));
    assert!(answer.holds(&timings));
}

#[test]
fn longest_chains_freed() {
    let mut random = Random::new(16);
    try_chain(&mut random, Need { hold: 0, setup: 0 }, 1, 999_999);
    try_chain(&mut random, Need { hold: 0, setup: 9_999 }, 9_999, 1_000_000);
    try_chain(&mut random, Need { hold: 9_999, setup: 0 }, 9_999, 990_001);
    try_chain(&mut random, Need { hold: 9_999, setup: 9_999 }, 19_998, 990_001);
}

/// The longest period and the latest timing pass, and one more does not. A pair of the longest delay and need passes at that
/// period and at none below.
#[test]
fn limits_of_a_schedule() {
    let needs = vec![Need { hold: 0, setup: 9_999 }; 2];
    let words = encode(&Net { needs, pairs: vec![Pair { launch: 0, capture: 1, least: 1_000_000, greatest: 1_000_000 }] });
    let at = |period, timings: [u32; 2]| check(&words, period, &timings);
    let met = |margin, rule| Ok(Checked::Admissible { smallest: Smallest { margin, pair: 0, rule } });
    let broken = |margin, rule| Ok(Checked::Broken { pair: 0, rule, smallest: Smallest { margin, pair: 0, rule } });
    assert_eq!(
        [at(1_009_998, [0, 0]), at(1_009_999, [0, 0]), at(1_010_000, [0, 0])],
        [broken(-1, Rule::Setup), met(0, Rule::Setup), refuse(3, 0)]
    );
    assert_eq!([at(1, [0, 516_109_489]), at(1, [0, 516_109_490])], [broken(-515_109_489, Rule::Hold), refuse(3, 0)]);
    assert_eq!(at(1, [516_109_489, 0]), broken(-517_119_487, Rule::Setup));
    assert_eq!(
        [at(9_999, [515_109_489, 516_109_489]), at(9_998, [515_109_489, 516_109_489])],
        [met(0, Rule::Setup), broken(-1, Rule::Setup)]
    );
}

/// Against all schedules, tried one by one.
#[test]
fn tiny_nets_freed_plainly() {
    let mut random = Random::new(17);
    for _ in 0..6_000 {
        let net = net(&mut random, Size { registers: 3, pairs: 5, delay: 4, need: 2 });
        let (period, timings) = net.plain_free(12);
        let mut answer = Lent::new(&mut random, net.registers());
        let periods = free(&encode(&net), answer.slice()).expect("a list that is accepted");
        assert_eq!((periods.common, periods.free), (net.common(), period), "{net:?}");
        assert!(answer.holds(&timings), "{net:?}");
    }
}

/// Against all trails of rules, and against rivals with fractions. The least period with a schedule of any kind is what the
/// cycles ask for, a fraction; the free period is the next whole number, 1 at least. Times in parts of a picosecond are whole
/// times of the net with all delays that many times as long, and Bellman-Ford finds them where there are any: from what the
/// cycles ask for up, at every period in parts, and at none below. So at a whole period below the free one no fraction helps.
/// Times below 0 do not either: moved up by the same amount, they meet the same rules.
#[test]
fn tiny_nets_freed_by_trails() {
    let mut random = Random::new(18);
    let mut tally = Tally::default();
    for _ in 0..40_000 {
        let net = net(&mut random, Size { registers: 6, pairs: 9, delay: 8, need: 3 });
        let bound = longest_cycle(&net);
        let period = bound.map_or(1, Fraction::whole);
        let mut answer = Lent::new(&mut random, net.registers());
        let periods = free(&encode(&net), answer.slice());
        assert_eq!(periods, Ok(Periods { common: net.common(), free: period }), "{net:?}");
        assert!(answer.holds(&least_timings(&net, period)), "{net:?}");
        for parts in [1, 2, 3, 5] {
            try_parts(&net, bound, parts, period, &mut tally);
        }
    }
    tally.all_met(
        "tiny nets freed, all trails",
        &["schedule", "schedule below the free period", "none", "none at a whole period"],
    );
}

/// Every period in parts up to the common one: times exist exactly if it is not below the bound, and at whole periods exactly
/// from the free one up.
fn try_parts(net: &Net, bound: Option<Fraction>, parts: u32, free: u32, tally: &mut Tally) {
    let fine = net.times(parts);
    for period in 1..=fine.common().max(parts) {
        let found = fine.longest(period).is_some();
        assert_eq!(found, bound.map_or(true, |bound| bound.at_most(period, parts)), "{net:?} {period}/{parts}");
        let whole = period % parts == 0;
        assert!(!whole || found == (period >= parts * free), "{net:?} {period}/{parts}");
        tally.count(match (found, whole) {
            (true, false) if period < parts * free => "schedule below the free period",
            (true, _) => "schedule",
            (false, false) => "none",
            (false, true) => "none at a whole period",
        });
    }
}
