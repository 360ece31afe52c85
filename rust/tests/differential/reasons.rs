//! The reason for a period that can't be had: whether some split works, decided apart, and each chain followed step by step.
use darnerflax::{why_not, Reason, Refusal};

use crate::lent::Lent;
use crate::random::{exact_net, net, shuffle, words, Random, Size};
use crate::reference::{decode, encode, refuse, Need, Net, Pair};
use crate::tally::Tally;

/// A register and whether it is late.
type Node = (usize, bool);

/// Where a step leads from a node: None if it names no pair, if its choices break no rule, or if neither end is that node.
fn follow(net: &Net, period: u32, offset: u32, at: Node, step: u32) -> Option<Node> {
    let p = net.pairs.get(step as usize / 4)?;
    let (launch, capture) = ((p.launch, step % 4 >= 2), (p.capture, step % 2 == 1));
    let later = (capture.1 as i64 - launch.1 as i64) * offset as i64;
    let forced = net.longest_way(p) > period as i64 + later || later > net.shortest_way(p);
    match at {
        _ if !forced => None,
        _ if at == launch => Some((capture.0, !capture.1)),
        _ if at == capture => Some((launch.0, !launch.1)),
        _ => None,
    }
}

/// Whether the steps lead a register from one choice to the other.
fn leads(net: &Net, period: u32, steps: &[u32], register: u32, late: bool) -> bool {
    let (offset, r) = (net.common().saturating_sub(period), register as usize);
    let end = steps.iter().try_fold((r, late), |at, step| follow(net, period, offset, at, *step));
    r < net.registers() && (1..2 * net.registers()).contains(&steps.len()) && end == Some((r, !late))
}

/// The kind of an answer that holds together.
fn kind(net: &Net, period: u32, reason: Reason) -> Option<&'static str> {
    match reason {
        Reason::Workable if period < net.common() => Some("workable"),
        Reason::Workable => Some("workable at once"),
        Reason::Blocked { register, first, second } => {
            let sound = leads(net, period, first, register, false) && leads(net, period, second, register, true);
            sound.then_some(if first.len().max(second.len()) <= 2 { "few steps" } else { "more steps" })
        }
    }
}

type Works = fn(&Net, u32) -> bool;

/// A call in buffers of any length near what is asked for.
fn try_reason(random: &mut Random, words: &[u32], period: u32, works: Works, tally: &mut Tally) {
    let (n, need) = decode(words).map_or((3, 9), |net| (net.registers(), net.scratch()));
    let (room, spare) = (random.room(4 * n).max(random.pick(&[0, 4 * n])), random.room(need).max(random.pick(&[0, need])));
    if decode(words).is_ok() {
        tally.lent("answer", room, 4 * n);
        tally.lent("scratch", spare, need);
    }
    try_in(random, words, period, (room, spare), works, tally);
}

/// The net, unless the call has to be refused.
fn asked(words: &[u32], period: u32, (room, spare): (usize, usize)) -> Result<Net, Refusal> {
    let net = decode(words)?;
    if !(1..=1_009_999).contains(&period) {
        return refuse(3, 0);
    }
    if room < 4 * net.registers() {
        return refuse(2, 0);
    }
    if spare < net.scratch() {
        return refuse(1, 0);
    }
    Ok(net)
}

fn try_in(random: &mut Random, words: &[u32], period: u32, lent: (usize, usize), works: Works, tally: &mut Tally) {
    let mut list = Lent::input(random, words);
    let (mut answer, mut scratch) = (Lent::new(random, lent.0), Lent::new(random, lent.1));
    let asked = asked(words, period, lent);
    let told = why_not(list.slice(), period, answer.slice(), scratch.slice());
    let (kind, stored) = match (&asked, told) {
        (Ok(net), Ok(reason)) => {
            assert_eq!(reason == Reason::Workable, works(net, period), "{words:x?} {period}");
            let stored = if let Reason::Blocked { first, second, .. } = reason { [first, second].concat() } else { vec![] };
            (Ok(kind(net, period, reason).unwrap_or_else(|| panic!("{words:x?} {period} {reason:?}"))), stored)
        }
        (Err(refusal), Err(told)) if *refusal == told => (Err(told), vec![]),
        (asked, told) => panic!("{words:x?} {period}: {asked:?}, {told:?}"),
    };
    let zeros = vec![0; asked.map_or(0, |net| net.scratch())];
    assert!(list.kept() && answer.holds(&stored), "{words:x?} {period}");
    assert!(scratch.holds(&zeros), "{words:x?} {period}");
    tally.answer(&kind, |kind| kind);
}

/// All splits at all offsets up to the common period, in wholes, halves and thirds. Damage can make a net of many registers.
fn plainly(net: &Net, period: u32) -> bool {
    if net.registers() <= 6 && net.common() <= 11 {
        (1..=3).any(|parts| net.times(parts).plain_offset(parts * period).is_some())
    } else {
        closed(net, period)
    }
}

/// By components, at the offset that is short of the common period.
fn closed(net: &Net, period: u32) -> bool {
    net.first_split(period, net.common().saturating_sub(period)).is_some()
}

/// A period that often lies near the edge of what works.
fn near(random: &mut Random, net: &Net, two: u32) -> u32 {
    let common = net.common();
    match random.below(8) {
        0 => 1 + random.upto(common - 1),
        1 => common.max(2) - 1,
        2 => common + random.upto(1),
        3 => two,
        4 | 5 => two.max(2) - 1,
        6 => random.pick(&[0, 1, 1_009_999, 1_010_000, u32::MAX]),
        _ => (common - random.upto(common / 4)).max(1),
    }
}

const ANSWERS: &[&str] = &["workable", "workable at once", "few steps", "more steps"];

fn met(refusals: &[&'static str]) -> Vec<&'static str> {
    [ANSWERS, refusals].concat()
}

const REFUSALS: &[&str] = &["1", "2", "3", "11", "12", "13", "14", "15", "16", "17", "18", "19", "20"];

/// Against all splits at all offsets, tried one by one.
#[test]
fn tiny_nets_reasoned_plainly() {
    let mut random = Random::new(51);
    let mut tally = Tally::default();
    for _ in 0..60_000 {
        let delay = random.pick(&[3, 8, 1_000_000]);
        let net = net(&mut random, Size { registers: 6, pairs: 9, delay, need: 3 });
        let words = words(&mut random, &net);
        let period = near(&mut random, &net, net.plan().0.two);
        try_reason(&mut random, &words, period, plainly, &mut tally);
    }
    tally.all_met("tiny nets, reasons, all splits and offsets", &met(REFUSALS));
}

/// Shows the net, and with up to `more` pairs after its last, from these ends on and with delays up to 3.
fn grown(net: &mut Net, from: usize, more: usize, show: &mut dyn FnMut(&Net)) {
    show(net);
    let n = net.registers();
    let last = if more > 0 { n * n } else { from };
    for ends in from..last {
        for (least, greatest) in (0..=3).flat_map(|greatest| (0..=greatest).map(move |least| (least, greatest))) {
            net.pairs.push(Pair { launch: ends / n, capture: ends % n, least, greatest });
            grown(net, ends + 1, more - 1, show);
            net.pairs.pop();
        }
    }
}

/// Every list of up to two registers, and of three registers and up to two pairs, with delays up to 3, at every period up to one
/// more than the common one.
#[test]
fn all_small_nets_reasoned() {
    let mut random = Random::new(52);
    let mut tally = Tally::default();
    for (n, most) in [(1, 1), (2, 4), (3, 2)] {
        grown(&mut Net { needs: vec![Need::default(); n], pairs: vec![] }, 0, most, &mut |net| {
            for period in 1..=net.common() + 1 {
                try_in(&mut random, &encode(net), period, (4 * n, net.scratch()), plainly, &mut tally);
            }
        });
    }
    tally.all_met("all small nets, reasons", ANSWERS);
}

#[test]
fn small_nets_reasoned() {
    let mut random = Random::new(53);
    let mut tally = Tally::default();
    for _ in 0..60_000 {
        let delay = random.pick(&[6, 40, 1_000_000]);
        let need = random.pick(&[6, 9_999]);
        let net = net(&mut random, Size { registers: 20, pairs: 30, delay, need });
        let words = words(&mut random, &net);
        let period = near(&mut random, &net, net.plan().0.two);
        try_reason(&mut random, &words, period, closed, &mut tally);
    }
    tally.all_met("small nets, reasons", &met(REFUSALS));
}

#[test]
fn full_nets_reasoned() {
    let mut random = Random::new(54);
    let mut tally = Tally::default();
    for _ in 0..200 {
        let delay = random.pick(&[30, 1_000, 1_000_000]);
        let m = random.pick(&[2_048, 600, 511]);
        let need = random.pick(&[30, 9_999]);
        let net = exact_net(&mut random, 512, m, delay, need);
        let (words, two) = (encode(&net), net.plan().0.two);
        for _ in 0..20 {
            let period = near(&mut random, &net, two);
            try_reason(&mut random, &words, period, closed, &mut tally);
        }
    }
    tally.all_met("full nets, reasons", &met(&["1", "2", "3"]));
}

/// A path of registers that are forced late one after the other, by setup along a pair or by hold against it, its last the launch
/// of two slow pairs: to a register beside the path, and back to the first. Registers are in a random order.
fn path(random: &mut Random, n: usize) -> Net {
    let (period, offset) = (1_000, 100);
    let mut names: Vec<usize> = (0..n).collect();
    shuffle(random, &mut names);
    let slow = |capture: usize| Pair { launch: names[n - 2], capture, least: 500, greatest: period + offset };
    let mut pairs = vec![slow(names[n - 1]), slow(names[0])];
    for two in names[..n - 1].windows(2) {
        let (from, to) = (two[0], two[1]);
        pairs.push(if random.one_in(2) {
            Pair { launch: from, capture: to, least: 500, greatest: period - random.upto(offset - 1) }
        } else {
            Pair { launch: to, capture: from, least: random.upto(offset - 1), greatest: 500 }
        });
    }
    Net { needs: vec![Need::default(); n], pairs }.ordered()
}

/// Long chains: there is none that does not go along the path.
#[test]
fn paths_reasoned() {
    let mut random = Random::new(55);
    for _ in 0..2_000 {
        let n = random.pick(&[3, 4, 17, 511, 512]);
        let net = path(&mut random, n);
        let (mut answer, mut scratch) = (Lent::new(&mut random, 4 * n), Lent::new(&mut random, net.scratch()));
        let Ok(reason) = why_not(&encode(&net), 1_000, answer.slice(), scratch.slice()) else { panic!("refused") };
        let Reason::Blocked { first, second, .. } = reason else { panic!("{net:?}") };
        assert!(kind(&net, 1_000, reason).is_some() && first.len() + second.len() >= n, "{net:?} {reason:?}");
    }
}
