//! The text of a plan, from a list's bytes.
use std::fmt::Write;

use darnerflax::{report, TEXT_PLACES};

use crate::lent::Lent;
use crate::random::{exact_net, net, words, Random, Size};
use crate::reference::{decode, encode, refuse};
use crate::tally::Tally;

fn text(bytes: &[u8], tally: &mut Tally) -> String {
    let mut text = String::new();
    let decoded = if bytes.len() > 26_632 || bytes.len() % 4 != 0 {
        refuse(11, 0)
    } else {
        decode(&bytes.chunks_exact(4).map(|b| u32::from_le_bytes([b[0], b[1], b[2], b[3]])).collect::<Vec<_>>())
    };
    tally.answer(&decoded, |_| "plan");
    match decoded {
        Err(refusal) => writeln!(text, "refused {} at {}", refusal.number, refusal.place).unwrap(),
        Ok(net) => {
            let (plan, timings) = net.plan();
            writeln!(text, "common {} free {} two {} offset {}", plan.common, plan.free, plan.two, plan.offset).unwrap();
            for r in 0..net.registers() {
                writeln!(text, "{r} {} {}", timings[r], timings[net.registers() + r]).unwrap();
            }
        }
    }
    text
}

fn try_report(random: &mut Random, bytes: &[u8], tally: &mut Tally) {
    let expected = text(bytes, tally);
    let (mut list, mut place) = (Lent::input(random, bytes), Lent::new(random, TEXT_PLACES));
    let text = place.slice().try_into().expect("as many places as a report asks for");
    assert_eq!(report(list.slice(), text), expected.len());
    assert!(list.kept() && place.holds(expected.as_bytes()), "{bytes:x?}");
}

fn bytes_of(random: &mut Random, words: &[u32]) -> Vec<u8> {
    let mut bytes: Vec<u8> = words.iter().flat_map(|w| w.to_le_bytes()).collect();
    match random.below(10) {
        0 => bytes.push(random.word() as u8),
        1 => drop(bytes.pop()),
        _ => {}
    }
    bytes
}

#[test]
fn reports() {
    let mut random = Random::new(41);
    let mut tally = Tally::default();
    for _ in 0..30_000 {
        let delay = random.pick(&[6, 40, 1_000_000]);
        let need = random.pick(&[3, 9_999]);
        let net = net(&mut random, Size { registers: 10, pairs: 14, delay, need });
        let words = words(&mut random, &net);
        let bytes = bytes_of(&mut random, &words);
        try_report(&mut random, &bytes, &mut tally);
    }
    for _ in 0..30 {
        let net = exact_net(&mut random, 512, 2_048, 1_000_000, 9_999);
        let mut bytes = bytes_of(&mut random, &encode(&net));
        bytes.extend(vec![0; random.pick(&[0, 0, 4, 40_000])]);
        try_report(&mut random, &bytes, &mut tally);
    }
    tally.all_met("reports", &["plan", "11", "12", "13", "14", "15", "16", "17", "18", "19", "20"]);
}
