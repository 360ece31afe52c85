//! Job 1: reading and writing, and the way back.
use darnerflax::{read, read_places, write, Counts, Refusal, MAX_WORDS};

use crate::lent::Lent;
use crate::random::{exact_net, net, words, Random, Size};
use crate::reference::{decode, encode, given, need_word, refuse, sealed, Need, Net, Pair};
use crate::tally::Tally;

fn try_read(random: &mut Random, words: &[u32], tally: &mut Tally) {
    let decoded = decode(words);
    let mut answer = Lent::new(random, 0);
    if let Ok(net) = &decoded {
        let asked = read_places(net.registers(), net.pairs.len());
        let room = random.room(asked);
        answer = Lent::new(random, room);
        tally.lent("answer", room, asked);
    } else if random.one_in(2) {
        answer = Lent::new(random, words.len());
    }
    let (expected, stored) = match decoded {
        Ok(net) if answer.len() < 4 * net.pairs.len() + 2 * net.registers() => (refuse(2, 0), vec![]),
        Ok(net) => (
            Ok(Counts { registers: net.registers() as u32, pairs: net.pairs.len() as u32 }),
            [net.numbers(), net.need_numbers()].concat(),
        ),
        Err(refusal) => (Err(refusal), vec![]),
    };
    let mut list = Lent::input(random, words);
    assert_eq!(read(list.slice(), answer.slice()), expected, "{words:x?}");
    assert!(list.kept() && answer.holds(&stored), "{words:x?}");
    if let Ok(counts) = expected {
        let mut back = Lent::new(random, words.len());
        let (numbers, needs) = stored.split_at(4 * counts.pairs as usize);
        assert_eq!(write(counts.registers, numbers, needs, back.slice()), Ok(words.len()));
        assert!(back.holds(words));
    }
    tally.answer(&expected, |_| if words[1] >> 29 == 5 { "read with needs" } else { "read" });
}

fn try_write(random: &mut Random, n: u32, numbers: &[u32], needs: &[u32], tally: &mut Tally) {
    let block = if needs.iter().any(|need| *need > 0) { needs.len() / 2 } else { 0 };
    let asked = 3 * (numbers.len() / 4) + 2 + block;
    let room = random.room(asked);
    let (mut pairs, mut both) = (Lent::input(random, numbers), Lent::input(random, needs));
    let mut answer = Lent::new(random, room);
    let net = given(n, numbers, needs);
    if net.is_ok() {
        tally.lent("answer", room, asked);
    }
    let (expected, stored) = match net {
        Ok(_) if room < asked => (refuse(2, 0), vec![]),
        Ok(net) => (Ok(asked), encode(&net)),
        Err(refusal) => (Err(refusal), vec![]),
    };
    assert_eq!(write(n, pairs.slice(), both.slice(), answer.slice()), expected, "{n} {numbers:?} {needs:?}");
    assert!(pairs.kept() && both.kept() && answer.holds(&stored), "{n} {numbers:?} {needs:?}");
    if expected.is_ok() {
        let mut back = Lent::new(random, numbers.len() + needs.len());
        assert_eq!(read(&stored, back.slice()), Ok(Counts { registers: n, pairs: numbers.len() as u32 / 4 }));
        assert!(back.holds(&[numbers, needs].concat()));
    }
    tally.answer(&expected, |_| if block > 0 { "written with needs" } else { "written" });
}

const READ: &[&str] = &["read", "read with needs", "2", "11", "12", "13", "14", "15", "16", "17", "18", "19", "20"];
const WRITTEN: &[&str] = &["written", "written with needs", "2", "11", "12", "13", "14", "15", "16", "19", "20"];

#[test]
fn small_lists_read() {
    let mut random = Random::new(1);
    let mut tally = Tally::default();
    for _ in 0..300_000 {
        let delay = random.pick(&[5, 1_000, 1_000_000]);
        let need = random.pick(&[3, 9_999]);
        let net = net(&mut random, Size { registers: 12, pairs: 12, delay, need });
        let words = words(&mut random, &net);
        try_read(&mut random, &words, &mut tally);
    }
    tally.all_met("small lists read", READ);
}

#[test]
fn full_lists_read() {
    let mut random = Random::new(2);
    let mut tally = Tally::default();
    for _ in 0..6_000 {
        let m = random.pick(&[2_048, 2_048, 2_047]);
        let net = exact_net(&mut random, 512, m, 1_000_000, 9_999);
        let words = words(&mut random, &net);
        try_read(&mut random, &words, &mut tally);
    }
    tally.all_met("full lists read", READ);
}

/// Words that were never a list, and every length from 0 up.
#[test]
fn noise_read() {
    let mut random = Random::new(3);
    let mut tally = Tally::default();
    for _ in 0..1_000_000 {
        let len = random.below(9);
        let second = random.pick(&[2, 2, 5]);
        let mut words: Vec<u32> = (0..len).map(|k| random.word() >> 3 | [1, second, 3, 4, 7][k % 5] << 29).collect();
        if let (Some(head), true) = (words.first_mut(), random.one_in(2)) {
            *head = 1 << 29 | random.upto(3) << 12 | random.upto(2);
        }
        try_read(&mut random, &words, &mut tally);
    }
    tally.all_met("noise read", &["11", "12", "13", "14"]);
}

/// A number of a call to the writer, put wrong.
fn spoil(random: &mut Random, n: &mut u32, numbers: &mut Vec<u32>, needs: &mut Vec<u32>) {
    match random.below(6) {
        0 => *n = random.pick(&[0, 1, 512, 513, 1_024, u32::MAX]),
        1 | 2 => spoil_needs(random, numbers, needs),
        _ if numbers.is_empty() => numbers.push(random.word()),
        _ => spoil_numbers(random, *n, numbers),
    }
}

fn spoil_numbers(random: &mut Random, n: u32, numbers: &mut Vec<u32>) {
    let at = random.below(numbers.len());
    match random.below(8) {
        0 => numbers[at] = random.word(),
        1 => numbers[at] = random.pick(&[n, n - 1, 1_023, 1_024, 1_000_000, 1_000_001, u32::MAX]),
        2 => numbers.truncate(at),
        3 => numbers.push(random.word()),
        4 => numbers.swap(at, 0),
        5 => {
            let pair = at / 4 * 4;
            numbers[pair + 2] = numbers[pair + 3].wrapping_add(random.upto(1));
        }
        _ => spoil_order(random, at / 4 * 4, numbers),
    }
}

/// The pair at a place and the one before it change places, or have the same registers.
fn spoil_order(random: &mut Random, pair: usize, numbers: &mut [u32]) {
    let Some(before) = pair.checked_sub(4) else { return };
    if random.one_in(2) {
        numbers[before..pair + 4].rotate_left(4);
    } else {
        numbers.copy_within(before..before + 2, pair);
    }
}

/// Needs put wrong, or a least delay put near the hold of its capture register.
fn spoil_needs(random: &mut Random, numbers: &mut [u32], needs: &mut Vec<u32>) {
    let at = random.below(needs.len());
    match random.below(9) {
        0 => needs[at] = random.word(),
        1 => needs[at] = random.pick(&[9_999, 10_000, 16_384, u32::MAX]),
        2 => needs.truncate(at),
        3 => needs.extend(vec![0; 1 + random.below(3)]),
        4 => needs.fill(0),
        _ => {
            let k = random.below(numbers.len() / 4 + 1);
            if let Some(four) = numbers.chunks_exact_mut(4).nth(k) {
                four[2] = (needs[2 * four[1] as usize] + random.upto(1)).saturating_sub(1);
            }
        }
    }
}

#[test]
fn small_lists_written() {
    let mut random = Random::new(4);
    let mut tally = Tally::default();
    for _ in 0..300_000 {
        let delay = random.pick(&[5, 1_000, 1_000_000]);
        let need = random.pick(&[3, 9_999]);
        let net = net(&mut random, Size { registers: 12, pairs: 12, delay, need });
        let (mut n, mut numbers, mut needs) = (net.registers() as u32, net.numbers(), net.need_numbers());
        if random.one_in(2) {
            spoil(&mut random, &mut n, &mut numbers, &mut needs);
        }
        try_write(&mut random, n, &numbers, &needs, &mut tally);
    }
    tally.all_met("small lists written", WRITTEN);
}

#[test]
fn full_lists_written() {
    let mut random = Random::new(5);
    let mut tally = Tally::default();
    for _ in 0..6_000 {
        let m = random.pick(&[2_048, 2_048, 2_048, 2_049]);
        let net = exact_net(&mut random, 512, m, 1_000_000, 9_999);
        let (mut n, mut numbers, mut needs) = (net.registers() as u32, net.numbers(), net.need_numbers());
        if random.one_in(2) {
            spoil(&mut random, &mut n, &mut numbers, &mut needs);
        }
        try_write(&mut random, n, &numbers, &needs, &mut tally);
    }
    tally.all_met("full lists written", WRITTEN);
}

/// Each limit with what stands just above it, in the reader and in the writer.
#[test]
fn limits_of_needs() {
    let list = |words: &[u32]| {
        let mut words = words.to_vec();
        sealed(&mut words);
        words
    };
    let ends = |words: Vec<u32>| read(&words, &mut [0; 8]).map(|_| ()).map_err(|refusal| (refusal.number, refusal.place));
    let with = |first, second| ends(list(&[0x2000_2001, first, second, 0x4000_0001, 0x6000_270f, 0x8000_270f, 0]));
    let need = |hold, setup| need_word(Need { hold, setup });
    assert_eq!(with(need(9_999, 9_999), need(9_999, 9_999)), Ok(()));
    assert_eq!(with(need(0, 0), need(10_000, 0)), Err((13, 2)));
    assert_eq!(with(need(0, 10_000), need(10_000, 0)), Err((13, 1)));
    assert_eq!(with(need(1, 1) | 1 << 28, need(0, 0)), Err((13, 1)));
    assert_eq!(with(need(1, 1), 0x8000_0000), Err((13, 2)));
    assert_eq!(with(need(0, 0), need(0, 0)), Err((18, 1)));
    assert_eq!(with(need(0, 0), need(0, 16_384)), Err((13, 2)));
    assert_eq!(ends(list(&[0x2000_2000, need(0, 0), need(0, 0), 0])), Err((18, 1)));
    assert_eq!(ends(list(&[0x2000_1001, need(1, 0), 0x4000_0000, 0x6000_0000, 0x8000_0000, 0])), Err((19, 3)));
    assert_eq!(ends(vec![0x2000_1000, need(1, 0)]), Err((11, 0)));
    assert_eq!(ends(vec![0x2000_1000, need(1, 0), 0xe000_0000]), Err((17, 2)));
    let written = |least, hold, setup| {
        let call = write(2, &[0, 1, least, 1_000_000], &[0, 0, hold, setup], &mut [0; 7]);
        call.map_err(|refusal| (refusal.number, refusal.place))
    };
    assert_eq!([written(0, 0, 0), written(0, 0, 9_999), written(0, 0, 10_000)], [Ok(5), Ok(7), Err((13, 1))]);
    assert_eq!(
        [written(9_999, 9_999, 0), written(9_998, 9_999, 0), written(9_998, 10_000, 0)],
        [Ok(7), Err((19, 0)), Err((13, 1))]
    );
}

/// A pair that is not above the one before it, in the reader and in the writer: the same, below it by launch, below it by capture;
/// after every other check of the pair, before every check of the next.
#[test]
fn pairs_out_of_order() {
    let told_of = |pairs: &[[u32; 4]], hold: u32| {
        let needs = vec![Need { hold, setup: 1 }; 2];
        let pair = |p: &[u32; 4]| Pair { launch: p[0] as usize, capture: p[1] as usize, least: p[2], greatest: p[3] };
        let net = Net { needs, pairs: pairs.iter().map(pair).collect() };
        let short = |refusal: Refusal| (refusal.number, refusal.place);
        let written = write(2, &net.numbers(), &net.need_numbers(), &mut [0; 16]).map(|_| ()).map_err(short);
        (read(&encode(&net), &mut [0; 16]).map(|_| ()).map_err(short), written)
    };
    let [first, again, back] = [[0, 1, 7, 10], [0, 1, 2, 4], [1, 0, 1, 3]];
    assert_eq!(told_of(&[first, back], 1), (Ok(()), Ok(())));
    assert_eq!(told_of(&[first, again], 1), (Err((20, 6)), Err((20, 1))));
    assert_eq!(told_of(&[back, first], 1), (Err((20, 6)), Err((20, 1))));
    assert_eq!(told_of(&[first, [0, 0, 7, 10]], 1), (Err((20, 6)), Err((20, 1))));
    assert_eq!(told_of(&[first, [1, 1, 7, 10], back], 1), (Err((20, 9)), Err((20, 2))));
    assert_eq!(told_of(&[first, again], 3), (Err((19, 7)), Err((19, 1))));
    assert_eq!(told_of(&[first, [0, 1, 4, 3]], 1), (Err((16, 8)), Err((16, 1))));
    assert_eq!(told_of(&[first, first, [0, 2, 7, 10]], 1), (Err((20, 6)), Err((20, 1))));
    assert_eq!(told_of(&[first, [0, 2, 7, 10], first], 1), (Err((14, 6)), Err((14, 1))));
}

/// The largest list there is, with its block: 6,658 words, 9,216 numbers.
#[test]
fn largest_list() {
    let mut random = Random::new(6);
    let mut net = exact_net(&mut random, 512, 2_048, 1_000_000, 9_999);
    net.needs[0].setup = 9_999;
    let (words, numbers, needs) = (encode(&net), net.numbers(), net.need_numbers());
    assert_eq!((words.len(), numbers.len() + needs.len()), (MAX_WORDS, 9_216));
    let (mut answer, mut back) = (Lent::new(&mut random, 9_216), Lent::new(&mut random, MAX_WORDS));
    assert_eq!(read(&words, answer.slice()), Ok(Counts { registers: 512, pairs: 2_048 }));
    assert!(answer.holds(&[numbers.clone(), needs.clone()].concat()));
    assert_eq!(write(512, &numbers, &needs, back.slice()), Ok(MAX_WORDS));
    assert!(back.holds(&words));
    assert_eq!(read(&words, &mut [0; 9_215]), refuse(2, 0));
    assert_eq!(write(512, &numbers, &needs, &mut [0; MAX_WORDS - 1]), refuse(2, 0));
}
