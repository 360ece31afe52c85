//! Converting stored lists: pairs in order, repeats joined, and the same answers before and after.
use darnerflax::{check, convert, convert_into, plan, read, read_places, split, Counts, Periods, Refusal, Split, MAX_WORDS};

use crate::lent::Lent;
use crate::random::{exact_net, net, shuffle, stored_net, words, Random, Size};
use crate::reference::{decode, decode_stored, encode, refuse, Net, Pair};
use crate::tally::Tally;

/// What converting comes to, by sorting and joining.
fn converted(words: &[u32]) -> Result<Vec<u32>, Refusal> {
    Ok(encode(&decode_stored(words)?.ordered()))
}

fn kind(words: &[u32], converted: &[u32]) -> &'static str {
    match (converted == words, converted.len() < words.len()) {
        (true, _) => "as it was",
        (_, false) => "in order",
        (_, true) if words[1] >> 29 == 5 => "joined, with needs",
        (_, true) => "joined",
    }
}

fn try_convert(random: &mut Random, words: &[u32], tally: &mut Tally) {
    let wanted = converted(words);
    assert_eq!(convert(words), wanted, "{words:x?}");
    let asked = wanted.as_ref().map_or(words.len(), Vec::len);
    let room = random.room(asked);
    if wanted.is_ok() {
        tally.lent("answer", room, asked);
    }
    let expected = wanted.and_then(|list| if room < asked { refuse(2, 0) } else { Ok(list) });
    let (mut list, mut answer) = (Lent::input(random, words), Lent::new(random, room));
    let told = expected.as_ref().map(Vec::len).map_err(|refusal| *refusal);
    assert_eq!(convert_into(list.slice(), answer.slice()), told, "{words:x?}");
    let stored = expected.clone().unwrap_or_default();
    assert!(list.kept() && answer.holds(&stored), "{words:x?}");
    if expected.is_ok() {
        assert_eq!(convert(&stored).as_ref(), Ok(&stored), "{words:x?}");
    }
    tally.answer(&expected, |list| kind(words, list));
}

const CONVERTED: &[&str] =
    &["as it was", "in order", "joined", "joined, with needs", "2", "11", "12", "13", "14", "15", "16", "17", "18", "19"];

#[test]
fn small_lists_converted() {
    let mut random = Random::new(61);
    let mut tally = Tally::default();
    for _ in 0..300_000 {
        let delay = random.pick(&[5, 1_000, 1_000_000]);
        let need = random.pick(&[3, 9_999]);
        let net = net(&mut random, Size { registers: 12, pairs: 12, delay, need });
        let stored = stored_net(&mut random, &net, 12, delay);
        let words = words(&mut random, &stored);
        try_convert(&mut random, &words, &mut tally);
    }
    tally.all_met("small lists converted", CONVERTED);
}

#[test]
fn full_lists_converted() {
    let mut random = Random::new(62);
    let mut tally = Tally::default();
    for _ in 0..4_000 {
        let m = random.pick(&[2_048, 2_000, 1_024, 1]);
        let net = exact_net(&mut random, 512, m, 1_000_000, 9_999);
        let stored = stored_net(&mut random, &net, 2_048 - m, 1_000_000);
        let words = words(&mut random, &stored);
        try_convert(&mut random, &words, &mut tally);
    }
    tally.all_met("full lists converted", CONVERTED);
}

/// Every order and every repeat of up to three pairs of two registers.
#[test]
fn every_short_list_converted() {
    let mut random = Random::new(63);
    let mut tally = Tally::default();
    let choices: Vec<Pair> = (0..16)
        .map(|code| {
            let (least, greatest) = [(0, 2), (1, 1), (1, 3), (2, 2)][code % 4];
            Pair { launch: code / 8, capture: code / 4 % 2, least, greatest }
        })
        .collect();
    for count in 0..=3 {
        for code in 0..16usize.pow(count) {
            let pairs = (0..count).map(|k| choices[code / 16usize.pow(k) % 16]).collect();
            let words = encode(&Net { needs: vec![Default::default(); 2], pairs });
            try_convert(&mut random, &words, &mut tally);
        }
    }
    tally.all_met("every short list converted", &["as it was", "in order", "joined", "2"]);
}

/// What the second implementation works out from the pairs as they are stored is what it works out from the converted list, and
/// what the jobs give for that.
fn try_answers(random: &mut Random, stored: &Net, tally: &mut Tally) {
    let words = convert(&encode(stored)).expect("a list that is not damaged");
    let after = decode(&words).expect("a list whose pairs rise");
    let (before, timings) = stored.plan();
    assert_eq!(after.plan(), (before, timings.clone()), "{stored:?}");
    let (mut answer, mut scratch) = (Lent::new(random, timings.len()), Lent::new(random, after.scratch()));
    assert_eq!(plan(&words, answer.slice(), scratch.slice()), Ok(before), "{stored:?}");
    assert!(answer.holds(&timings), "{stored:?}");
    same_split(random, stored, &words, before.two, tally);
    same_schedules(random, stored, &after, tally);
    tally.count(if after.pairs.len() < stored.pairs.len() { "repeats" } else { "no repeats" });
}

/// At the two-timing period or any other, with the offset of the plan or any other.
fn same_split(random: &mut Random, stored: &Net, words: &[u32], two: u32, tally: &mut Tally) {
    let common = stored.common();
    let (any_period, any_offset) = (1 + random.upto(common - 1), random.upto(common));
    let period = random.pick(&[two, any_period]);
    let offset = random.pick(&[common - period, any_offset]);
    let found = stored.first_split(period, offset);
    let (mut answer, mut scratch) = (Lent::new(random, stored.registers()), Lent::new(random, stored.scratch()));
    let told = if found.is_some() { Split::Found } else { Split::None };
    assert_eq!(split(words, period, offset, answer.slice(), scratch.slice()), Ok(told), "{stored:?}");
    tally.count(if found.is_some() { "a split" } else { "no split" });
    assert!(answer.holds(&found.unwrap_or_default()), "{stored:?}");
}

/// The least free schedule with one of its timings up to 2 later.
fn same_schedules(random: &mut Random, stored: &Net, after: &Net, tally: &mut Tally) {
    let (Periods { free, .. }, mut schedule) = stored.free();
    schedule[random.below(stored.registers())] += random.upto(2);
    let admissible = stored.meets(free, &schedule);
    assert_eq!(after.meets(free, &schedule), admissible, "{stored:?}");
    let checked = check(&encode(after), free, &schedule).expect("a list whose pairs rise");
    assert_eq!(checked.is_admissible(), admissible, "{stored:?}");
    tally.count(if admissible { "admissible" } else { "not admissible" });
}

const ANSWERS: &[&str] = &["a split", "no split", "admissible", "not admissible", "repeats", "no repeats"];

#[test]
fn same_answers_of_small_lists() {
    let mut random = Random::new(64);
    let mut tally = Tally::default();
    for _ in 0..40_000 {
        let delay = random.pick(&[6, 40, 1_000_000]);
        let need = random.pick(&[3, 9_999]);
        let net = net(&mut random, Size { registers: 10, pairs: 14, delay, need });
        let stored = stored_net(&mut random, &net, 10, delay);
        try_answers(&mut random, &stored, &mut tally);
    }
    tally.all_met("same answers of small lists", ANSWERS);
}

#[test]
fn same_answers_of_full_lists() {
    let mut random = Random::new(65);
    let mut tally = Tally::default();
    for _ in 0..300 {
        let delay = random.pick(&[30, 1_000, 1_000_000]);
        let m = random.pick(&[2_048, 1_024, 600, 511]);
        let net = exact_net(&mut random, 512, m, delay, 30);
        let stored = stored_net(&mut random, &net, 2_048 - m, delay);
        try_answers(&mut random, &stored, &mut tally);
    }
    tally.all_met("same answers of full lists", ANSWERS);
}

/// 2,048 pairs with needs: from the last to the first, in any order, and all of the same registers, with the least delay in the
/// last and the greatest in the first.
#[test]
fn largest_lists_converted() {
    let mut random = Random::new(66);
    let mut net = exact_net(&mut random, 512, 2_048, 1_000_000, 9_999);
    net.needs[0].setup = 9_999;
    let rising = encode(&net);
    assert_eq!((rising.len(), convert(&rising).as_ref()), (MAX_WORDS, Ok(&rising)));
    let mut stored = net.clone();
    stored.pairs.reverse();
    assert_eq!(convert(&encode(&stored)).as_ref(), Ok(&rising));
    assert_eq!(convert_into(&encode(&stored), &mut [0; MAX_WORDS - 1]), refuse(2, 0));
    shuffle(&mut random, &mut stored.pairs);
    assert_eq!(convert(&encode(&stored)).as_ref(), Ok(&rising));
    let same = |k: u32| Pair { launch: 511, capture: 511, least: 12_048 - k, greatest: 1_000_000 - k };
    stored.pairs = (0..2_048).map(same).collect();
    let mut answer = Lent::new(&mut random, MAX_WORDS);
    assert_eq!(convert_into(&encode(&stored), answer.slice()), Ok(1 + 512 + 3 + 1));
    stored.pairs = vec![Pair { launch: 511, capture: 511, least: 10_001, greatest: 1_000_000 }];
    assert!(answer.holds(&encode(&stored)));
    let mut numbers = Lent::new(&mut random, read_places(512, 1));
    assert_eq!(read(&answer.slice()[..517], numbers.slice()), Ok(Counts { registers: 512, pairs: 1 }));
    assert!(numbers.holds(&[stored.numbers(), stored.need_numbers()].concat()));
}
