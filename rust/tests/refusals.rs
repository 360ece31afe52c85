//! What a refusal says: one line for each number, in the words that the programs print, and an error like any other.
use std::error::Error;
use std::path::Path;

use darnerflax::*;

/// 0-1 7/10 and 1-0 1/3.
const P: [u32; 8] = [0x2000_2002, 0x4000_0001, 0x6000_0007, 0x8000_000a, 0x4000_0400, 0x6000_0001, 0x8000_0003, 0xe000_2418];

/// The same with needs, hold and setup: 1 and 2 of register 0, 2 and 1 of register 1.
const NEEDY: [u32; 10] = [
    0x2000_2002,
    0xa000_8001,
    0xa000_4002,
    0x4000_0001,
    0x6000_0007,
    0x8000_000a,
    0x4000_0400,
    0x6000_0001,
    0x8000_0003,
    0xe000_e41b,
];

const LINES: [(u32, &str); 13] = [
    (1, "refused 1 at 0: the scratch buffer is too short"),
    (2, "refused 2 at 0: the answer buffer is too short"),
    (3, "refused 3 at 0: period, offset or timing out of range, or not one timing for each register"),
    (11, "refused 11 at 0: the count of words, of numbers or of needs is wrong"),
    (12, "refused 12 at 0: the count of registers or of pairs is out of range"),
    (13, "refused 13 at 5: a word of the wrong kind, or a need above 9999 picoseconds"),
    (14, "refused 14 at 4: a register is not below the count of registers"),
    (15, "refused 15 at 6: a delay is above 1000000 picoseconds"),
    (16, "refused 16 at 6: a least delay is above its greatest"),
    (17, "refused 17 at 7: the sum at the end is wrong: the list is damaged"),
    (18, "refused 18 at 1: all needs are zero: such a list has no words for them"),
    (19, "refused 19 at 4: a least delay is below the hold of its capture register"),
    (20, "refused 20 at 4: pairs have to rise by launch, then capture: convert_list orders them"),
];

/// A plan of P with the word at a place changed, in room for two registers and two pairs.
fn plan_with(place: usize, word: u32) -> Result<Plan, Refusal> {
    let mut words = P;
    words[place] = word;
    plan(&words, &mut [0; 4], &mut [0; 20])
}

/// The same of the list with needs, with one word or more from a place on changed.
fn needy_with(place: usize, changed: &[u32]) -> Result<Plan, Refusal> {
    let mut words = NEEDY;
    words[place..place + changed.len()].copy_from_slice(changed);
    plan(&words, &mut [0; 4], &mut [0; 20])
}

/// A call that is refused with the number.
fn refused(number: u32) -> Refusal {
    let call = match number {
        1 => plan(&P, &mut [0; 4], &mut [0; 19]),
        2 => plan(&P, &mut [0; 3], &mut [0; 20]),
        3 => return check(&P, 0, &[0, 3]).unwrap_err(),
        11 => plan(&P[..7], &mut [0; 4], &mut [0; 20]),
        12 => plan_with(0, 0x2000_0002),
        13 => plan_with(5, 0x4000_0001),
        14 => plan_with(4, 0x4000_0800),
        15 => plan_with(6, 0x8000_0000 + 1_000_001),
        16 => plan_with(6, 0x8000_0000),
        17 => plan_with(7, 0xe000_2419),
        18 => needy_with(1, &[0xa000_0000, 0xa000_0000]),
        19 => needy_with(4, &[0x6000_0001]),
        _ => plan_with(4, 0x4000_0001),
    };
    call.unwrap_err()
}

#[test]
fn each_number_in_words() {
    for (number, line) in LINES {
        let refusal = refused(number);
        assert_eq!((refusal.number, refusal.to_string().as_str()), (number, line));
    }
}

#[test]
fn a_number_of_no_call() {
    let made_up = Refusal { number: 99, place: 7 };
    assert_eq!(made_up.to_string(), "refused 99 at 7: no call is refused with this number");
}

/// The rows of a list of meanings in the definition of what the programs print: `(11, " the count ..\n")`.
fn meanings(text: &str, name: &str) -> Vec<(u32, String)> {
    let (_, from) = text.split_once(&format!("\n{name} =\n")).expect(name);
    let (rows, _) = from.split_once("[]").expect("the end of the rows");
    let row = |line: &str| {
        let (number, rest) = line.split_once('(')?.1.split_once(", \" ")?;
        Some((number.parse().ok()?, rest.split_once("\\n\")")?.0.to_string()))
    };
    rows.lines().filter_map(row).collect()
}

/// The programs say "a buffer" for 1 and 2; here it is known which. The rows from 31 on are the causes of a 3, which they know.
#[test]
fn the_words_of_the_programs() {
    let file = Path::new(env!("CARGO_MANIFEST_DIR")).join("../crates/refusal_text/specs/RefusalText.antt");
    let text = std::fs::read_to_string(file).expect("the definition of the lines of a refusal");
    let rows: Vec<_> = ["list_meanings", "pair_meanings", "call_meanings"].iter().flat_map(|name| meanings(&text, name)).collect();
    assert_eq!(rows.len(), 15, "{rows:?}");
    for (number, words) in rows.into_iter().filter(|(number, _)| (3..31).contains(number)) {
        assert_eq!(Refusal { number, place: 0 }.meaning(), words);
    }
}

fn shortest(words: &[u32]) -> Result<u32, Box<dyn Error>> {
    let count: usize = "4".parse()?;
    Ok(plan(words, &mut vec![0; count], &mut [0; 20])?.two)
}

#[test]
fn passed_on_as_an_error() {
    assert_eq!(shortest(&P).unwrap(), 7);
    let error = shortest(&P[..7]).unwrap_err();
    assert_eq!(error.to_string(), LINES[3].1);
    assert_eq!(error.downcast_ref(), Some(&Refusal { number: 11, place: 0 }));
    assert!(error.source().is_none());
}
