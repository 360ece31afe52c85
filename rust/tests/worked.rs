//! The worked examples, and calls with nothing lent at all.
use darnerflax::*;

/// 0-1 7/10 and 1-0 1/3.
const P: [u32; 8] = [0x2000_2002, 0x4000_0001, 0x6000_0007, 0x8000_000a, 0x4000_0400, 0x6000_0001, 0x8000_0003, 0xe000_2418];

/// P with needs, hold and setup: 1 and 2 of register 0, 2 and 1 of register 1.
const NEEDY: [u32; 10] = [
    0x2000_2002,
    0xa000_8001,
    0xa000_4002,
    0x4000_0001,
    0x6000_0007,
    0x8000_000a,
    0x4000_0400,
    0x6000_0001,
    0x8000_0003,
    0xe000_e41b,
];

fn needy_list(n: u32, numbers: &[u32], needs: &[u32]) -> Vec<u32> {
    let mut words = vec![0; MAX_WORDS];
    let count = write(n, numbers, needs, &mut words).unwrap();
    words.truncate(count);
    words
}

fn list(n: u32, numbers: &[u32]) -> Vec<u32> {
    needy_list(n, numbers, &vec![0; 2 * n as usize])
}

/// The numbers of the plan, the free timings and the split.
fn planned(words: &[u32]) -> ([u32; 4], Vec<u32>, Vec<u32>) {
    let mut answer = [7; 2 * MAX_REGISTERS];
    let mut scratch = vec![7; scratch_places(MAX_REGISTERS, MAX_PAIRS)];
    let Plan { common, free, two, offset } = plan(words, &mut answer, &mut scratch).unwrap();
    let n = read(words, &mut [0; read_places(MAX_REGISTERS, MAX_PAIRS)]).unwrap().registers as usize;
    ([common, free, two, offset], answer[..n].to_vec(), answer[n..2 * n].to_vec())
}

#[test]
fn plans() {
    assert_eq!(planned(&P), ([10, 7, 7, 3], vec![0, 3], vec![0, 3]));
    assert_eq!(planned(&list(2, &[0, 1, 3, 10])).0, [10, 7, 7, 3]);
    assert_eq!(planned(&list(2, &[0, 1, 0, 10])).0, [10, 10, 10, 0]);
    assert_eq!(planned(&list(2, &[0, 1, 10, 10])).0, [10, 1, 1, 9]);
    let ring = list(3, &[0, 1, 9, 9, 1, 2, 9, 9, 2, 0, 3, 3]);
    assert_eq!(planned(&ring), ([9, 7, 9, 0], vec![0, 2, 4], vec![0, 0, 0]));
    assert_eq!(planned(&list(3, &[])).0, [1, 1, 1, 0]);
    assert_eq!(planned(&list(1, &[0, 0, 0, 5])).0, [5, 5, 5, 0]);
    assert_eq!(planned(&list(2, &[0, 1, 2, 10])).0, [10, 8, 8, 2]);
}

/// A pair that stands twice, or out of order: each call that takes a list refuses it at its pair word, the writer at its index.
#[test]
fn pairs_that_do_not_rise() {
    let twice = [0x2000_2002, 0x4000_0001, 0x6000_0007, 0x8000_000a, 0x4000_0001, 0x6000_0002, 0x8000_0004, 0xe000_201b];
    let below = [0x2000_2002, 0x4000_0400, 0x6000_0001, 0x8000_0003, 0x4000_0001, 0x6000_0007, 0x8000_000a, 0xe000_2418];
    let refused = Refusal { number: 20, place: 4 };
    for words in [twice, below] {
        assert_eq!(read(&words, &mut [0; 12]), Err(refused));
        assert_eq!(check(&words, 0, &[0, 3]), Err(refused));
        assert_eq!(free(&words, &mut [0; 1]), Err(refused));
        assert_eq!(split(&words, 0, 3, &mut [0; 1], &mut []), Err(refused));
        assert_eq!(plan(&words, &mut [0; 1], &mut []), Err(refused));
        assert_eq!(why_not(&words, 0, &mut [0; 1], &mut []), Err(refused));
        let mut text = [b'.'; TEXT_PLACES];
        let bytes: Vec<u8> = words.iter().flat_map(|word| word.to_le_bytes()).collect();
        let count = report(&bytes, &mut text);
        assert_eq!(&text[..count], b"refused 20 at 4\n");
    }
    let written = |numbers: &[u32]| write(2, numbers, &[0; 4], &mut [0; 1]);
    assert_eq!(written(&[0, 1, 7, 10, 0, 1, 2, 4]), Err(Refusal { number: 20, place: 1 }));
    assert_eq!(written(&[0, 0, 1, 3, 1, 0, 1, 3, 0, 1, 7, 10]), Err(Refusal { number: 20, place: 2 }));
}

/// 0-1 7/10 and 0-1 2/4, through the converter: 0-1 2/10. Pairs of P in the other order come out as P.
#[test]
fn pairs_converted() {
    let twice = [0x2000_2002, 0x4000_0001, 0x6000_0007, 0x8000_000a, 0x4000_0001, 0x6000_0002, 0x8000_0004, 0xe000_201b];
    let once = convert(&twice).unwrap();
    assert_eq!(once, list(2, &[0, 1, 2, 10]));
    assert_eq!(planned(&once), ([10, 8, 8, 2], vec![0, 2], vec![0, 2]));
    let below = [0x2000_2002, 0x4000_0400, 0x6000_0001, 0x8000_0003, 0x4000_0001, 0x6000_0007, 0x8000_000a, 0xe000_2418];
    assert_eq!(convert(&below), Ok(P.to_vec()));
    let mut answer = [7; 6];
    assert_eq!((convert_into(&twice, &mut answer), &answer[..5], answer[5]), (Ok(5), &once[..], 7));
    assert_eq!(convert_into(&twice, &mut answer[..4]), Err(Refusal { number: 2, place: 0 }));
    assert_eq!(convert(&twice[..7]), Err(Refusal { number: 11, place: 0 }));
}

/// The common period takes the greatest delay and the setup of the capture register, and a hold takes off from what a register
/// may be later. With no hold to take off, 0-1 10/10 goes down to what the setup needs.
#[test]
fn plans_with_needs() {
    assert_eq!(planned(&NEEDY), ([11, 8, 8, 3], vec![0, 3], vec![0, 3]));
    assert_eq!(planned(&needy_list(2, &[0, 1, 10, 10], &[0, 0, 0, 4])), ([14, 4, 4, 10], vec![0, 10], vec![0, 10]));
    assert_eq!(planned(&needy_list(2, &[0, 1, 10, 10], &[0, 0, 4, 0])), ([10, 4, 4, 6], vec![0, 6], vec![0, 6]));
    assert_eq!(planned(&needy_list(2, &[0, 1, 10, 10], &[4, 4, 0, 0])).0, [10, 1, 1, 9]);
    assert_eq!(planned(&needy_list(1, &[0, 0, 2, 5], &[2, 3])).0, [8, 8, 8, 0]);
    assert_eq!(planned(&needy_list(3, &[], &[0, 0, 1, 0, 0, 0])).0, [1, 1, 1, 0]);
    let most = needy_list(2, &[0, 1, 1_000_000, 1_000_000], &[0, 0, 0, 9_999]);
    assert_eq!(planned(&most), ([1_009_999, 9_999, 9_999, 1_000_000], vec![0, 1_000_000], vec![0, 1_000_000]));
}

#[test]
fn needs_read_and_written() {
    let mut answer = [7; 13];
    assert_eq!(read(&NEEDY, &mut answer), Ok(Counts { registers: 2, pairs: 2 }));
    assert_eq!(answer, [0, 1, 7, 10, 1, 0, 1, 3, 1, 2, 2, 1, 7]);
    assert_eq!(needy_list(2, &answer[..8], &answer[8..12]), NEEDY);
    assert_eq!(read(&P, &mut answer), Ok(Counts { registers: 2, pairs: 2 }));
    assert_eq!(answer[8..], [0, 0, 0, 0, 7]);
    assert_eq!(read(&P, &mut [0; 11]), Err(Refusal { number: 2, place: 0 }));
    assert_eq!(list(2, &answer[..8]), P);
}

/// Each pair meets both rules: the smallest margin, its pair and its rule.
fn met(margin: i64, pair: usize, rule: Rule) -> Result<Checked, Refusal> {
    Ok(Checked::Admissible { smallest: Smallest { margin, pair, rule } })
}

/// The first pair that breaks a rule, and then the smallest margin.
fn broken(pair: usize, rule: Rule, smallest: (i64, usize, Rule)) -> Result<Checked, Refusal> {
    Ok(Checked::Broken { pair, rule, smallest: Smallest { margin: smallest.0, pair: smallest.1, rule: smallest.2 } })
}

#[test]
fn checks_with_needs() {
    assert_eq!(check(&NEEDY, 8, &[0, 3]), met(0, 0, Rule::Setup));
    assert_eq!(check(&NEEDY, 7, &[0, 3]), broken(0, Rule::Setup, (-1, 0, Rule::Setup)));
    assert_eq!(check(&NEEDY, 8, &[0, 4]), broken(1, Rule::Setup, (-1, 1, Rule::Setup)));
    assert_eq!(check(&NEEDY, 11, &[0, 5]), met(0, 0, Rule::Hold));
    assert_eq!(check(&NEEDY, 11, &[0, 6]), broken(0, Rule::Hold, (-1, 0, Rule::Hold)));
    assert_eq!(check(&NEEDY, 12, &[1, 0]), broken(1, Rule::Hold, (-1, 1, Rule::Hold)));
}

#[test]
fn splits_of_p() {
    for (offset, works) in [(2, false), (3, true), (4, true), (5, false)] {
        let (mut answer, mut scratch) = ([9; 2], [9; 20]);
        let found = split(&P, 7, offset, &mut answer, &mut scratch);
        assert_eq!(found, Ok(if works { Split::Found } else { Split::None }));
        assert_eq!(answer, if works { [0, offset] } else { [9, 9] });
        assert_eq!(scratch, [0; 20]);
    }
}

/// P at 6, where the offset is 4: register 1 early makes 0 late (pair 0 is too slow for both early), and 0 late makes 1 late (it
/// is too slow from late to early as well); 1 late makes 0 late (pair 1 is too slow from late to early), and 0 late makes 1 early
/// (pair 0 is too slow for both late).
#[test]
fn what_blocks_p() {
    let (mut answer, mut scratch) = ([9; 9], [9; 21]);
    let told = why_not(&P, 6, &mut answer, &mut scratch);
    assert_eq!(told, Ok(Reason::Blocked { register: 1, first: &[0, 2], second: &[6, 3] }));
    assert_eq!((answer, scratch[..20] == [0; 20], scratch[20]), ([0, 2, 6, 3, 9, 9, 9, 9, 9], true, 9));
    assert_eq!(Step::of(6), Step { pair: 1, launch_late: true, capture_late: false });
    assert_eq!(
        [0, 1, 3].map(Step::of).map(|s| (s.pair, s.launch_late, s.capture_late)),
        [(0, false, false), (0, false, true), (0, true, true)]
    );
    for period in [7, 10, 1_009_999] {
        let mut answer = [9; 8];
        assert_eq!(why_not(&P, period, &mut answer, &mut [9; 20]), Ok(Reason::Workable));
        assert_eq!(answer, [9; 8]);
    }
    assert!(matches!(why_not(&NEEDY, 7, &mut [0; 8], &mut [0; 20]), Ok(Reason::Blocked { .. })));
    assert_eq!(why_not(&NEEDY, 8, &mut [0; 8], &mut [0; 20]), Ok(Reason::Workable));
}

/// A pair that joins a register to itself blocks alone; without pairs every period works.
#[test]
fn what_blocks_one_register() {
    let one = list(1, &[0, 0, 0, 5]);
    assert_eq!(why_not(&one, 4, &mut [0; 4], &mut [0; 10]), Ok(Reason::Blocked { register: 0, first: &[0], second: &[3] }));
    assert_eq!(why_not(&one, 5, &mut [0; 4], &mut [0; 10]), Ok(Reason::Workable));
    assert_eq!(why_not(&list(3, &[]), 1, &mut [0; 12], &mut [0; 18]), Ok(Reason::Workable));
}

/// 3 comes before 2 and 2 before 1, also where some split works, and nothing is changed.
#[test]
fn reasons_refused() {
    let refused = |period, room: usize, spare: usize| {
        let (mut answer, mut scratch) = (vec![9; room], vec![9; spare]);
        let number = why_not(&P, period, &mut answer, &mut scratch).unwrap_err().number;
        assert!(answer.iter().chain(&scratch).all(|place| *place == 9));
        number
    };
    assert_eq!([refused(0, 7, 19), refused(1_010_000, 7, 19)], [3, 3]);
    assert_eq!([refused(6, 7, 19), refused(7, 7, 19), refused(7, 7, 20)], [2, 2, 2]);
    assert_eq!([refused(6, 8, 19), refused(7, 8, 19)], [1, 1]);
}

#[test]
fn edges_of_a_list() {
    let one = |n, four: [u32; 4]| write(n, &four, &[0; 4], &mut [0; 5]).map_err(|refusal| refusal.number);
    assert_eq!([one(2, [0, 1, 0, 1_000_000]), one(2, [0, 1, 0, 1_000_001])], [Ok(5), Err(15)]);
    assert_eq!([one(2, [0, 1, 4, 4]), one(2, [0, 1, 4, 3])], [Ok(5), Err(16)]);
    assert_eq!([one(2, [0, 1, 0, 0]), one(2, [0, 2, 0, 0])], [Ok(5), Err(14)]);
}

#[test]
fn checks_of_p() {
    assert_eq!(check(&P, 7, &[0, 3]), met(0, 0, Rule::Setup));
    assert_eq!(check(&P, 10, &[0, 3]), met(3, 0, Rule::Setup));
    assert_eq!(check(&P, 6, &[0, 3]), broken(0, Rule::Setup, (-1, 0, Rule::Setup)));
    assert_eq!(check(&P, 7, &[0, 8]), broken(0, Rule::Hold, (-4, 1, Rule::Setup)));
    assert_eq!(check(&P, 10, &[0]), Err(Refusal { number: 3, place: 0 }));
    assert_eq!(check(&list(2, &[]), 1, &[0, 3]), Ok(Checked::NoPairs));
    assert_eq!([7, 6].map(|period| check(&P, period, &[0, 3]).unwrap().is_admissible()), [true, false]);
}

#[test]
fn nothing_lent() {
    let short = Refusal { number: 11, place: 0 };
    assert_eq!(read(&[], &mut []), Err(short));
    assert_eq!(write(1, &[], &[], &mut []), Err(short));
    assert_eq!(write(1, &[], &[0, 0], &mut []), Err(Refusal { number: 2, place: 0 }));
    assert_eq!(convert_into(&[], &mut []), Err(short));
    assert_eq!(convert(&[]), Err(short));
    assert_eq!(check(&[], 1, &[]), Err(short));
    assert_eq!(free(&[], &mut []), Err(short));
    assert_eq!(split(&[], 1, 0, &mut [], &mut []), Err(short));
    assert_eq!(plan(&[], &mut [], &mut []), Err(short));
    assert_eq!(why_not(&[], 1, &mut [], &mut []), Err(short));
    let mut text = [b'.'; TEXT_PLACES];
    let count = report(&[], &mut text);
    assert_eq!(&text[..count], b"refused 11 at 0\n");
}
