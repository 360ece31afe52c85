//! The clock planner for Rust: safe calls of the proved functions, for slices of any length.
//!
//! A delay list is a run of 32-bit words. Each call gives a result, or a [`Refusal`] that changed no buffer.
//! `answer` and `scratch` are lent by the caller, and what they held before does not matter.

use std::error::Error;
use std::fmt;

const REPLY_PLACES: usize = 9;

/// The largest counts of a list.
pub const MAX_REGISTERS: usize = 512;
pub const MAX_PAIRS: usize = 2_048;

/// The most that a register needs, for hold or for setup, in picoseconds.
pub const MAX_NEED: u32 = 9_999;

/// The words of the longest list: the head, a word for each register, three for each pair, the end.
pub const MAX_WORDS: usize = 1 + MAX_REGISTERS + 3 * MAX_PAIRS + 1;

/// The bytes that [`report`] asks for.
pub const TEXT_PLACES: usize = 32_768;

/// The places that [`read`] fills for a list of so many registers and pairs.
pub const fn read_places(registers: usize, pairs: usize) -> usize {
    4 * pairs + 2 * registers
}

/// The places of scratch for a list of so many registers and pairs.
pub const fn scratch_places(registers: usize, pairs: usize) -> usize {
    6 * registers + 4 * pairs
}

/// The places that [`why_not`] asks for, for a list of so many registers.
pub const fn chain_places(registers: usize) -> usize {
    4 * registers
}

/// Why a call was refused, and the place, counted from 0, that is at fault.
#[derive(Clone, Copy, Debug, PartialEq, Eq)]
pub struct Refusal {
    pub number: u32,
    pub place: usize,
}

impl Refusal {
    /// What the number means, in plain words.
    pub fn meaning(&self) -> &'static str {
        match self.number {
            1 => "the scratch buffer is too short",
            2 => "the answer buffer is too short",
            3 => "period, offset or timing out of range, or not one timing for each register",
            11 => "the count of words, of numbers or of needs is wrong",
            12 => "the count of registers or of pairs is out of range",
            13 => "a word of the wrong kind, or a need above 9999 picoseconds",
            14 => "a register is not below the count of registers",
            15 => "a delay is above 1000000 picoseconds",
            16 => "a least delay is above its greatest",
            17 => "the sum at the end is wrong: the list is damaged",
            18 => "all needs are zero: such a list has no words for them",
            19 => "a least delay is below the hold of its capture register",
            20 => "pairs have to rise by launch, then capture: convert_list orders them",
            _ => "no call is refused with this number",
        }
    }
}

/// One line, such as `refused 14 at 4: a register is not below the count of registers`.
impl fmt::Display for Refusal {
    fn fmt(&self, f: &mut fmt::Formatter<'_>) -> fmt::Result {
        write!(f, "refused {} at {}: {}", self.number, self.place, self.meaning())
    }
}

impl Error for Refusal {}

/// The counts of a list.
#[derive(Clone, Copy, Debug, PartialEq, Eq)]
pub struct Counts {
    pub registers: u32,
    pub pairs: u32,
}

#[derive(Clone, Copy, Debug, PartialEq, Eq)]
pub enum Rule {
    Setup,
    Hold,
}

/// The smallest margin of all, in picoseconds, with the first pair that has it and its rule, setup before hold. The margin of a
/// rule is its right side minus its left side: 0 where it is just met, negative where it is broken.
#[derive(Clone, Copy, Debug, PartialEq, Eq)]
pub struct Smallest {
    pub margin: i64,
    pub pair: usize,
    pub rule: Rule,
}

/// What checking a schedule finds: each pair meets both rules, or the first pair that does not and the rule that it breaks;
/// either way with the smallest margin. A list without pairs has no margin: every schedule is admissible.
#[derive(Clone, Copy, Debug, PartialEq, Eq)]
pub enum Checked {
    NoPairs,
    Admissible { smallest: Smallest },
    Broken { pair: usize, rule: Rule, smallest: Smallest },
}

impl Checked {
    /// Whether each pair meets both rules.
    pub fn is_admissible(&self) -> bool {
        !matches!(self, Checked::Broken { .. })
    }
}

#[derive(Clone, Copy, Debug, PartialEq, Eq)]
pub struct Periods {
    pub common: u32,
    pub free: u32,
}

/// Whether some split works.
#[derive(Clone, Copy, Debug, PartialEq, Eq)]
pub enum Split {
    Found,
    None,
}

#[derive(Clone, Copy, Debug, PartialEq, Eq)]
pub struct Plan {
    pub common: u32,
    pub free: u32,
    pub two: u32,
    pub offset: u32,
}

/// Whether some split works at a period with any offset. If none does, two chains of forced choices at a register, which lie
/// in the answer buffer: the first leads from the register early to it late, the second from late back to early. Each number of
/// a chain is a [`Step`].
#[derive(Clone, Copy, Debug, PartialEq, Eq)]
pub enum Reason<'a> {
    Workable,
    Blocked { register: u32, first: &'a [u32], second: &'a [u32] },
}

/// A step of a chain: a pair, and a choice for each of its ends with which it breaks a rule. Where the chain stands at one end
/// with its choice, the other end has to have the opposite one, and there the chain goes on.
#[derive(Clone, Copy, Debug, PartialEq, Eq)]
pub struct Step {
    pub pair: usize,
    pub launch_late: bool,
    pub capture_late: bool,
}

impl Step {
    /// The step of a number: 4 times the pair's index, 2 more for a late launch, 1 more for a late capture.
    pub fn of(number: u32) -> Step {
        Step { pair: (number / 4) as usize, launch_late: number / 2 % 2 == 1, capture_late: number % 2 == 1 }
    }
}

type Reply = [u64; REPLY_PLACES];

extern "C" {
    fn darnerflax_read(words: *const u32, words_len: usize, answer: *mut u32, answer_len: usize, reply: *mut Reply) -> u32;
    fn darnerflax_write(
        n: u32,
        numbers: *const u32,
        numbers_len: usize,
        needs: *const u32,
        needs_len: usize,
        answer: *mut u32,
        answer_len: usize,
        reply: *mut Reply,
    ) -> u32;
    fn darnerflax_convert(words: *const u32, words_len: usize, answer: *mut u32, answer_len: usize, reply: *mut Reply) -> u32;
    fn darnerflax_check(
        words: *const u32,
        words_len: usize,
        period: u32,
        timings: *const u32,
        timings_len: usize,
        reply: *mut Reply,
    ) -> u32;
    fn darnerflax_free(words: *const u32, words_len: usize, answer: *mut u32, answer_len: usize, reply: *mut Reply) -> u32;
    fn darnerflax_split(
        words: *const u32,
        words_len: usize,
        period: u32,
        offset: u32,
        answer: *mut u32,
        answer_len: usize,
        scratch: *mut u32,
        scratch_len: usize,
        reply: *mut Reply,
    ) -> u32;
    fn darnerflax_plan(
        words: *const u32,
        words_len: usize,
        answer: *mut u32,
        answer_len: usize,
        scratch: *mut u32,
        scratch_len: usize,
        reply: *mut Reply,
    ) -> u32;
    fn darnerflax_why_not(
        words: *const u32,
        words_len: usize,
        period: u32,
        answer: *mut u32,
        answer_len: usize,
        scratch: *mut u32,
        scratch_len: usize,
        reply: *mut Reply,
    ) -> u32;
    fn darnerflax_report(bytes: *const u8, bytes_len: usize, text: *mut [u8; TEXT_PLACES]) -> usize;
}

/// The count of values and the values of a result, or the refusal. Each value is proved to fit what a caller makes of it.
fn told(call: impl FnOnce(*mut Reply) -> u32) -> Result<Reply, Refusal> {
    let mut reply = [0; REPLY_PLACES];
    match call(&mut reply) {
        0 => Ok(reply),
        number => Err(Refusal { number, place: reply[1] as usize }),
    }
}

/// Reads a list: launch, capture, least and greatest of each pair fill the first 4m places of `answer`, hold and setup need
/// of each register the next 2n, which are zeros for a list without needs.
pub fn read(words: &[u32], answer: &mut [u32]) -> Result<Counts, Refusal> {
    // SAFETY: pointer and length of a slice each; the function has no precondition.
    let [_, registers, pairs, ..] =
        told(|reply| unsafe { darnerflax_read(words.as_ptr(), words.len(), answer.as_mut_ptr(), answer.len(), reply) })?;
    Ok(Counts { registers: registers as u32, pairs: pairs as u32 })
}

/// Writes the list of n registers from four numbers for each pair, in rising order by launch, then capture, and a hold and a
/// setup need for each register; its words fill the first places of `answer`. Needs that are all zero take no words. The count of words is returned.
pub fn write(n: u32, numbers: &[u32], needs: &[u32], answer: &mut [u32]) -> Result<usize, Refusal> {
    // SAFETY: as for `read`.
    let [_, count, ..] = told(|reply| unsafe {
        darnerflax_write(
            n,
            numbers.as_ptr(),
            numbers.len(),
            needs.as_ptr(),
            needs.len(),
            answer.as_mut_ptr(),
            answer.len(),
            reply,
        )
    })?;
    Ok(count as usize)
}

/// Converts a stored list, whose pairs come in any order and may repeat, into one whose pairs rise by launch, then capture. Pairs
/// of the same registers become one, with the smaller least and the larger greatest delay; what the list asks for stays the
/// same. It is refused as it would be read, except that there is no 20.
pub fn convert(words: &[u32]) -> Result<Vec<u32>, Refusal> {
    // no list is longer after it is converted
    let mut answer = vec![0; words.len().min(MAX_WORDS)];
    let count = convert_into(words, &mut answer)?;
    answer.truncate(count);
    Ok(answer)
}

/// The same into a buffer: the words fill the first places of `answer`, and their count is returned.
pub fn convert_into(words: &[u32], answer: &mut [u32]) -> Result<usize, Refusal> {
    // SAFETY: as for `read`.
    let [_, count, ..] =
        told(|reply| unsafe { darnerflax_convert(words.as_ptr(), words.len(), answer.as_mut_ptr(), answer.len(), reply) })?;
    Ok(count as usize)
}

/// A rule by its number.
fn rule_of(number: u64) -> Rule {
    if number == 0 {
        Rule::Setup
    } else {
        Rule::Hold
    }
}

/// Checks a schedule, a timing for each register, at a period.
pub fn check(words: &[u32], period: u32, timings: &[u32]) -> Result<Checked, Refusal> {
    // SAFETY: as for `read`.
    let [count, margin, pair, rule, broken, broken_rule, ..] =
        told(|reply| unsafe { darnerflax_check(words.as_ptr(), words.len(), period, timings.as_ptr(), timings.len(), reply) })?;
    // the margin is told in two's complement
    let smallest = Smallest { margin: margin as i64, pair: pair as usize, rule: rule_of(rule) };
    Ok(match count {
        0 => Checked::NoPairs,
        3 => Checked::Admissible { smallest },
        _ => Checked::Broken { pair: broken as usize, rule: rule_of(broken_rule), smallest },
    })
}

/// The common and the free period; the least free schedule fills the first n places of `answer`.
pub fn free(words: &[u32], answer: &mut [u32]) -> Result<Periods, Refusal> {
    // SAFETY: as for `read`.
    let [_, common, free, ..] =
        told(|reply| unsafe { darnerflax_free(words.as_ptr(), words.len(), answer.as_mut_ptr(), answer.len(), reply) })?;
    Ok(Periods { common: common as u32, free: free as u32 })
}

/// The first split at a period and an offset: its timings fill the first n places of `answer`. The first 6n + 4m places of
/// `scratch` are left zero.
pub fn split(words: &[u32], period: u32, offset: u32, answer: &mut [u32], scratch: &mut [u32]) -> Result<Split, Refusal> {
    // SAFETY: as for `read`.
    let [_, found, ..] = told(|reply| unsafe {
        darnerflax_split(
            words.as_ptr(),
            words.len(),
            period,
            offset,
            answer.as_mut_ptr(),
            answer.len(),
            scratch.as_mut_ptr(),
            scratch.len(),
            reply,
        )
    })?;
    Ok(if found == 1 { Split::Found } else { Split::None })
}

/// The full plan: the free timings fill the first n places of `answer`, the split's timings the next n. The first 6n + 4m
/// places of `scratch` are left zero.
pub fn plan(words: &[u32], answer: &mut [u32], scratch: &mut [u32]) -> Result<Plan, Refusal> {
    // SAFETY: as for `read`.
    let [_, common, free, two, offset, ..] = told(|reply| unsafe {
        darnerflax_plan(
            words.as_ptr(),
            words.len(),
            answer.as_mut_ptr(),
            answer.len(),
            scratch.as_mut_ptr(),
            scratch.len(),
            reply,
        )
    })?;
    Ok(Plan { common: common as u32, free: free as u32, two: two as u32, offset: offset as u32 })
}

/// Why no split works at a period, whatever its offset: the chains fill the first places of `answer`, which takes 4n places. The
/// first 6n + 4m places of `scratch` are left zero.
pub fn why_not<'a>(words: &[u32], period: u32, answer: &'a mut [u32], scratch: &mut [u32]) -> Result<Reason<'a>, Refusal> {
    // SAFETY: as for `read`.
    let [_, blocked, register, first, second, ..] = told(|reply| unsafe {
        darnerflax_why_not(
            words.as_ptr(),
            words.len(),
            period,
            answer.as_mut_ptr(),
            answer.len(),
            scratch.as_mut_ptr(),
            scratch.len(),
            reply,
        )
    })?;
    if blocked == 0 {
        return Ok(Reason::Workable);
    }
    let (first, rest) = answer.split_at(first as usize);
    Ok(Reason::Blocked { register: register as u32, first, second: &rest[..second as usize] })
}

/// The text of the plan of a list's bytes, or of its refusal, in the first places of `text`. The count of its bytes is returned.
pub fn report(bytes: &[u8], text: &mut [u8; TEXT_PLACES]) -> usize {
    // SAFETY: as for `read`; `text` is a whole array.
    unsafe { darnerflax_report(bytes.as_ptr(), bytes.len(), text) }
}
