//! Random numbers with a fixed seed, random lists of several shapes, and damage.
use std::collections::BTreeSet;

use crate::reference::{encode, need_word, sealed, Need, Net, Pair};

pub struct Random(u64);

impl Random {
    pub fn new(seed: u64) -> Random {
        Random(seed)
    }

    pub fn next(&mut self) -> u64 {
        self.0 = self.0.wrapping_add(0x9e37_79b9_7f4a_7c15);
        let mut z = self.0;
        z = (z ^ (z >> 30)).wrapping_mul(0xbf58_476d_1ce4_e5b9);
        z = (z ^ (z >> 27)).wrapping_mul(0x94d0_49bb_1331_11eb);
        z ^ (z >> 31)
    }

    pub fn word(&mut self) -> u32 {
        self.next() as u32
    }

    pub fn below(&mut self, end: usize) -> usize {
        (self.next() % end as u64) as usize
    }

    pub fn upto(&mut self, last: u32) -> u32 {
        (self.next() % (last as u64 + 1)) as u32
    }

    pub fn one_in(&mut self, k: usize) -> bool {
        self.below(k) == 0
    }

    pub fn pick<T: Copy>(&mut self, xs: &[T]) -> T {
        xs[self.below(xs.len())]
    }

    /// A length near `needed`: exact, one short, longer, or none at all.
    pub fn room(&mut self, needed: usize) -> usize {
        match self.below(8) {
            0 => needed.saturating_sub(1),
            1 => needed + 1 + self.below(9),
            2 => self.below(needed + 1),
            3 => 0,
            _ => needed,
        }
    }
}

/// At most so many registers and pairs, with delays up to `delay` and needs up to `need`.
#[derive(Clone, Copy)]
pub struct Size {
    pub registers: usize,
    pub pairs: usize,
    pub delay: u32,
    pub need: u32,
}

/// A net of a random shape: any two registers, a chain, a chain from the last register to the first, a ring, a chain whose pairs
/// point to and fro, or two rows with rungs; in one case of three the registers are mixed.
pub fn net(random: &mut Random, size: Size) -> Net {
    let n = 1 + random.below(size.registers);
    let m = random.below(size.pairs + 1);
    exact_net(random, n, m, size.delay, size.need)
}

/// With m pairs, or as many as there can be. A pair that is there already gives way to the next that is not.
pub fn exact_net(random: &mut Random, n: usize, m: usize, delay: u32, need: u32) -> Net {
    let shape = random.below(6);
    let tight = random.below(4) as u32;
    let needs = needs(random, n, delay, need);
    let mut taken = BTreeSet::new();
    let pairs: Vec<Pair> = (0..m.min(n * n))
        .map(|k| {
            let (launch, capture) = match shape {
                0 => (random.below(n), random.below(n)),
                1 => (k % n, (k + 1).min(n - 1) % n),
                2 => ((k + 1) % n, k % n),
                3 => (k % n, (k + 1) % n),
                4 => ((k + k % 2) % n, (k + 1 - k % 2) % n),
                _ => (k % n, (k + n / 2 + random.below(2)) % n),
            };
            let mut ends = n * launch + capture;
            while !taken.insert(ends) {
                ends = (ends + 1) % (n * n);
            }
            let (launch, capture) = (ends / n, ends % n);
            let hold = needs[capture].hold;
            let greatest = hold + random.upto(delay - hold);
            let least = match tight {
                0 => random.upto(greatest),
                1 => greatest - random.upto(greatest / 4),
                2 => greatest,
                _ => random.upto(greatest / 2),
            };
            Pair { launch, capture, least: least.max(hold), greatest }
        })
        .collect();
    let mut net = Net { needs, pairs };
    if random.one_in(3) {
        mix(random, &mut net);
    }
    net.ordered()
}

/// The pairs of a net in any order or from the last to the first, with up to `repeats` more of the same registers, whose delays the
/// list allows.
pub fn stored_net(random: &mut Random, net: &Net, repeats: usize, delay: u32) -> Net {
    let mut stored = net.clone();
    let count = if net.pairs.is_empty() { 0 } else { random.below(repeats + 1) };
    for _ in 0..count {
        let Pair { launch, capture, .. } = random.pick(&net.pairs);
        let hold = net.needs[capture].hold;
        let least = hold + random.upto(delay - hold);
        stored.pairs.push(Pair { launch, capture, least, greatest: least + random.upto(delay - least) });
    }
    match random.below(4) {
        0 => stored.pairs.reverse(),
        1 => {}
        _ => shuffle(random, &mut stored.pairs),
    }
    stored
}

/// Needs up to `need`: in half of all cases none at all, else of one register, holds or setups only, or both; no hold is above `delay`.
fn needs(random: &mut Random, n: usize, delay: u32, need: u32) -> Vec<Need> {
    let kind = random.below(8);
    let only = random.below(n);
    let mut draw = |most: u32| if random.one_in(4) { most } else { random.upto(most) };
    let (most_hold, most_setup) = (need.min(delay), need);
    (0..n)
        .map(|r| match kind {
            0..=3 => Need::default(),
            4 if r != only => Need::default(),
            5 => Need { hold: draw(most_hold), setup: 0 },
            6 => Need { hold: 0, setup: draw(most_setup) },
            _ => Need { hold: draw(most_hold), setup: draw(most_setup) },
        })
        .collect()
}

/// Registers renumbered, each with its needs.
fn mix(random: &mut Random, net: &mut Net) {
    let mut names: Vec<usize> = (0..net.registers()).collect();
    shuffle(random, &mut names);
    for p in &mut net.pairs {
        (p.launch, p.capture) = (names[p.launch], names[p.capture]);
    }
    let before = net.needs.clone();
    names.iter().zip(before).for_each(|(name, need)| net.needs[*name] = need);
}

pub fn shuffle<T>(random: &mut Random, xs: &mut [T]) {
    for i in (1..xs.len()).rev() {
        xs.swap(i, random.below(i + 1));
    }
}

/// The words of a net, in one case of three damaged.
pub fn words(random: &mut Random, net: &Net) -> Vec<u32> {
    if random.one_in(3) {
        damaged(random, net)
    } else {
        encode(net)
    }
}

/// The words of a net, damaged at one to three places.
pub fn damaged(random: &mut Random, net: &Net) -> Vec<u32> {
    let mut words = encode(net);
    for _ in 0..1 + random.below(3) {
        damage(random, net, &mut words);
    }
    words
}

fn damage(random: &mut Random, net: &Net, words: &mut Vec<u32>) {
    if words.is_empty() {
        return words.push(random.word());
    }
    match random.below(4) {
        0 => damage_any(random, words),
        1 => damage_pair(random, net, words),
        2 => damage_order(random, net, words),
        _ => damage_needs(random, net, words),
    }
    if random.one_in(2) {
        sealed(words);
    }
}

fn damage_any(random: &mut Random, words: &mut Vec<u32>) {
    let len = words.len();
    let at = random.below(len);
    match random.below(9) {
        0 => words[at] ^= 1 << random.below(32),
        1 => words[at] = random.word(),
        2 => words[at] = words[at] & 0x1fff_ffff | random.upto(7) << 29,
        3 => words.truncate(random.below(len)),
        4 => words.push(random.word()),
        5 => drop(words.remove(at)),
        6 => words[0] = 1 << 29 | random.pick(&[0, 1, 511, 512, 513, 1023]) << 12 | words[0] & 0xfff,
        7 => words[0] = words[0] & !0xfff | random.pick(&[0, 1, 2047, 2048, 2049, 4095]),
        _ => words[len - 1] = words[len - 1].wrapping_add(random.pick(&[1, u32::MAX])),
    }
}

/// Where the first pair stands.
fn first_pair(net: &Net) -> usize {
    1 + if net.needy() { net.registers() } else { 0 }
}

fn damage_pair(random: &mut Random, net: &Net, words: &mut [u32]) {
    let (n, last) = (net.registers() as u32, words.len() - 1);
    let pair = first_pair(net) + 3 * random.below(net.pairs.len() + 1);
    let [pair, least, greatest] = [pair, pair + 1, pair + 2].map(|k| k.min(last));
    match random.below(5) {
        0 => words[pair] = 2 << 29 | random.pick(&[n - 1, n, 1023]) << 10 | random.upto(n),
        1 => words[pair] |= 1 << (20 + random.below(9)),
        2 => words[least] = 3 << 29 | random.pick(&[0, 999_999, 1_000_000, 1_000_001, 1 << 28]),
        3 => words[greatest] = 4 << 29 | random.pick(&[0, 999_999, 1_000_000, 1_000_001, 1 << 28]),
        _ => {
            let near = (words[least] & 0x1fff_ffff).wrapping_add(random.upto(2)).wrapping_sub(1) & 0xf_ffff;
            words[greatest] = 4 << 29 | near;
        }
    }
}

/// A pair that changes places with the one before it, has its registers, or its launch or capture register.
fn damage_order(random: &mut Random, net: &Net, words: &mut [u32]) {
    let before = first_pair(net) + 3 * random.below(net.pairs.len().max(1));
    let Some(six) = words.get_mut(before..before + 6) else { return };
    match random.below(4) {
        0 => six.rotate_left(3),
        1 => six[3] = six[0],
        2 => six[3] = six[3] & !(0x3ff << 10) | six[0] & 0x3ff << 10,
        _ => six[3] = six[3] & !0x3ff | six[0] & 0x3ff,
    }
}

/// A block of zeros, one that was not there, none where one was, a word of it that is none, or a least delay near the hold of its
/// capture register.
fn damage_needs(random: &mut Random, net: &Net, words: &mut Vec<u32>) {
    let n = net.registers();
    let at = 1 + random.below(n);
    if !net.needy() || words.len() <= n {
        return put_block(random, n, words);
    }
    match random.below(10) {
        0 => words[at] |= 1 << 28,
        1 => words[at] = words[at] & 0x1fff_ffff | random.upto(7) << 29,
        2 => words[at] = words[at] & !0x3fff | random.pick(&[9_999, 10_000, 16_383]),
        3 => words[at] = words[at] & !(0x3fff << 14) | random.pick(&[9_999, 10_000, 16_383]) << 14,
        4 => words[1..=n].fill(5 << 29),
        5 => drop(words.drain(1..=n)),
        _ => {
            let k = random.below(net.pairs.len() + 1);
            if let (Some(p), Some(least)) = (net.pairs.get(k), words.get_mut(1 + n + 3 * k + 1)) {
                *least = 3 << 29 | (net.needs[p.capture].hold + random.upto(1)).saturating_sub(1);
            }
        }
    }
}

/// A block before the second word: of zeros, or with the needs of one register.
fn put_block(random: &mut Random, n: usize, words: &mut Vec<u32>) {
    let mut block = vec![Need::default(); n];
    if random.one_in(2) {
        let hold = random.pick(&[0, 1, 9_999]);
        block[random.below(n)] = Need { hold, setup: 1 + random.upto(9_998) };
    }
    words.splice(1..1, block.into_iter().map(need_word));
}
