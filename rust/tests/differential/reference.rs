//! The second implementation: own list format, Bellman-Ford on the constraint graph with halving over the period, 2-SAT by
//! strongly connected components, halving for the plan; and plain searches for small nets.
use darnerflax::{Checked, Periods, Plan, Refusal, Rule, Smallest};

#[derive(Clone, Copy, Debug, PartialEq, Eq)]
pub struct Pair {
    pub launch: usize,
    pub capture: usize,
    pub least: u32,
    pub greatest: u32,
}

impl Pair {
    pub fn ends(&self) -> (usize, usize) {
        (self.launch, self.capture)
    }
}

/// What a register needs: how long its input holds after the tick, and how long it stands before.
#[derive(Clone, Copy, Debug, Default, PartialEq, Eq)]
pub struct Need {
    pub hold: u32,
    pub setup: u32,
}

/// As many needs as registers.
#[derive(Clone, Debug, PartialEq, Eq)]
pub struct Net {
    pub needs: Vec<Need>,
    pub pairs: Vec<Pair>,
}

pub fn refuse<T>(number: u32, place: usize) -> Result<T, Refusal> {
    Err(Refusal { number, place })
}

// ---- the list

fn low29(sum: u64) -> u32 {
    (sum % (1 << 29)) as u32
}

/// Puts the end word right.
pub fn sealed(words: &mut [u32]) {
    if let Some((end, before)) = words.split_last_mut() {
        *end = 0xe000_0000 + low29(before.iter().map(|w| *w as u64).sum());
    }
}

/// The word of a register's needs.
pub fn need_word(need: Need) -> u32 {
    0xa000_0000 + 16_384 * need.setup + need.hold
}

/// The words of a net; those of its needs only if one is above zero.
pub fn encode(net: &Net) -> Vec<u32> {
    let mut words = vec![0x2000_0000 + 4_096 * net.registers() as u32 + net.pairs.len() as u32];
    if net.needy() {
        words.extend(net.needs.iter().map(|need| need_word(*need)));
    }
    for p in &net.pairs {
        words.push(0x4000_0000 + 1_024 * p.launch as u32 + p.capture as u32);
        words.push(0x6000_0000 + p.least);
        words.push(0x8000_0000 + p.greatest);
    }
    words.push(0);
    sealed(&mut words);
    words
}

/// 14, 15, 16 and 19, with the places for registers, least and greatest.
fn values(needs: &[Need], p: &Pair, places: [usize; 3]) -> Result<(), Refusal> {
    if p.launch.max(p.capture) >= needs.len() {
        return refuse(14, places[0]);
    }
    if p.least > 1_000_000 {
        return refuse(15, places[1]);
    }
    if p.greatest > 1_000_000 {
        return refuse(15, places[2]);
    }
    if p.least > p.greatest {
        return refuse(16, places[2]);
    }
    if p.least < needs[p.capture].hold {
        return refuse(19, places[1]);
    }
    Ok(())
}

/// 20, at a place: the pair is not above the one before it, by launch, then capture.
fn rises(before: Option<&Pair>, p: &Pair, place: usize) -> Result<(), Refusal> {
    match before {
        Some(before) if p.ends() <= before.ends() => refuse(20, place),
        _ => Ok(()),
    }
}

/// The needs that stand after the head: 13 for a word that is none, 18 if all are zero.
fn block(words: &[u32]) -> Result<Vec<Need>, Refusal> {
    let mut needs = Vec::new();
    for (r, word) in words.iter().enumerate() {
        let need = Need { hold: word % 16_384, setup: word / 16_384 % 16_384 };
        if word >> 28 != 0b1010 || need.hold > 9_999 || need.setup > 9_999 {
            return refuse(13, 1 + r);
        }
        needs.push(need);
    }
    if needs.iter().all(|need| *need == Need::default()) {
        return refuse(18, 1);
    }
    Ok(needs)
}

/// A list whose pairs rise.
pub fn decode(words: &[u32]) -> Result<Net, Refusal> {
    decode_by(words, true)
}

/// A stored list, whose pairs may come in any order and repeat.
pub fn decode_stored(words: &[u32]) -> Result<Net, Refusal> {
    decode_by(words, false)
}

fn decode_by(words: &[u32], rising: bool) -> Result<Net, Refusal> {
    let [head, second, ..] = words else { return refuse(11, 0) };
    let (m, n) = ((head & 0xfff) as usize, (head >> 12 & 0x3ff) as usize);
    if head >> 22 != 0b001_0000000 || !(1..=512).contains(&n) || m > 2_048 {
        return refuse(12, 0);
    }
    let taken = if second >> 29 == 5 { n } else { 0 };
    if words.len() != 1 + taken + 3 * m + 1 {
        return refuse(11, 0);
    }
    let needs = if taken > 0 { block(&words[1..1 + taken])? } else { vec![Need::default(); n] };
    let last = words.len() - 1;
    let mut pairs = Vec::new();
    for (k, three) in words[1 + taken..last].chunks_exact(3).enumerate() {
        let at = 1 + taken + 3 * k;
        let prefixes = [three[0] >> 20 == 0b010_000000000, three[1] >> 29 == 3, three[2] >> 29 == 4];
        if let Some(i) = prefixes.iter().position(|good| !good) {
            return refuse(13, at + i);
        }
        let [link, least, greatest] = [three[0] & 0xf_ffff, three[1] & 0x1fff_ffff, three[2] & 0x1fff_ffff];
        let p = Pair { launch: link as usize / 1_024, capture: link as usize % 1_024, least, greatest };
        values(&needs, &p, [at, at + 1, at + 2])?;
        if rising {
            rises(pairs.last(), &p, at)?;
        }
        pairs.push(p);
    }
    let end = words[last];
    if end >> 29 != 7 {
        return refuse(13, last);
    }
    if end & 0x1fff_ffff != low29(words[..last].iter().map(|w| *w as u64).sum()) {
        return refuse(17, last);
    }
    Ok(Net { needs, pairs })
}

/// The net that the writer's numbers give.
pub fn given(n: u32, numbers: &[u32], needs: &[u32]) -> Result<Net, Refusal> {
    if numbers.len() % 4 != 0 {
        return refuse(11, 0);
    }
    if !(1..=512).contains(&n) || numbers.len() > 4 * 2_048 {
        return refuse(12, 0);
    }
    if needs.len() != 2 * n as usize {
        return refuse(11, 0);
    }
    if let Some(i) = needs.iter().position(|need| *need > 9_999) {
        return refuse(13, i / 2);
    }
    let needs: Vec<Need> = needs.chunks_exact(2).map(|two| Need { hold: two[0], setup: two[1] }).collect();
    let mut pairs = Vec::new();
    for (k, four) in numbers.chunks_exact(4).enumerate() {
        let p = Pair { launch: four[0] as usize, capture: four[1] as usize, least: four[2], greatest: four[3] };
        values(&needs, &p, [k, k, k])?;
        rises(pairs.last(), &p, k)?;
        pairs.push(p);
    }
    Ok(Net { needs, pairs })
}

impl Net {
    pub fn registers(&self) -> usize {
        self.needs.len()
    }

    pub fn needy(&self) -> bool {
        self.needs.iter().any(|need| *need != Need::default())
    }

    /// Pairs in order, by launch, then capture. Those of the same registers become one, with the smaller least and the larger
    /// greatest delay.
    pub fn ordered(mut self) -> Net {
        self.pairs.sort_by_key(Pair::ends);
        self.pairs.dedup_by(|p, kept| {
            let same = p.ends() == kept.ends();
            if same {
                (kept.least, kept.greatest) = (kept.least.min(p.least), kept.greatest.max(p.greatest));
            }
            same
        });
        self
    }

    /// Launch, capture, least and greatest of each pair.
    pub fn numbers(&self) -> Vec<u32> {
        self.pairs.iter().flat_map(|p| [p.launch as u32, p.capture as u32, p.least, p.greatest]).collect()
    }

    /// Hold and setup need of each register.
    pub fn need_numbers(&self) -> Vec<u32> {
        self.needs.iter().flat_map(|need| [need.hold, need.setup]).collect()
    }

    pub fn scratch(&self) -> usize {
        6 * self.registers() + 4 * self.pairs.len()
    }

    /// The time that a pair takes at the longest: its greatest delay, and what the capture register needs before the tick.
    pub fn longest_way(&self, p: &Pair) -> i64 {
        p.greatest as i64 + self.needs[p.capture].setup as i64
    }

    /// By how much the capture register may be later: the least delay, less what it needs after the tick.
    pub fn shortest_way(&self, p: &Pair) -> i64 {
        p.least as i64 - self.needs[p.capture].hold as i64
    }

    // ---- schedules

    pub fn common(&self) -> u32 {
        self.pairs.iter().map(|p| self.longest_way(p) as u32).fold(1, u32::max)
    }

    /// What is left of each rule, pair by pair, setup before hold: below 0 where it is broken.
    pub fn margins(&self, period: u32, timings: &[u32]) -> Vec<i64> {
        self.pairs
            .iter()
            .flat_map(|p| {
                let later = timings[p.capture] as i64 - timings[p.launch] as i64;
                [period as i64 - self.longest_way(p) + later, self.shortest_way(p) - later]
            })
            .collect()
    }

    pub fn check(&self, period: u32, timings: &[u32]) -> Checked {
        let margins = self.margins(period, timings);
        let named = |i: usize| (i / 2, if i % 2 == 0 { Rule::Setup } else { Rule::Hold });
        let Some(&margin) = margins.iter().min() else {
            return Checked::NoPairs;
        };
        let (pair, rule) = named(margins.iter().position(|m| *m == margin).unwrap());
        let smallest = Smallest { margin, pair, rule };
        match margins.iter().position(|m| *m < 0) {
            None => Checked::Admissible { smallest },
            Some(i) => {
                let (pair, rule) = named(i);
                Checked::Broken { pair, rule, smallest }
            }
        }
    }

    pub fn meets(&self, period: u32, timings: &[u32]) -> bool {
        self.margins(period, timings).iter().all(|m| *m >= 0)
    }

    /// Bellman-Ford for longest paths from a source that reaches each register at 0. None if a cycle keeps growing.
    pub fn longest(&self, period: u32) -> Option<Vec<u32>> {
        let arcs: Vec<(usize, usize, i64)> = self
            .pairs
            .iter()
            .flat_map(|p| {
                let (setup, hold) = (self.longest_way(p) - period as i64, -self.shortest_way(p));
                [(p.launch, p.capture, setup), (p.capture, p.launch, hold)]
            })
            .collect();
        let mut far = vec![0i64; self.registers()];
        for _ in 0..=self.registers() {
            let mut moved = false;
            for &(from, to, gain) in &arcs {
                if far[from] + gain > far[to] {
                    far[to] = far[from] + gain;
                    moved = true;
                }
            }
            if !moved {
                return Some(far.into_iter().map(|t| t as u32).collect());
            }
        }
        None
    }

    pub fn free(&self) -> (Periods, Vec<u32>) {
        let common = self.common();
        let (mut low, mut high) = (1, common);
        while low < high {
            let middle = (low + high) / 2;
            if self.longest(middle).is_some() {
                high = middle;
            } else {
                low = middle + 1;
            }
        }
        (Periods { common, free: low }, self.longest(low).expect("zeros do at the common period"))
    }

    /// The free period and the least schedule by trying all schedules with timings up to `cap`.
    pub fn plain_free(&self, cap: u32) -> (u32, Vec<u32>) {
        for period in 1.. {
            let mut least: Option<Vec<u32>> = None;
            let mut timings = vec![0; self.registers()];
            loop {
                if self.meets(period, &timings) {
                    let so_far = least.get_or_insert_with(|| timings.clone());
                    so_far.iter_mut().zip(&timings).for_each(|(x, y)| *x = (*x).min(*y));
                }
                let Some(r) = timings.iter().position(|t| *t < cap) else { break };
                timings[..r].fill(0);
                timings[r] += 1;
            }
            if let Some(timings) = least {
                assert!(self.meets(period, &timings));
                return (period, timings);
            }
        }
        unreachable!()
    }

    // ---- splits

    fn timings(late: &[bool], offset: u32) -> Vec<u32> {
        late.iter().map(|l| if *l { offset } else { 0 }).collect()
    }

    /// The first split in register order by trying all.
    pub fn plain_split(&self, period: u32, offset: u32) -> Option<Vec<u32>> {
        let n = self.registers();
        (0..1usize << n)
            .map(|code| Net::timings(&(0..n).map(|r| code >> (n - 1 - r) & 1 == 1).collect::<Vec<_>>(), offset))
            .find(|timings| self.meets(period, timings))
    }

    /// The first split in register order: satisfiable by components, then register by register.
    pub fn first_split(&self, period: u32, offset: u32) -> Option<Vec<u32>> {
        let graph = Implications::of(self, period, offset);
        if !graph.satisfiable() {
            return None;
        }
        let mut chosen = vec![None; self.registers()];
        for r in 0..self.registers() {
            if chosen[r].is_none() && !graph.assume(&mut chosen, r, false) {
                assert!(graph.assume(&mut chosen, r, true), "a satisfiable net has no dead end");
            }
        }
        let late: Vec<bool> = chosen.into_iter().map(|c| c == Some(true)).collect();
        Some(Net::timings(&late, offset))
    }

    // ---- the plan

    pub fn plan(&self) -> (Plan, Vec<u32>) {
        let (Periods { common, free }, mut timings) = self.free();
        let (mut low, mut high) = (1, common);
        while low < high {
            let middle = (low + high) / 2;
            if Implications::of(self, middle, common - middle).satisfiable() {
                high = middle;
            } else {
                low = middle + 1;
            }
        }
        timings.extend(self.first_split(low, common - low).expect("all early does at the common period"));
        (Plan { common, free, two: low, offset: common - low }, timings)
    }

    /// The least offset at a period by trying all splits at all offsets up to the common period. Those are enough: a pair
    /// from early to late asks for an offset of at most its least delay, one from late to early for at most the period, and
    /// with neither the same split works at 0.
    pub fn plain_offset(&self, period: u32) -> Option<u32> {
        (0..=self.common()).find(|offset| self.plain_split(period, *offset).is_some())
    }

    /// The two-timing period and its least offset by trying all periods, offsets and splits.
    pub fn plain_two(&self) -> (u32, u32) {
        (1..)
            .find_map(|period| self.plain_offset(period).map(|offset| (period, offset)))
            .expect("all early does at the common period")
    }

    /// All delays and needs times k: whole times of this net are times of the other in parts of 1/k.
    pub fn times(&self, k: u32) -> Net {
        let needs = self.needs.iter().map(|need| Need { hold: k * need.hold, setup: k * need.setup }).collect();
        let pairs = self.pairs.iter().map(|p| Pair { least: k * p.least, greatest: k * p.greatest, ..*p }).collect();
        Net { needs, pairs }
    }
}

/// What each choice forces: node 2r is register r early, 2r + 1 is r late.
struct Implications(Vec<Vec<usize>>);

impl Implications {
    fn of(net: &Net, period: u32, offset: u32) -> Implications {
        let mut next = vec![Vec::new(); 2 * net.registers()];
        for p in &net.pairs {
            for choice in 0..4 {
                let (a, b) = (choice / 2, choice % 2);
                let (s, t) = (a as i64 * offset as i64, b as i64 * offset as i64);
                if s - t > period as i64 - net.longest_way(p) || t - s > net.shortest_way(p) {
                    next[2 * p.launch + a].push(2 * p.capture + 1 - b);
                    next[2 * p.capture + b].push(2 * p.launch + 1 - a);
                }
            }
        }
        Implications(next)
    }

    /// No register's two nodes share a component: Kosaraju's two passes.
    fn satisfiable(&self) -> bool {
        let nodes = self.0.len();
        let mut order = Vec::with_capacity(nodes);
        let mut seen = vec![false; nodes];
        for start in 0..nodes {
            if seen[start] {
                continue;
            }
            seen[start] = true;
            let mut path = vec![(start, 0)];
            while let Some((node, i)) = path.pop() {
                if let Some(&to) = self.0[node].get(i) {
                    path.push((node, i + 1));
                    if !seen[to] {
                        seen[to] = true;
                        path.push((to, 0));
                    }
                } else {
                    order.push(node);
                }
            }
        }
        let mut back = vec![Vec::new(); nodes];
        for (from, tos) in self.0.iter().enumerate() {
            tos.iter().for_each(|to| back[*to].push(from));
        }
        let mut part = vec![usize::MAX; nodes];
        for &start in order.iter().rev() {
            let mut todo = vec![start];
            while let Some(node) = todo.pop() {
                if part[node] == usize::MAX {
                    part[node] = start;
                    todo.extend(&back[node]);
                }
            }
        }
        part.chunks(2).all(|two| two[0] != two[1])
    }

    /// Takes register r early or late with all that follows, or leaves everything as it was.
    fn assume(&self, chosen: &mut [Option<bool>], r: usize, late: bool) -> bool {
        let mut taken = Vec::new();
        let mut todo = vec![2 * r + late as usize];
        while let Some(node) = todo.pop() {
            let (r, late) = (node / 2, node % 2 == 1);
            match chosen[r] {
                None => {
                    chosen[r] = Some(late);
                    taken.push(r);
                    todo.extend(&self.0[node]);
                }
                Some(other) if other != late => {
                    taken.into_iter().for_each(|r| chosen[r] = None);
                    return false;
                }
                Some(_) => {}
            }
        }
        true
    }
}
