//! Plain search over the trails of a small net: rules, each from where the last one ended, that come to no register twice.
//!
//! A rule says that one register's time is at least another's plus a gain. Along a trail the gains add up; around a cycle the
//! times cancel, and what is left is a bound on the period that holds for any times, whole or not, above 0 or below. A longer
//! way round is made of cycles like these, so no other asks for more.
use crate::reference::Net;

/// The time at `to` is at least that at `from`, plus `delay` with the need of the capture register, less the period if the rule
/// is a setup.
struct Rule {
    from: usize,
    to: usize,
    gain: Gain,
}

/// What a rule or a trail asks for: `delay`, less so many periods.
#[derive(Clone, Copy)]
struct Gain {
    delay: i64,
    setups: i64,
}

impl Gain {
    fn and(self, other: Gain) -> Gain {
        Gain { delay: self.delay + other.delay, setups: self.setups + other.setups }
    }

    fn at(self, period: u32) -> i64 {
        self.delay - self.setups * period as i64
    }
}

fn rules(net: &Net) -> Vec<Rule> {
    let both = net.pairs.iter().flat_map(|p| {
        [
            Rule { from: p.launch, to: p.capture, gain: Gain { delay: net.longest_way(p), setups: 1 } },
            Rule { from: p.capture, to: p.launch, gain: Gain { delay: -net.shortest_way(p), setups: 0 } },
        ]
    });
    both.collect()
}

/// Shows every trail that starts at the first register of `path` and goes on from its last: where it ends, what it asks for.
/// One that ends where it started is a cycle.
fn follow(rules: &[Rule], path: &mut Vec<usize>, so_far: Gain, show: &mut impl FnMut(usize, Gain)) {
    let (start, here) = (path[0], path[path.len() - 1]);
    for rule in rules.iter().filter(|rule| rule.from == here) {
        let gain = so_far.and(rule.gain);
        if rule.to == start || !path.contains(&rule.to) {
            show(rule.to, gain);
        }
        if !path.contains(&rule.to) {
            path.push(rule.to);
            follow(rules, path, gain, show);
            path.pop();
        }
    }
}

fn trails(net: &Net, mut show: impl FnMut(usize, usize, Gain)) {
    let rules = rules(net);
    for start in 0..net.registers() {
        follow(&rules, &mut vec![start], Gain { delay: 0, setups: 0 }, &mut |end, gain| show(start, end, gain));
    }
}

/// The least period with a schedule, as a fraction: `over / under`, where `under` is above 0.
#[derive(Clone, Copy, Debug)]
pub struct Fraction {
    over: i64,
    under: i64,
}

impl Fraction {
    /// At most `over / under`.
    pub fn at_most(self, over: u32, under: u32) -> bool {
        self.over * under as i64 <= over as i64 * self.under
    }

    /// The least whole period from 1 up that is not below it.
    pub fn whole(self) -> u32 {
        (1..).find(|period| self.at_most(*period, 1)).expect("a delay bounds it")
    }
}

/// The largest of what the cycles ask for, if one has a setup; a cycle of holds asks for nothing.
pub fn longest_cycle(net: &Net) -> Option<Fraction> {
    let mut longest: Option<Fraction> = None;
    trails(net, |start, end, gain| {
        let more = |so_far: Fraction| gain.delay * so_far.under > so_far.over * gain.setups;
        if start == end && gain.setups > 0 && longest.map_or(true, more) {
            longest = Some(Fraction { over: gain.delay, under: gain.setups });
        }
    });
    longest
}

/// The smallest timings from 0 up at a period with a schedule: no register's can be below what a trail to it asks for.
pub fn least_timings(net: &Net, period: u32) -> Vec<u32> {
    let mut timings = vec![0i64; net.registers()];
    trails(net, |_, end, gain| timings[end] = timings[end].max(gain.at(period)));
    timings.into_iter().map(|t| t as u32).collect()
}
