//! How often each kind of answer and each length of a buffer came, so that a test shows that it met them all.
use std::collections::BTreeMap;

use darnerflax::Refusal;

/// Kinds of answers; and for each buffer, how long it was beside what an accepted list asks for.
#[derive(Default)]
pub struct Tally {
    answers: BTreeMap<String, usize>,
    lengths: BTreeMap<&'static str, BTreeMap<&'static str, usize>>,
}

impl Tally {
    pub fn count(&mut self, kind: impl Into<String>) {
        *self.answers.entry(kind.into()).or_default() += 1;
    }

    /// A result under its name, a refusal under its number.
    pub fn answer<T>(&mut self, answer: &Result<T, Refusal>, name: impl FnOnce(&T) -> &'static str) {
        match answer {
            Ok(result) => self.count(name(result)),
            Err(refusal) => self.count(format!("{}", refusal.number)),
        }
    }

    pub fn lent(&mut self, buffer: &'static str, len: usize, asked: usize) {
        let length = match len {
            _ if len == asked => "exact",
            _ if len + 1 == asked => "one short",
            _ if len > asked => "longer",
            _ => "shorter",
        };
        *self.lengths.entry(buffer).or_default().entry(length).or_default() += 1;
    }

    pub fn all_met(&self, title: &str, kinds: &[&str]) {
        println!("{title}: {:?}", self.answers);
        for kind in kinds {
            assert!(self.answers.get(*kind).is_some_and(|n| *n >= 20), "{title}: too few of {kind}");
        }
        let unknown: Vec<_> = self.answers.keys().filter(|k| !kinds.contains(&k.as_str())).collect();
        assert!(unknown.is_empty(), "{title}: unforeseen {unknown:?}");
        self.lengths_met(title);
    }

    fn lengths_met(&self, title: &str) {
        for (buffer, lengths) in &self.lengths {
            println!("{title}, {buffer}: {lengths:?}");
            for length in ["exact", "one short", "longer"] {
                assert!(lengths.get(length).is_some_and(|n| *n >= 20), "{title}: too few of {buffer} {length}");
            }
        }
    }
}
