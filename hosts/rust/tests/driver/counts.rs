//! What a run met, and the least that it must have met.

use std::collections::BTreeMap;

use super::calls::{Answer, Cause};

/// How often each thing must occur.
pub const LEAST: u64 = 100;

#[derive(Default)]
pub struct Counts(BTreeMap<String, u64>);

impl Counts {
    pub fn meet(&mut self, name: &str) {
        self.add(name, 1);
    }

    pub fn add(&mut self, name: &str, times: u64) {
        match self.0.get_mut(name) {
            Some(count) => *count += times,
            None => {
                self.0.insert(name.to_string(), times);
            }
        }
    }

    pub fn refusal(&mut self, number: u8) {
        self.meet(&format!("refusal {number:2}"));
    }

    pub fn answer<T>(&mut self, answer: &Answer<T>) {
        match answer {
            Ok(_) => self.meet("success"),
            Err(number) => self.refusal(*number),
        }
    }

    /// Counts the reason, and of an unreadable area the place.
    pub fn cause(&mut self, cause: Cause) {
        self.meet(&format!("reason {}", cause.reason));
        if cause.reason == 1 {
            self.place(cause.place);
        }
    }

    pub fn place(&mut self, place: u8) {
        self.meet(&format!("unreadable at {place:2}"));
    }

    pub fn of(&self, name: &str) -> u64 {
        self.0.get(name).copied().unwrap_or(0)
    }

    pub fn print(&self, title: &str) {
        println!("{title}");
        for (name, count) in &self.0 {
            println!("  {name:36} {count:9}");
        }
    }

    /// Fails if one of the named things occurred too seldom.
    pub fn demand<'a>(&self, names: impl IntoIterator<Item = &'a str>) {
        self.demand_each(LEAST, names);
    }

    fn demand_each<'a>(&self, least: u64, names: impl IntoIterator<Item = &'a str>) {
        let seldom = |name: &&str| self.of(name) < least;
        let missing: Vec<&str> = names.into_iter().filter(seldom).collect();
        assert!(
            missing.is_empty(),
            "met fewer than {least} times: {missing:?}"
        );
    }

    /// Every place of an area, so often.
    pub fn demand_places(&self, least: u64) {
        let names: Vec<String> = (0..40).map(|p| format!("unreadable at {p:2}")).collect();
        self.demand_each(least, names.iter().map(String::as_str));
    }

    pub fn demand_refusals(&self, numbers: &[u8]) {
        let names: Vec<String> = numbers.iter().map(|n| format!("refusal {n:2}")).collect();
        self.demand(names.iter().map(String::as_str));
    }
}
