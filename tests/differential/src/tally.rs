//! How often each thing was seen.
use std::collections::BTreeMap;

#[derive(Default)]
pub struct Tally(BTreeMap<(&'static str, String), u64>);

impl Tally {
    pub fn add(&mut self, group: &'static str, name: impl ToString, more: u64) {
        *self.0.entry((group, name.to_string())).or_default() += more;
    }

    pub fn count(&self, group: &'static str, name: impl ToString) -> u64 {
        self.0.get(&(group, name.to_string())).copied().unwrap_or(0)
    }

    /// What was seen once or more.
    pub fn seen(&self) -> impl Iterator<Item = &(&'static str, String)> {
        self.0.keys()
    }

    pub fn print(&self) {
        let mut groups: Vec<&str> = self.0.keys().map(|(group, _)| *group).collect();
        groups.dedup();
        for group in groups {
            let of: Vec<String> = self
                .0
                .iter()
                .filter(|((g, _), _)| *g == group)
                .map(|((_, name), count)| format!("{name} {count}"))
                .collect();
            println!("{group}: {}", of.join(", "));
        }
    }
}
