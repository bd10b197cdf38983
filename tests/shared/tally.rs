// What a range of seeds reached, by group, as it stands in a log and is added up.

use crate::counts::{Counts, Reached};
use std::collections::BTreeMap;
use std::fmt::Write;

// What is counted: the groups, each with all that it is to reach, and what is summed.
pub struct Known {
    // What a seed gives: fits, or inputs.
    pub things: &'static str,
    // In what manner, in words that a log has behind the group.
    pub manner: &'static str,
    pub groups: Vec<(&'static str, Vec<&'static str>)>,
    pub sums: &'static [&'static str],
}

// What came of one seed.
pub struct Made {
    pub group: &'static str,
    pub reached: Reached,
    // In the order of `Known`'s.
    pub sums: Vec<u64>,
}

pub struct Tally {
    pub first: u64,
    pub count: u64,
    pub seconds: f64,
    groups: BTreeMap<&'static str, (u64, Counts)>,
    sums: Vec<u64>,
}

const SEEDS: &str = "seeds";
const GROUP: &str = "group";
const COUNT: &str = "count";
const SUM: &str = "sum";
pub const EQUAL: &str = "equal";

impl Tally {
    pub fn new(first: u64, known: &Known) -> Self {
        Tally { first, count: 0, seconds: 0.0, groups: BTreeMap::new(), sums: vec![0; known.sums.len()] }
    }

    pub fn last(&self) -> u64 {
        self.first.wrapping_add(self.count).wrapping_sub(1)
    }

    pub fn add(&mut self, made: &Made) {
        self.count += 1;
        let (things, counts) = self.groups.entry(made.group).or_default();
        *things += 1;
        counts.add(&made.reached);
        self.sums.iter_mut().zip(&made.sums).for_each(|(sum, more)| *sum += more);
    }

    pub fn merge(&mut self, other: &Tally) {
        self.count += other.count;
        self.seconds += other.seconds;
        for (group, (things, counts)) in &other.groups {
            let (own, reached) = self.groups.entry(group).or_default();
            *own += things;
            counts.0.iter().for_each(|(name, count)| *reached.0.entry(name).or_insert(0) += count);
        }
        self.sums.iter_mut().zip(&other.sums).for_each(|(sum, more)| *sum += more);
    }

    // As it stands in a log; the last line says that it is whole.
    pub fn text(&self, known: &Known, chosen: &str) -> String {
        let mut text = format!("{SEEDS} {} {} {chosen}\n", self.first, self.last());
        let mut line = |line: std::fmt::Arguments| writeln!(text, "{line}").expect("a string takes all");
        for (group, (things, counts)) in &self.groups {
            line(format_args!("{GROUP} {things} {group}"));
            counts.0.iter().for_each(|(name, count)| line(format_args!("{COUNT} {count} {name}")));
        }
        known.sums.iter().zip(&self.sums).for_each(|(name, sum)| line(format_args!("{SUM} {sum} {name}")));
        line(format_args!("{EQUAL} {} {:.1}", self.count, self.seconds));
        text
    }

    // Reads what `text` wrote: the tally and what was chosen.
    pub fn read(text: &str, known: &Known) -> Option<(Tally, String)> {
        let mut tally = Tally::new(0, known);
        let (mut chosen, mut group, mut last) = (String::new(), None, 0);
        for line in text.lines() {
            match *line.splitn(4, ' ').collect::<Vec<_>>() {
                [SEEDS, from, to, which] => (tally.first, last, chosen) = (from.parse().ok()?, to.parse().ok()?, which.into()),
                [EQUAL, count, seconds] => (tally.count, tally.seconds) = (count.parse().ok()?, seconds.parse().ok()?),
                _ => tally.read_count(line, known, &mut group)?,
            }
        }
        let things: u64 = tally.groups.values().map(|(things, _)| things).sum();
        (tally.count == things && tally.count > 0 && tally.last() == last).then_some((tally, chosen))
    }

    fn read_count(&mut self, line: &str, known: &Known, group: &mut Option<&'static str>) -> Option<()> {
        let (kind, rest) = line.split_once(' ')?;
        let (count, name) = rest.split_once(' ')?;
        let count: u64 = count.parse().ok()?;
        match kind {
            GROUP => {
                let (found, _) = known.groups.iter().find(|(known, _)| *known == name)?;
                *group = Some(found);
                self.groups.entry(found).or_default().0 = count;
            }
            COUNT => {
                let (found, names) = known.groups.iter().find(|(known, _)| Some(*known) == *group)?;
                let name = names.iter().find(|known| **known == name)?;
                self.groups.get_mut(found)?.1 .0.insert(name, count);
            }
            SUM => self.sums[known.sums.iter().position(|known| *known == name)?] = count,
            _ => return None,
        }
        Some(())
    }

    // Prints all of it; false where something was never reached.
    pub fn report(&self, known: &Known, only: Option<&str>, equal: &str) -> bool {
        let mut whole = true;
        let none = (0, Counts::default());
        for (group, names) in known.groups.iter().filter(|(group, _)| only.is_none_or(|only| only == *group)) {
            let (things, counts) = self.groups.get(group).unwrap_or(&none);
            println!("{group}: {things} {}", known.things);
            whole &= counts.report(names);
        }
        let sums: Vec<String> = known.sums.iter().zip(&self.sums).map(|(name, sum)| format!("{sum} {name}")).collect();
        println!("{} {} {equal}: {}, {:.0} s", self.count, known.things, sums.join(", "), self.seconds);
        whole
    }
}
