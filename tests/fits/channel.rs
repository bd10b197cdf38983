// Disturbances between the program and who answers it, at a rate of up to a third of the lines: answers again, late, too early,
// lost, and spoilt ones. They have pseudo-random numbers of their own, so that a seed's fit is the same with them and without.

use crate::dialogue::Dialogue;
use crate::fields;
use crate::random::Random;
use crate::reached::Reached;
use crate::spoil::spoilt;

pub const RATES: &[&str] = &[
    "disturbed: no line",
    "disturbed: up to a tenth of the lines",
    "disturbed: up to a third of the lines",
    "disturbed: more than a third of the lines",
];

pub const KINDS: &[&str] = &[
    "disturbed: the last answer again",
    "disturbed: an earlier answer again",
    "disturbed: the next answer too early",
    "disturbed: answers after one that is lost",
    "disturbed: an answer spoilt",
];

pub struct Channel {
    random: Random,
    // Out of a hundred lines, how many are disturbed.
    percent: u64,
    // Whether lines are spoilt too: most of them stop the program.
    spoils: bool,
}

// The line of an answer, as the Rust's run was told it.
fn answer(d: &Dialogue, number: u64) -> Option<String> {
    d.told_at(number).map(|(kind, words)| format!("{number} {kind}{}", fields::given(&words)))
}

impl Channel {
    pub fn clear() -> Self {
        Channel { random: Random::new(0), percent: 0, spoils: false }
    }

    // Of ten fits four are disturbed at no rate, three at up to a tenth, three at up to a third.
    pub fn of(seed: u64) -> Self {
        let mut random = Random::new(!seed);
        let percent = match random.below(10) {
            0..=3 => 0,
            4..=6 => 1 + random.below(10),
            _ => 11 + random.below(23),
        };
        let spoils = random.chance(10);
        Channel { random, percent, spoils }
    }

    // Lines before the right answer.
    pub fn disturb(&mut self, d: &mut Dialogue) {
        while !d.stopped() && self.random.chance(self.percent) {
            match self.random.below(if self.spoils { 10 } else { 9 }) {
                0..=2 => self.give(d, KINDS[0], d.accepted()),
                3..=4 => {
                    let earlier = self.random.below(d.accepted().max(1));
                    self.give(d, KINDS[1], earlier);
                }
                5..=6 => self.give(d, KINDS[2], d.accepted() + 2),
                7..=8 => {
                    let lost = d.accepted() + 1;
                    (1..=1 + self.random.below(3)).for_each(|after| self.give(d, KINDS[3], lost + after));
                }
                _ => self.spoil(d),
            }
        }
    }

    // An answer out of its turn, if there is one of that number.
    fn give(&self, d: &mut Dialogue, name: &'static str, number: u64) {
        if let Some(line) = answer(d, number) {
            d.reached.insert(name);
            d.give(line);
        }
    }

    fn spoil(&mut self, d: &mut Dialogue) {
        let line = answer(d, d.accepted() + 1).map(|whole| spoilt(&mut self.random, &whole));
        if let Some(line) = line.filter(|line| !d.accepts(line)) {
            d.reached.insert(KINDS[4]);
            d.give(line);
        }
    }
}

// By which share of the lines that the program reads a fit was disturbed, however that came about.
pub fn note_rate(reached: &mut Reached, lines: u64, disturbed: u64) {
    let rate = match disturbed {
        0 => 0,
        _ if 10 * disturbed <= lines => 1,
        _ if 3 * disturbed <= lines => 2,
        _ => 3,
    };
    reached.insert(RATES[rate]);
}
