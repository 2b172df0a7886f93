//! One case: a table file, an event file and the name of what it is after. Some
//! have a frame table and its event file beside them.

use std::fs;
use std::io;
use std::path::Path;

use crate::damage;
use crate::events;
use crate::frame::FrameCase;
use crate::phase;
use crate::phase_damage;
use crate::random::Random;
use crate::table::{self, text_of, Table};

pub struct Case {
    pub name: String,
    pub table: Vec<u8>,
    pub events: Vec<u8>,
    pub frame: Option<FrameCase>,
}

/// One of so many cases has a frame table, and one of so many long nights.
const FRAME_EVERY: u64 = 4;
const LONG_FRAME_EVERY: u64 = 5;
/// The frame files are drawn from a seed of their own, so that a case is the same
/// with them and without.
const FRAME_SEED: u64 = 0x6672_616d;

/// So many of a hundred small tables give way to tables damaged at a phase.
const DAMAGED_PHASES: u64 = 60;

/// The cases from this number on are long nights.
pub const LONG: u64 = 1_000_000_000;
/// The first of so many long nights has several hundred kilobytes of events, by
/// turns with a table that serves every job and with any table.
const LONGEST_EVERY: u64 = 20;

impl Case {
    /// The case of a seed with a number, always the same one.
    pub fn make(seed: u64, number: u64) -> Case {
        let frame = frame_case(seed, number);
        let mut case = Case { frame, ..Case::without_phases(seed, number) };
        case.give_phases(&mut Random::for_case(seed ^ phase::SEED, number));
        case
    }

    /// Gives the servers of the table phases, or the case a table that is damaged
    /// at one in place of a small one. The rest of the case stays.
    fn give_phases(&mut self, random: &mut Random) {
        if self.name == "good-small" && random.chance(DAMAGED_PHASES) {
            (self.table, self.name) = phase_damage::damaged(random);
        } else if !self.name.starts_with("2-text-of-") {
            // The length of the others matters.
            let night = events::sure_ticks(&self.events) as u64;
            self.table = phase::give(&self.table, night, random);
        }
    }

    fn without_phases(seed: u64, number: u64) -> Case {
        let mut random = Random::for_case(seed, number);
        let random = &mut random;
        if number >= LONG {
            return match (number - LONG) % (2 * LONGEST_EVERY) {
                0 => Case::longest_serving(random),
                LONGEST_EVERY => Case::longest(random),
                _ => Case::long(random),
            };
        }
        let (good, name) = match random.below(100) {
            0..=22 => (table::small(random), "good-small".to_string()),
            23..=27 => {
                let (table, misses) = table::fit_or_miss(random);
                (table, format!("good-{misses}"))
            }
            28..=35 => {
                let good = table::serving(random);
                let events = events::serving_events(good.tasks.len(), random);
                return Case::of("good-serving", &good, events);
            }
            36..=39 => (table::middle(random), "good-middle".to_string()),
            40..=50 => {
                let (table, bound) = table::at_bound(random);
                (table, format!("good-{bound}"))
            }
            _ => {
                let (table, name) = damage::damaged(random);
                return Case { name, table, events: events::few_events(random), frame: None };
            }
        };
        let events = events::events(good.tasks.len(), random);
        Case::of(&name, &good, events)
    }

    fn of(name: &str, good: &Table, events: Vec<u8>) -> Case {
        Case { name: name.to_string(), table: text_of(&good.lines()), events, frame: None }
    }

    fn long(random: &mut Random) -> Case {
        if random.chance(25) {
            let good = table::serving(random);
            let events = events::long_events(true, good.tasks.len(), random);
            return Case::of("good-long-serving", &good, events);
        }
        let good = long_table(random);
        let events = events::long_events(false, good.tasks.len(), random);
        Case::of("good-long", &good, events)
    }

    /// A night in which jobs may well wait to the end for a server without time.
    fn longest(random: &mut Random) -> Case {
        let good = long_table(random);
        let events = events::longest_events(false, good.tasks.len(), random);
        Case::of("good-longest", &good, events)
    }

    /// A night in which the modes come and go, and LO jobs are discarded often.
    fn longest_serving(random: &mut Random) -> Case {
        let good = table::serving(random);
        let events = events::longest_events(true, good.tasks.len(), random);
        Case::of("good-longest-serving", &good, events)
    }

    /// Writes the two files, `table` and `events`, and `frame-table` and
    /// `frame-events` if there are such, into a folder that is there.
    pub fn write_to(&self, folder: &Path) -> io::Result<()> {
        fs::write(folder.join("table"), &self.table)?;
        fs::write(folder.join("events"), &self.events)?;
        if let Some(frame) = &self.frame {
            frame.write_to(folder)?;
        }
        Ok(())
    }
}

/// The frame files of a case, if it has them.
fn frame_case(seed: u64, number: u64) -> Option<FrameCase> {
    let mut random = Random::for_case(seed ^ FRAME_SEED, number);
    let (place, every) =
        if number < LONG { (number, FRAME_EVERY) } else { (number - LONG, LONG_FRAME_EVERY) };
    if place % every != 0 {
        return None;
    }
    Some(if number < LONG {
        FrameCase::make((place / every) as usize, &mut random)
    } else {
        FrameCase::long(&mut random)
    })
}

fn long_table(random: &mut Random) -> Table {
    match random.below(4) {
        0 => table::middle(random),
        1 => table::at_bound(random).0,
        _ => table::small(random),
    }
}

#[cfg(test)]
mod tests {
    use super::{Case, LONG};

    #[test]
    fn a_case_is_the_same_every_time() {
        for number in (0..200).chain(LONG..LONG + 10) {
            let (one, other) = (Case::make(5, number), Case::make(5, number));
            assert_eq!(one.name, other.name);
            assert_eq!(one.table, other.table);
            assert_eq!(one.events, other.events);
            let frames = one.frame.zip(other.frame);
            assert_eq!(frames.is_some(), number % if number < LONG { 4 } else { 5 } == 0);
            if let Some((one, other)) = frames {
                assert_eq!(
                    (one.name, one.table, one.events),
                    (other.name, other.table, other.events)
                );
            }
        }
    }

    #[test]
    fn phases_change_nothing_else() {
        let (mut given, mut replaced) = (0, 0);
        for number in (0..1000).chain(LONG..LONG + 10) {
            let (plain, case) = (Case::without_phases(1, number), Case::make(1, number));
            assert_eq!(plain.events, case.events);
            if plain.name != case.name {
                replaced += 1;
                continue;
            }
            let mut plain_lines = plain.table.split(|&byte| byte == b'\n');
            let mut some = false;
            for line in case.table.split(|&byte| byte == b'\n') {
                let own = plain_lines.next().unwrap_or_default();
                if line != own {
                    some = true;
                    assert_eq!(own.split(|&byte| byte == b'\t').count(), 8);
                    assert!(line.starts_with(&[own, b"\t"].concat()), "{}", case.name);
                }
            }
            assert_eq!(plain_lines.next(), None);
            given += u64::from(some);
        }
        assert!(given > 250 && replaced > 80, "{given} {replaced}");
    }

    #[test]
    fn a_long_night_in_twenty_has_300_kilobytes() {
        for number in 0..200 {
            let case = Case::make(3, LONG + number);
            let longest = match number % 40 {
                0 => "good-longest-serving",
                20 => "good-longest",
                _ => {
                    assert!(["good-long", "good-long-serving"].contains(&case.name.as_str()));
                    continue;
                }
            };
            assert_eq!(case.name, longest);
            assert!(case.events.len() >= 300 * 1024);
        }
    }

    #[test]
    fn many_cases_can_be_made() {
        for number in 0..20_000 {
            let case = Case::make(1, number);
            assert!(!case.name.is_empty());
            if case.name.starts_with("good-") {
                assert_eq!(case.table.last(), Some(&b'\n'));
                assert!(case.table.len() <= 16_384);
            }
        }
    }
}
