//! Frame tables, and the cases made of them: a table, an event file and a name.

use std::fs;
use std::io;
use std::ops::RangeInclusive;
use std::path::Path;

use crate::events;
use crate::frame_damage;
use crate::random::Random;
use crate::table::{draw_priorities, draw_tick, line_of, rough, text_of, Line};
use crate::table::{MAX_LIMIT, MAX_PRIORITY, MAX_TASKS, MAX_TICK};

/// The slots of a frame, and those of its self-test.
pub const SLOTS: u64 = 1_200;
pub const SELF_TEST: RangeInclusive<u64> = 600..=611;
/// A long frame night takes more ticks than these.
pub const LONG_TICKS: u64 = 2 * SLOTS;
const LONG_LINES: (u64, u64) = (3_000, 14_000);

/// A task row. The time is in microseconds, as it stands in the text.
#[derive(Clone)]
pub struct FrameTask {
    pub partition: u64,
    pub priority: u64,
    pub time: u64,
}

#[derive(Clone)]
pub struct FrameTable {
    pub tick: u64,
    pub tasks: Vec<FrameTask>,
}

impl FrameTable {
    pub fn lines(&self) -> Vec<Line> {
        let mut lines = vec![line_of(&[&"tick", &self.tick])];
        for task in &self.tasks {
            lines.push(line_of(&[&"task", &task.partition, &task.priority, &task.time]));
        }
        lines
    }
}

/// A table with so many tasks, limits up to the longest and any partitions.
fn draw(tasks: usize, longest_limit: u64, random: &mut Random) -> FrameTable {
    let tick = draw_tick(random);
    let whole = random.chance(50);
    let mut rows = Vec::new();
    for priority in draw_priorities(tasks, random) {
        let limit = random.within(1, longest_limit);
        let time = if whole { limit * tick } else { rough(limit, tick, random) };
        rows.push(FrameTask { partition: random.within(0, 2), priority, time });
    }
    FrameTable { tick, tasks: rows }
}

/// A table of 1 to 7 tasks.
pub fn small(random: &mut Random) -> FrameTable {
    let longest_limit = random.pick(&[1, 2, 3, 3, 5]);
    draw(random.within(1, 7) as usize, longest_limit, random)
}

/// A table of some more tasks.
fn middle(random: &mut Random) -> FrameTable {
    let longest_limit = random.pick(&[2, 4, 8]);
    draw(random.within(8, 20) as usize, longest_limit, random)
}

/// A table for damages: three tasks or more, and a tick of more than 1.
pub fn rich(random: &mut Random) -> FrameTable {
    let mut table = draw(random.within(3, 7) as usize, 5, random);
    if table.tick == 1 {
        change_tick(&mut table, random.pick(&[2, 10, 1000, MAX_TICK]));
    }
    table
}

/// The bounds a good table is put at.
const BOUNDS: [&str; 14] = [
    "tick-1",
    "tick-10000",
    "all-measuring",
    "all-alarm-sending",
    "all-panel",
    "priority-1",
    "priority-255",
    "one-task",
    "tasks-64",
    "tasks-63",
    "limit-1",
    "limit-1-of-all",
    "limit-100000",
    "limit-100000-rounded",
];

/// A good table at one bound, by turns, and the bound's name.
pub fn at_bound(turn: usize, random: &mut Random) -> (FrameTable, &'static str) {
    let mut table = small(random);
    let bound = BOUNDS[turn % BOUNDS.len()];
    let row = random.below(table.tasks.len());
    let longest = MAX_LIMIT * table.tick;
    match bound {
        "tick-1" => change_tick(&mut table, 1),
        "tick-10000" => change_tick(&mut table, MAX_TICK),
        "all-measuring" => give_partition(&mut table, 0),
        "all-alarm-sending" => give_partition(&mut table, 1),
        "all-panel" => give_partition(&mut table, 2),
        "priority-1" => give_priority(&mut table, row, 1),
        "priority-255" => give_priority(&mut table, row, MAX_PRIORITY),
        "one-task" => table.tasks.truncate(1),
        "tasks-64" => table = draw(MAX_TASKS, random.pick(&[1, 3, 6]), random),
        "tasks-63" => table = draw(MAX_TASKS - 1, random.pick(&[1, 3, 6]), random),
        "limit-1" => table.tasks[row].time = 1,
        "limit-1-of-all" => table.tasks.iter_mut().for_each(|task| task.time = 1),
        "limit-100000" => table.tasks[row].time = longest,
        _ => table.tasks[row].time = longest - table.tick + 1,
    }
    (table, bound)
}

/// Another tick length; the times of the tasks keep their limits.
fn change_tick(table: &mut FrameTable, tick: u64) {
    for task in &mut table.tasks {
        task.time = task.time.div_ceil(table.tick) * tick;
    }
    table.tick = tick;
}

fn give_partition(table: &mut FrameTable, partition: u64) {
    for task in &mut table.tasks {
        task.partition = partition;
    }
}

/// Gives a row a priority; a row that had it takes the row's own.
fn give_priority(table: &mut FrameTable, row: usize, priority: u64) {
    let own = table.tasks[row].priority;
    for task in &mut table.tasks {
        if task.priority == priority {
            task.priority = own;
        }
    }
    table.tasks[row].priority = priority;
}

/// The frame files of a case.
pub struct FrameCase {
    pub name: String,
    pub table: Vec<u8>,
    pub events: Vec<u8>,
}

impl FrameCase {
    /// By turns: every third has a damaged table, some of the others a table at a
    /// bound, a night that comes to the self-test, or one that comes to the next
    /// frame.
    pub fn make(turn: usize, random: &mut Random) -> FrameCase {
        if turn % 3 == 2 {
            let (table, name) = frame_damage::damaged(turn / 3, random);
            return FrameCase { name, table, events: events::few_events(random) };
        }
        let good = turn / 3 * 2 + turn % 3;
        let (table, name) = match good % 10 {
            0 | 5 => {
                let (table, bound) = at_bound(good / 5, random);
                (table, format!("good-{bound}"))
            }
            3 => (middle(random), "good-middle".to_string()),
            6 => {
                let ticks = *SELF_TEST.end() + random.within(2, 20);
                return FrameCase::of_ticks("good-self-test", ticks, 0, random);
            }
            9 => {
                // To its first slots, or to those after its self-test.
                let ticks = SLOTS + random.pick(&[1, 12, SELF_TEST.end() + 2]);
                return FrameCase::of_ticks("good-next-frame", ticks, 0, random);
            }
            _ => (small(random), "good-small".to_string()),
        };
        let events = events::frame_events(table.tasks.len(), random);
        FrameCase { name, table: text_of(&table.lines()), events }
    }

    /// A night of more than two frames.
    pub fn long(random: &mut Random) -> FrameCase {
        let lines = random.within(LONG_LINES.0, LONG_LINES.1);
        FrameCase::of_ticks("good-long", LONG_TICKS, lines, random)
    }

    /// Writes the two files, `frame-table` and `frame-events`, into a folder that is
    /// there.
    pub fn write_to(&self, folder: &Path) -> io::Result<()> {
        fs::write(folder.join("frame-table"), &self.table)?;
        fs::write(folder.join("frame-events"), &self.events)
    }

    fn of_ticks(name: &str, ticks: u64, lines: u64, random: &mut Random) -> FrameCase {
        let table = if random.chance(25) { middle(random) } else { small(random) };
        let events = events::events_of_ticks(ticks as usize, lines, table.tasks.len(), random);
        FrameCase { name: name.to_string(), table: text_of(&table.lines()), events }
    }
}

#[cfg(test)]
mod tests {
    use super::{FrameCase, LONG_TICKS};
    use crate::events::sure_ticks;
    use crate::random::Random;

    fn lines(events: &[u8]) -> usize {
        events.iter().filter(|&&byte| byte == b'\n').count()
    }

    #[test]
    fn long_nights_take_more_than_two_frames() {
        for seed in 0..300 {
            let night = FrameCase::long(&mut Random::new(seed));
            assert!(sure_ticks(&night.events) as u64 > LONG_TICKS);
            assert!(lines(&night.events) <= 20_000);
        }
    }

    #[test]
    fn a_third_is_damaged_and_most_others_have_30_to_300_lines() {
        let (mut damaged, mut usual) = (0, 0);
        for turn in 0..3_000 {
            let frame = FrameCase::make(turn, &mut Random::new(turn as u64));
            if !frame.name.starts_with("good-") {
                damaged += 1;
            } else if (30..=320).contains(&lines(&frame.events)) {
                usual += 1;
            }
        }
        assert_eq!(damaged, 1_000);
        assert!(usual > 1_500, "{usual}");
    }
}
