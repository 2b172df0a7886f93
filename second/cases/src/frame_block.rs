//! Frame blocks of the `states` program, sound ones and ones broken in one clause,
//! each by its name, or in two.

use std::collections::BTreeSet;

use crate::block::{
    any, draw_count, draw_row, line, operation_line, Operation, Queue, MAX_BYTE, MAX_COUNT,
    MAX_FIELD, MAX_WAITING,
};
use crate::frame::{self, FrameTable, SELF_TEST, SLOTS};
use crate::random::Random;
use crate::table::{MAX_LIMIT, MAX_TASKS, MAX_TICK};
use crate::unsound::{above, above_byte, set, two_rows};

/// The counts of frame blocks that must not be 0, beside those for each clause
/// broken.
pub const WANTED: [&str; 31] = [
    "frame: fresh taken",
    "frame: release taken",
    "frame: tick taken",
    "frame: fresh no 13",
    "frame: fresh taken beside a broken state",
    "frame: release no 6",
    "frame: release no 8",
    "frame: release no 8 with the count full",
    "frame: release no 10",
    "frame: release no 13",
    "frame: tick no 9",
    "frame: tick no 9 with the count full",
    "frame: tick no 10",
    "frame: tick no 13",
    "frame: run of partition 0",
    "frame: run of partition 1",
    "frame: run of partition 2",
    "frame: empty slot of partition 0",
    "frame: empty slot of partition 1",
    "frame: empty slot of partition 2",
    "frame: left done",
    "frame: left cut",
    "frame: job at its limit, mark 0",
    "frame: job at its limit, mark 1",
    "frame: slot 599",
    "frame: slot 600 to 611 run",
    "frame: slot 600 to 611 empty",
    "frame: slot 612",
    "frame: slot 1199",
    "frame: slot 0 of a later frame",
    "frame: tick 3999999999",
];

/// A task row, its limit in ticks.
#[derive(Clone)]
pub struct Slotted {
    partition: u64,
    priority: u64,
    limit: u64,
}

/// The count says which rows are in use.
#[derive(Clone)]
pub struct FrameBlock {
    pub name: String,
    /// Whether the table, and whether the state beside it, breaks a rule.
    broken_table: bool,
    broken_state: bool,
    tick: u64,
    task_count: u64,
    tasks: Vec<Slotted>,
    ticks: u64,
    accepted: u64,
    last: Option<u64>,
    queues: Vec<Queue>,
    pub operation: Operation,
}

/// The block of a turn: half of them sound, the others broken in one clause, each
/// in its turn, and some in two.
pub fn in_turn(turn: usize, random: &mut Random) -> FrameBlock {
    let mut block = match turn % 10 {
        0 => FrameBlock::at_slot(turn / 10, random),
        2 | 4 => FrameBlock::sound("frame-sound-small", &frame::small(random), random),
        6 => {
            let (table, bound) = frame::at_bound(turn / 10, random);
            FrameBlock::sound(&format!("frame-sound-{bound}"), &table, random)
        }
        8 => FrameBlock::at_count(turn / 10, random),
        9 => two_faults(random),
        // 4 of 10 turns, one clause after the other.
        odd => one_fault(turn / 10 * 4 + odd / 2, random),
    };
    block.pad(random);
    block
}

impl FrameBlock {
    /// A block whose table keeps the rules and whose state is sound.
    fn sound(name: &str, table: &FrameTable, random: &mut Random) -> FrameBlock {
        let tasks: Vec<Slotted> = table
            .tasks
            .iter()
            .map(|task| Slotted {
                partition: task.partition,
                priority: task.priority,
                limit: task.time.div_ceil(table.tick),
            })
            .collect();
        let mut block = FrameBlock {
            name: name.to_string(),
            broken_table: false,
            broken_state: false,
            tick: table.tick,
            task_count: tasks.len() as u64,
            queues: vec![Queue { waiting: 0, run: 0 }; tasks.len()],
            tasks,
            ticks: 0,
            accepted: 0,
            last: None,
            operation: Operation::Fresh,
        };
        if !random.chance(8) {
            block.draw_state(random);
        }
        block.operation = match random.below(10) {
            0 => Operation::Fresh,
            1 | 2 => Operation::Release(draw_row(block.task_count, random)),
            _ => {
                let percent = if block.last.is_some() { 35 } else { 10 };
                Operation::Tick(u64::from(random.chance(percent)))
            }
        };
        block
    }

    fn draw_state(&mut self, random: &mut Random) {
        let busy = random.pick(&[10, 50, 50, 90]);
        for (task, queue) in self.tasks.iter().zip(&mut self.queues) {
            if random.chance(busy) {
                let any_waiting = random.within(1, MAX_WAITING);
                queue.waiting =
                    random.pick(&[1, MAX_WAITING - 1, MAX_WAITING, MAX_WAITING, any_waiting]);
                let any_run = random.within(0, task.limit - 1);
                queue.run = random.pick(&[0, 0, task.limit - 1, any_run]);
            }
        }
        self.ticks = draw_ticks(random);
        self.accepted = draw_count(self.jobs(), random);
        if random.chance(65) {
            self.draw_last(random);
        }
    }

    /// A task with a waiting job becomes the one that ran last, if there is one.
    fn draw_last(&mut self, random: &mut Random) {
        let waiting: Vec<usize> =
            (0..self.queues.len()).filter(|&row| self.queues[row].waiting > 0).collect();
        if !waiting.is_empty() {
            let row = random.pick(&waiting);
            let limit = self.tasks[row].limit;
            let any_run = random.within(1, limit);
            self.queues[row].run = random.pick(&[limit, limit, 1, any_run]);
            self.last = Some(row as u64);
            self.ticks = self.ticks.max(1);
        }
    }

    /// A sound block with a tick at one of the slots at which something changes, by
    /// turns, in any frame.
    fn at_slot(turn: usize, random: &mut Random) -> FrameBlock {
        const AT: [u64; 10] = [599, 600, 601, 602, 607, 611, 612, 613, SLOTS - 1, SLOTS];
        let mut block = FrameBlock::sound("frame-sound-at-slot", &frame::small(random), random);
        let at = AT[turn % AT.len()];
        let any_frame = random.within(0, MAX_COUNT / SLOTS - 2);
        block.ticks = random.pick(&[0, SLOTS, any_frame * SLOTS]) + at;
        if turn % 4 == 3 {
            block.name = "frame-sound-last-tick".to_string();
            block.ticks = MAX_COUNT - 1;
        }
        block.operation = Operation::Tick(u64::from(block.last.is_some() && random.chance(35)));
        block
    }

    /// A sound block with a count at its bound, and the refusals that come before
    /// and after its own, by turns.
    fn at_count(turn: usize, random: &mut Random) -> FrameBlock {
        let mut block = FrameBlock::sound("", &frame::small(random), random);
        let row = random.below(block.tasks.len());
        let (name, operation) = match turn % 6 {
            0 => {
                block.accepted = MAX_COUNT;
                block.queues[row].waiting = MAX_WAITING;
                ("frame-sound-release-8-and-10", Operation::Release(row as u64))
            }
            1 => {
                block.accepted = MAX_COUNT;
                block.queues[row].waiting = block.queues[row].waiting.min(MAX_WAITING - 1);
                ("frame-sound-release-10", Operation::Release(row as u64))
            }
            2 => {
                block.stop_last();
                block.ticks = MAX_COUNT;
                ("frame-sound-tick-9-and-10", Operation::Tick(1))
            }
            3 => {
                let absent = [block.task_count, block.task_count + 1, 64, MAX_FIELD + 1];
                block.accepted = MAX_COUNT;
                ("frame-sound-release-6-and-10", Operation::Release(random.pick(&absent)))
            }
            4 => {
                block.queues[row].waiting = MAX_WAITING;
                ("frame-sound-release-8", Operation::Release(row as u64))
            }
            _ => {
                block.ticks = MAX_COUNT;
                let mark = u64::from(block.last.is_some() && random.chance(50));
                ("frame-sound-tick-10", Operation::Tick(mark))
            }
        };
        block.name = name.to_string();
        block.operation = operation;
        block.accept_jobs();
        block
    }

    /// No job ran last; the one that did may not stay at its limit.
    fn stop_last(&mut self) {
        if let Some(row) = self.last.take() {
            if let Some(queue) = self.queues.get_mut(row as usize) {
                queue.run = 0;
            }
        }
    }

    fn jobs(&self) -> u64 {
        self.queues.iter().map(|queue| queue.waiting).sum()
    }

    /// No more jobs wait than releases were accepted.
    fn accept_jobs(&mut self) {
        self.accepted = self.accepted.max(self.jobs());
    }

    /// A task with a waiting job: one is put there where none waits.
    fn some_waiting(&mut self, random: &mut Random) -> usize {
        let row = random.below(self.tasks.len());
        self.queues[row].waiting = self.queues[row].waiting.max(1);
        self.accept_jobs();
        row
    }

    /// A task with a waiting job that did not run last.
    fn some_other(&mut self, random: &mut Random) -> usize {
        let row = self.some_waiting(random);
        if self.last == Some(row as u64) {
            self.stop_last();
        }
        row
    }

    /// A task whose job ran last.
    fn some_last(&mut self, random: &mut Random) -> Option<usize> {
        if let Some(row) = self.last {
            return (row < self.tasks.len() as u64).then_some(row as usize);
        }
        let row = self.some_waiting(random);
        self.queues[row].run = self.queues[row].run.max(1);
        self.ticks = self.ticks.max(1);
        self.last = Some(row as u64);
        Some(row)
    }

    /// Whether the operation must be refused with 13, by what it looks at.
    pub fn must_be_13(&self) -> bool {
        self.broken_table || (self.broken_state && self.operation.looks_at_state())
    }

    /// Rows that are not in use and may hold anything; rows that are all 0 and
    /// need not be given.
    fn pad(&mut self, random: &mut Random) {
        let tasks = self.tasks.len();
        if self.task_count <= tasks as u64 && tasks < MAX_TASKS && random.chance(20) {
            self.tasks.push(Slotted {
                partition: random.within(0, MAX_BYTE),
                priority: random.within(0, MAX_BYTE),
                limit: any(random),
            });
            self.queues.push(Queue { waiting: random.within(0, MAX_BYTE), run: any(random) });
        }
        while self.queues.last().is_some_and(|q| q.waiting == 0 && q.run == 0) && random.chance(40)
        {
            self.queues.pop();
        }
    }

    /// The block's lines.
    pub fn text(&self, random: &mut Random) -> String {
        let mut text = line(&[&"frame", &self.tick, &self.task_count]);
        for task in &self.tasks {
            text += &line(&[&"slotted", &task.partition, &task.priority, &task.limit]);
        }
        let (any_last, last) = match self.last {
            Some(row) => (1, row),
            None => (0, random.pick(&[0, 1, 64, MAX_FIELD])),
        };
        let all_0 = self.ticks == 0 && self.accepted == 0 && any_last == 0;
        if !all_0 || random.chance(50) {
            text += &line(&[&"box", &self.ticks, &self.accepted, &any_last, &last]);
        }
        for queue in &self.queues {
            text += &line(&[&"queue", &queue.waiting, &queue.run]);
        }
        text + &operation_line(self.operation)
    }

    /// The names of what was seen in the answer, by the numbers of its line `no` or
    /// `tick`, if it is one.
    pub fn names(&self, no: Option<&[u64]>, tick: Option<&[u64]>) -> BTreeSet<String> {
        let asked = self.operation.word();
        let mut names = BTreeSet::new();
        if let Some(numbers) = no {
            let number = numbers.first().copied().unwrap_or(0);
            names.insert(format!("{asked} no {number}"));
            let full = match self.operation {
                Operation::Release(_) => self.accepted == MAX_COUNT,
                _ => self.ticks == MAX_COUNT,
            };
            if full && matches!(number, 8 | 9) {
                names.insert(format!("{asked} no {number} with the count full"));
            }
            if number == 13 {
                names.insert(broken(&self.name));
            }
        } else {
            names.insert(format!("{asked} taken"));
            if self.broken_state {
                names.insert(format!("{asked} taken beside a broken state"));
            }
        }
        if let Some(&[tick, _, what, partition, _, how, _, _]) = tick {
            let word = if what == 2 { "run of" } else { "empty slot of" };
            names.insert(format!("{word} partition {partition}"));
            names.extend(slot_name(tick, what == 2));
            match how {
                0 => {}
                1 => _ = names.insert("left done".to_string()),
                _ => _ = names.insert("left cut".to_string()),
            }
            if let (Some(row), Operation::Tick(mark)) = (self.last, self.operation) {
                let row = row as usize; // in use, as the state is sound
                if self.queues[row].run == self.tasks[row].limit {
                    names.insert(format!("job at its limit, mark {mark}"));
                }
            }
        }
        names.into_iter().map(|name| format!("frame: {name}")).collect()
    }
}

fn slot_name(tick: u64, run: bool) -> Option<String> {
    let slot = tick % SLOTS;
    let what = if run { "run" } else { "empty" };
    Some(match slot {
        _ if tick == MAX_COUNT - 1 => format!("tick {tick}"),
        0 if tick > 0 => "slot 0 of a later frame".to_string(),
        599 | 612 | 1199 => format!("slot {slot}"),
        _ if SELF_TEST.contains(&slot) => format!("slot 600 to 611 {what}"),
        _ => return None,
    })
}

/// Ticks taken: the tick asked for then has this number. About the self-test and
/// the end of a frame, the first and any, the bound of the count, or any.
fn draw_ticks(random: &mut Random) -> u64 {
    let frames = random.pick(&[0, 0, 1, 2, 3_333_332]);
    let any_frame = random.within(0, MAX_COUNT / SLOTS - 2);
    let start = random.pick(&[frames, any_frame]) * SLOTS;
    match random.below(14) {
        0 => 0,
        1 => start + random.within(0, 13),
        2 | 3 => start + random.pick(&[599, 599, 598, 612, 612, 613]),
        4..=6 => start + random.within(600, 611),
        7 | 8 => start + random.pick(&[1_198, 1_199, 1_199, 1_200, 1_200, 1_201]),
        9 => random.pick(&[MAX_COUNT, MAX_COUNT - 1, MAX_COUNT - 1, MAX_COUNT - 2]),
        10 | 11 => random.within(MAX_COUNT - SLOTS, MAX_COUNT),
        12 => random.within(0, MAX_COUNT),
        _ => random.within(0, 3 * SLOTS),
    }
}

/// Breaks a block; false if it has no place for that.
type Fault = fn(&mut FrameBlock, &mut Random) -> bool;

/// The clauses of the table.
const TABLE_FAULTS: [(&str, Fault); 13] = [
    ("tick-0", |block, _| set(&mut block.tick, 0)),
    ("tick-long", |block, random| set(&mut block.tick, above(MAX_TICK, random))),
    ("tasks-0", |block, _| set(&mut block.task_count, 0)),
    ("tasks-65", |block, _| set(&mut block.task_count, 65)),
    ("tasks-many", |block, random| set(&mut block.task_count, above(65, random))),
    ("task-row-missing", |block, _| {
        let rows = block.tasks.len();
        rows < MAX_TASKS && set(&mut block.task_count, rows as u64 + 1)
    }),
    ("partition-3", |block, random| {
        let row = random.below(block.tasks.len());
        set(&mut block.tasks[row].partition, 3)
    }),
    ("partition-great", |block, random| {
        let row = random.below(block.tasks.len());
        set(&mut block.tasks[row].partition, above_byte(3, random))
    }),
    ("priority-0", |block, random| {
        let row = random.below(block.tasks.len());
        set(&mut block.tasks[row].priority, 0)
    }),
    ("priorities-equal", |block, random| {
        let Some((one, other)) = two_rows(block.tasks.len(), random) else { return false };
        block.tasks[one].priority = block.tasks[other].priority;
        true
    }),
    ("limit-0", |block, random| {
        let row = random.below(block.tasks.len());
        block.queues[row] = Queue { waiting: 0, run: 0 };
        if block.last == Some(row as u64) {
            block.last = None;
        }
        set(&mut block.tasks[row].limit, 0)
    }),
    ("limit-100001", |block, random| {
        let row = random.below(block.tasks.len());
        set(&mut block.tasks[row].limit, MAX_LIMIT + 1)
    }),
    ("limit-long", |block, random| {
        let row = random.below(block.tasks.len());
        set(&mut block.tasks[row].limit, above(MAX_LIMIT + 1, random))
    }),
];

/// The clauses of the state beside its table's.
const STATE_FAULTS: [(&str, Fault); 14] = [
    ("17-waiting", |block, random| {
        let row = block.some_waiting(random);
        block.queues[row].waiting = above_byte(MAX_WAITING, random);
        block.accept_jobs();
        true
    }),
    ("run-count-of-none", |block, random| {
        let row = random.below(block.tasks.len());
        if block.last == Some(row as u64) {
            block.last = None;
        }
        let run = random.pick(&[1, block.tasks[row].limit - 1, MAX_FIELD]);
        block.queues[row] = Queue { waiting: 0, run };
        run > 0
    }),
    ("run-count-at-limit", |block, random| {
        let row = block.some_other(random);
        let limit = block.tasks[row].limit;
        set(&mut block.queues[row].run, limit)
    }),
    ("run-count-above-limit", |block, random| {
        let row = block.some_other(random);
        let limit = block.tasks[row].limit;
        set(&mut block.queues[row].run, above(limit, random))
    }),
    ("last-above-limit", |block, random| {
        let Some(row) = block.some_last(random) else { return false };
        let limit = block.tasks[row].limit;
        set(&mut block.queues[row].run, above(limit, random))
    }),
    ("last-not-waiting", |block, random| {
        let row = random.below(block.tasks.len());
        block.stop_last();
        block.queues[row] = Queue { waiting: 0, run: 0 };
        block.ticks = block.ticks.max(1);
        block.last = Some(row as u64);
        true
    }),
    ("last-run-count-0", |block, random| {
        let Some(row) = block.some_last(random) else { return false };
        set(&mut block.queues[row].run, 0)
    }),
    ("last-without-tick", |block, random| {
        block.some_last(random).is_some() && set(&mut block.ticks, 0)
    }),
    ("last-absent", |block, random| {
        block.stop_last();
        block.ticks = block.ticks.max(1);
        block.last = Some(random.pick(&[block.tasks.len() as u64, 64, 65, MAX_FIELD]));
        true
    }),
    ("last-not-in-use", |block, random| {
        // A row that is given, with a job that may have run, and not in use.
        block.stop_last();
        block.ticks = block.ticks.max(1);
        block.last = Some(block.tasks.len() as u64);
        block.tasks.push(Slotted { partition: 0, priority: 255, limit: random.within(2, 9) });
        block.queues.push(Queue { waiting: 1, run: 1 });
        block.accepted = block.accepted.max(block.jobs());
        block.tasks.len() <= MAX_TASKS
    }),
    ("ticks-spent", |block, random| set(&mut block.ticks, above(MAX_COUNT, random))),
    ("accepted-spent", |block, random| set(&mut block.accepted, above(MAX_COUNT, random))),
    ("accepted-below-waiting", |block, random| {
        block.some_waiting(random);
        let most = block.jobs() - 1;
        set(&mut block.accepted, if random.chance(60) { most } else { random.within(0, most) })
    }),
    ("accepted-0-with-waiting", |block, random| {
        block.some_waiting(random);
        set(&mut block.accepted, 0)
    }),
];

/// What is counted for each broken clause where it is refused.
pub fn broken_names() -> impl Iterator<Item = String> {
    let names = TABLE_FAULTS.iter().chain(&STATE_FAULTS).map(|(name, _)| *name);
    names.map(|name| format!("frame: {}", broken(&format!("frame-{name}"))))
}

fn broken(name: &str) -> String {
    format!("13 for {}", name.trim_start_matches("frame-"))
}

/// A block broken in the clause of the turn.
fn one_fault(turn: usize, random: &mut Random) -> FrameBlock {
    let clause = turn % (TABLE_FAULTS.len() + STATE_FAULTS.len());
    let mut block = loop {
        let mut block = FrameBlock::sound("", &frame::small(random), random);
        block.name = "frame".to_string();
        if break_clause(&mut block, clause, random) {
            break block;
        }
    };
    let row = random.below(block.tasks.len()) as u64;
    let tick = Operation::Tick(random.within(0, 1));
    let handed_a_state = random.pick(&[Operation::Release(row), tick, tick]);
    if block.broken_state {
        // A fresh run does not look at the state.
        block.operation = if turn % 8 == 5 { Operation::Fresh } else { handed_a_state };
    } else {
        block.operation = random.pick(&[Operation::Fresh, handed_a_state]);
    }
    block
}

/// A block broken in two clauses, last in one of the table if there is such, so that
/// none is mended. The clause of a row not in use is left out for that too.
fn two_faults(random: &mut Random) -> FrameBlock {
    let clauses = TABLE_FAULTS.len() + STATE_FAULTS.len();
    loop {
        let mut block = FrameBlock::sound("frame", &frame::small(random), random);
        let (one, other) = (random.below(clauses), random.below(clauses));
        let (first, second) = (one.max(other), one.min(other));
        if break_clause(&mut block, first, random)
            && break_clause(&mut block, second, random)
            && !block.name.contains("not-in-use")
        {
            return block;
        }
    }
}

/// Breaks a block in a clause by its number, those of the table first; false, with
/// the block in any shape, if it has no place for that.
fn break_clause(block: &mut FrameBlock, clause: usize, random: &mut Random) -> bool {
    let of_state = clause.checked_sub(TABLE_FAULTS.len());
    let (name, fault) = match of_state {
        None => TABLE_FAULTS[clause],
        Some(clause) => STATE_FAULTS[clause],
    };
    block.name = format!("{}-{name}", block.name);
    block.broken_table |= of_state.is_none();
    block.broken_state |= of_state.is_some();
    fault(block, random)
}

#[cfg(test)]
mod tests {
    use super::{in_turn, STATE_FAULTS, TABLE_FAULTS};
    use crate::random::Random;

    #[test]
    fn every_clause_has_its_turn() {
        let mut names = Vec::new();
        let mut broken = 0;
        for turn in 0..4_000 {
            let mut random = Random::new(turn);
            let block = in_turn(turn as usize, &mut random);
            assert!(block.text(&mut random).starts_with("frame\t"));
            assert_eq!(block.name.contains("sound"), !block.broken_table && !block.broken_state);
            broken += usize::from(block.must_be_13());
            if turn < 400 {
                names.push(block.name);
            }
        }
        for (name, _) in TABLE_FAULTS.iter().chain(&STATE_FAULTS) {
            assert!(names.contains(&format!("frame-{name}")), "{name}");
        }
        assert!((1_500..2_000).contains(&broken), "{broken}");
    }
}
