//! The frame box: tasks of three partitions, which have the slots of a fixed frame,
//! in mode N only.

use crate::run::{counts_are_sound, last_is_sound};
use crate::run::{Answer, How, Left, No, Queue, TakeEvents, What, MAX_COUNT, MAX_WAITING};
use crate::table::{all_differ, Mode, MAX_LIMIT, MAX_PRIORITY, MAX_TASKS, MAX_TICK_LENGTH};

/// The slots of a frame; a tick has the slot of its number modulo this.
pub const SLOTS: u32 = 1_200;

pub const MEASURING: u32 = 0;
pub const ALARM_SENDING: u32 = 1;
pub const PANEL: u32 = 2;

/// The first and the last slot of the self-test.
const SELF_TEST: (u32, u32) = (600, 611);

/// The partition to which a slot belongs.
pub fn owner_of(slot: u32) -> u32 {
    if slot >= SELF_TEST.0 && slot <= SELF_TEST.1 {
        return MEASURING;
    }
    match slot % 12 {
        0 | 3 | 6 | 9 => MEASURING,
        1 | 7 => ALARM_SENDING,
        _ => PANEL,
    }
}

/// A task row. The limit is in ticks.
#[derive(Clone, Debug, PartialEq, Eq)]
pub struct FrameTask {
    pub partition: u32,
    pub priority: u32,
    pub limit: u32,
}

/// A frame table. The tick length is in microseconds.
#[derive(Clone, Debug, PartialEq, Eq)]
pub struct FrameTable {
    pub tick: u32,
    pub tasks: Vec<FrameTask>,
}

impl FrameTable {
    /// Whether a table handed in by its fields keeps the rules.
    pub fn keeps_the_rules(&self) -> bool {
        (1..=MAX_TICK_LENGTH).contains(&self.tick)
            && (1..=MAX_TASKS).contains(&self.tasks.len())
            && self.tasks.iter().all(task_keeps_the_rules)
            && all_differ(self.tasks.iter().map(|task| task.priority))
    }
}

fn task_keeps_the_rules(task: &FrameTask) -> bool {
    task.partition <= PANEL
        && (1..=MAX_PRIORITY).contains(&task.priority)
        && (1..=MAX_LIMIT).contains(&task.limit)
}

/// A frame table and its state.
#[derive(Clone, Debug, PartialEq, Eq)]
pub struct FrameRun {
    pub table: FrameTable,
    /// Ticks taken.
    pub ticks: u32,
    /// Releases accepted.
    pub accepted: u32,
    /// The task whose front job the last taken tick ran, if it ran one.
    pub last: Option<usize>,
    pub queues: Vec<Queue>,
}

impl FrameRun {
    /// A fresh run over a table that keeps the rules.
    pub fn fresh(table: FrameTable) -> FrameRun {
        let queues = vec![Queue::default(); table.tasks.len()];
        FrameRun { table, ticks: 0, accepted: 0, last: None, queues }
    }

    /// Whether a state handed in by its fields is sound. A fresh run is, and
    /// the events keep it so; they need not ask again.
    pub fn is_sound(&self) -> bool {
        self.table.keeps_the_rules()
            && self.queues.len() == self.table.tasks.len()
            && self.queues_are_sound()
            && last_is_sound(self.last, self.ticks, &self.queues)
            && counts_are_sound(self.ticks, self.accepted, &self.queues)
    }

    fn queues_are_sound(&self) -> bool {
        let mut rows = self.table.tasks.iter().zip(&self.queues).enumerate();
        rows.all(|(row, (task, queue))| queue.is_sound(task.limit, self.last == Some(row)))
    }

    /// The job run in the last taken tick leaves: ended by its mark, or cut at its
    /// limit. Otherwise it stays.
    fn judge_last_job(&mut self, row: usize, mark: bool) -> Option<Left> {
        let queue = &mut self.queues[row];
        let how = if mark {
            How::Done
        } else if queue.run == self.table.tasks[row].limit {
            How::Cut
        } else {
            return None;
        };
        queue.drop_front();
        Some(Left { how, task: row })
    }

    /// The highest task of the partition that has a waiting job.
    fn highest_waiting(&self, partition: u32) -> Option<usize> {
        let tasks = &self.table.tasks;
        (0..tasks.len())
            .filter(|&row| tasks[row].partition == partition && self.queues[row].waiting > 0)
            .max_by_key(|&row| tasks[row].priority)
    }
}

impl TakeEvents for FrameRun {
    fn release(&mut self, task: u64) -> Result<(), No> {
        if task >= self.queues.len() as u64 {
            return Err(No::NoSuchTask);
        }
        let queue = &mut self.queues[task as usize];
        if queue.waiting >= MAX_WAITING {
            return Err(No::QueueFull);
        }
        if self.accepted >= MAX_COUNT {
            return Err(No::CountFull);
        }
        queue.waiting += 1;
        self.accepted += 1;
        Ok(())
    }

    fn tick(&mut self, mark: bool) -> Result<Answer, No> {
        if mark && self.last.is_none() {
            return Err(No::NoJobToEnd);
        }
        if self.ticks >= MAX_COUNT {
            return Err(No::CountFull);
        }

        let left = self.last.and_then(|row| self.judge_last_job(row, mark));

        let tick = self.ticks;
        let server = owner_of(tick % SLOTS);
        self.last = self.highest_waiting(server);
        let server = server as usize;
        let what = match self.last {
            None => What::Empty { server },
            Some(task) => {
                self.queues[task].run += 1;
                What::Run { server, task }
            }
        };
        self.ticks += 1;
        Ok(Answer { tick, mode: Mode::N, what, left, discarded: 0 })
    }
}
