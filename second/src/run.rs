//! The run: releases and ticks over a table.

use crate::table::{Kind, Level, Mode, Table, MAX_SERVERS};

/// The most jobs of one task that wait at a time.
pub const MAX_WAITING: u32 = 16;
/// The most ticks taken, and the most releases accepted.
pub const MAX_COUNT: u32 = 4_000_000_000;

/// Why an event was refused. The run is then as it was.
#[derive(Clone, Copy, Debug, PartialEq, Eq)]
pub enum No {
    NoSuchTask = 6,
    LoReleaseInD2 = 7,
    QueueFull = 8,
    NoJobToEnd = 9,
    CountFull = 10,
}

impl No {
    pub fn number(self) -> u8 {
        self as u8
    }
}

/// A server's budget: ticks used and elapsed since its last refill.
#[derive(Clone, Debug, Default, PartialEq, Eq)]
pub struct Budget {
    pub used: u32,
    pub elapsed: u32,
}

/// A task's queue: the jobs waiting, and the ticks the front job has run.
#[derive(Clone, Debug, Default, PartialEq, Eq)]
pub struct Queue {
    pub waiting: u32,
    pub run: u32,
}

impl Queue {
    /// The front job leaves; the next one starts at 0.
    pub(crate) fn drop_front(&mut self) {
        self.waiting -= 1;
        self.run = 0;
    }

    /// Whether the counts go together, with the limit of the front job and whether
    /// it is the job run last.
    pub(crate) fn is_sound(&self, limit: u32, is_last: bool) -> bool {
        let run_fits = if self.waiting == 0 {
            self.run == 0
        } else if is_last {
            self.run <= limit
        } else {
            self.run < limit
        };
        self.waiting <= MAX_WAITING && run_fits
    }
}

/// Whether the task that ran last, if any, is there and has a job that has run.
pub(crate) fn last_is_sound(last: Option<usize>, ticks: u32, queues: &[Queue]) -> bool {
    match last {
        None => true,
        Some(row) => match queues.get(row) {
            None => false,
            Some(queue) => queue.waiting >= 1 && queue.run >= 1 && ticks >= 1,
        },
    }
}

/// Whether both counts are within their bounds, and go with the jobs waiting.
pub(crate) fn counts_are_sound(ticks: u32, accepted: u32, queues: &[Queue]) -> bool {
    let waiting: u64 = queues.iter().map(|queue| u64::from(queue.waiting)).sum();
    ticks <= MAX_COUNT && accepted <= MAX_COUNT && u64::from(accepted) >= waiting
}

/// What takes events: a run, of servers or of a frame.
pub trait TakeEvents {
    /// A release of a task.
    fn release(&mut self, task: u64) -> Result<(), No>;
    /// A tick with its end mark.
    fn tick(&mut self, mark: bool) -> Result<Answer, No>;
}

/// A run's table and state.
#[derive(Clone, Debug, PartialEq, Eq)]
pub struct Run {
    pub table: Table,
    pub mode: Mode,
    /// Ticks taken.
    pub ticks: u32,
    /// Releases accepted.
    pub accepted: u32,
    /// The task whose front job the last taken tick ran, if it ran one.
    pub last: Option<usize>,
    pub budgets: Vec<Budget>,
    pub queues: Vec<Queue>,
}

/// What a tick said.
#[derive(Clone, Copy, Debug, PartialEq, Eq)]
pub enum What {
    Run { server: usize, task: usize },
    Empty { server: usize },
    Idle,
}

/// How a job left.
#[derive(Clone, Copy, Debug, PartialEq, Eq)]
pub enum How {
    Done,
    Cut,
}

/// A job that left, by its task.
#[derive(Clone, Copy, Debug, PartialEq, Eq)]
pub struct Left {
    pub how: How,
    pub task: usize,
}

/// The answer of a taken tick.
#[derive(Clone, Copy, Debug, PartialEq, Eq)]
pub struct Answer {
    pub tick: u32,
    pub mode: Mode,
    pub what: What,
    pub left: Option<Left>,
    pub discarded: u32,
}

impl Run {
    /// A fresh run over a table that keeps the rules.
    pub fn fresh(table: Table) -> Run {
        let budgets = vec![Budget::default(); table.servers.len()];
        let queues = vec![Queue::default(); table.tasks.len()];
        Run { table, mode: Mode::N, ticks: 0, accepted: 0, last: None, budgets, queues }
    }

    /// Whether a state handed in by its fields is sound. A fresh run is, and
    /// the events keep it so; they need not ask again.
    pub fn is_sound(&self) -> bool {
        self.table.keeps_the_rules()
            && self.budgets.len() == self.table.servers.len()
            && self.queues.len() == self.table.tasks.len()
            && self.budgets_are_sound()
            && self.queues_are_sound()
            && last_is_sound(self.last, self.ticks, &self.queues)
            && counts_are_sound(self.ticks, self.accepted, &self.queues)
    }

    fn budgets_are_sound(&self) -> bool {
        self.table.servers.iter().zip(&self.budgets).all(|(server, budget)| {
            budget.elapsed <= server.period
                && budget.used <= budget.elapsed
                && budget.used <= server.largest_capacity()
                && (server.has_started(self.ticks) || *budget == Budget::default())
        })
    }

    fn queues_are_sound(&self) -> bool {
        self.table.tasks.iter().zip(&self.queues).enumerate().all(|(row, (task, queue))| {
            let lo_in_d2 = self.mode == Mode::D2 && task.level == Level::Lo && queue.waiting > 0;
            queue.is_sound(task.limit_in(self.mode), self.last == Some(row)) && !lo_in_d2
        })
    }

    /// A release of a task.
    pub fn release(&mut self, task: u64) -> Result<(), No> {
        if task >= self.table.tasks.len() as u64 {
            return Err(No::NoSuchTask);
        }
        let row = task as usize;
        if self.mode == Mode::D2 && self.table.tasks[row].level == Level::Lo {
            return Err(No::LoReleaseInD2);
        }
        if self.queues[row].waiting >= MAX_WAITING {
            return Err(No::QueueFull);
        }
        if self.accepted >= MAX_COUNT {
            return Err(No::CountFull);
        }
        self.queues[row].waiting += 1;
        self.accepted += 1;
        Ok(())
    }

    /// A tick with its end mark.
    pub fn tick(&mut self, mark: bool) -> Result<Answer, No> {
        self.tick_telling(mark, |_, _| {})
    }

    /// A tick with its end mark. Where step 2 discards, it tells for each LO
    /// task how many of its jobs.
    pub fn tick_telling(&mut self, mark: bool, tell: impl FnMut(usize, u32)) -> Result<Answer, No> {
        if mark && self.last.is_none() {
            return Err(No::NoJobToEnd);
        }
        if self.ticks >= MAX_COUNT {
            return Err(No::CountFull);
        }

        // Step 1.
        let mode_before = self.mode;
        let left = match self.last {
            Some(task) => self.judge_last_job(task, mark),
            None => None,
        };

        // Step 2.
        let mut discarded = 0;
        if self.mode == Mode::D2 && mode_before != Mode::D2 {
            discarded = self.discard_lo_jobs(tell);
        }

        // Step 3.
        if self.mode != Mode::N && self.queues.iter().all(|queue| queue.waiting == 0) {
            self.mode = Mode::N;
        }

        // Step 4.
        self.refill_budgets();

        // Steps 5 and 6.
        let what = self.schedule();
        self.last = match what {
            What::Run { task, .. } => Some(task),
            What::Empty { .. } | What::Idle => None,
        };

        // Step 7.
        let tick = self.ticks;
        for (server, budget) in self.table.servers.iter().zip(&mut self.budgets) {
            if server.has_started(tick) {
                budget.elapsed += 1;
            }
        }
        self.ticks += 1;

        Ok(Answer { tick, mode: self.mode, what, left, discarded })
    }

    /// Step 1: the job run in the last taken tick leaves, or the mode rises, or
    /// both, or neither. At its limit a job raises the mode by one if its level
    /// lies above the mode's, and is judged again in the new mode; otherwise it
    /// is cut.
    fn judge_last_job(&mut self, row: usize, mark: bool) -> Option<Left> {
        if mark {
            self.queues[row].drop_front();
            return Some(Left { how: How::Done, task: row });
        }
        let task = &self.table.tasks[row];
        while self.queues[row].run == task.limit_in(self.mode) {
            if task.level > self.mode.level() {
                self.mode = self.mode.raised();
            } else {
                self.queues[row].drop_front();
                return Some(Left { how: How::Cut, task: row });
            }
        }
        None
    }

    /// Step 2: every waiting LO job is discarded; gives their number, and tells
    /// that of each task.
    fn discard_lo_jobs(&mut self, mut tell: impl FnMut(usize, u32)) -> u32 {
        let mut discarded = 0;
        for (row, (task, queue)) in self.table.tasks.iter().zip(&mut self.queues).enumerate() {
            if task.level == Level::Lo {
                tell(row, queue.waiting);
                discarded += queue.waiting;
                *queue = Queue::default();
            }
        }
        discarded
    }

    /// Step 4: servers at the end of their period start a new one. The first one
    /// begins at the server's phase, as no tick before it is counted as elapsed.
    fn refill_budgets(&mut self) {
        for (server, budget) in self.table.servers.iter().zip(&mut self.budgets) {
            if budget.elapsed == server.period {
                *budget = Budget::default();
            }
        }
    }

    /// Steps 5 and 6: the highest able server is charged, and its highest task
    /// with a waiting job runs. A server that has not started is not able.
    fn schedule(&mut self) -> What {
        // For each server its highest task with a waiting job.
        let mut first_task: [Option<usize>; MAX_SERVERS] = [None; MAX_SERVERS];
        for (row, task) in self.table.tasks.iter().enumerate() {
            if self.queues[row].waiting == 0 {
                continue;
            }
            let first = &mut first_task[task.server_in(self.mode)];
            let higher = match *first {
                None => true,
                Some(other) => task.priority > self.table.tasks[other].priority,
            };
            if higher {
                *first = Some(row);
            }
        }

        let mut charged: Option<usize> = None;
        for (row, server) in self.table.servers.iter().enumerate() {
            let able = server.has_started(self.ticks)
                && self.budgets[row].used < server.capacity_in(self.mode)
                && (server.kind == Kind::Timed || first_task[row].is_some());
            let higher = match charged {
                None => true,
                Some(other) => server.priority > self.table.servers[other].priority,
            };
            if able && higher {
                charged = Some(row);
            }
        }

        let Some(server) = charged else {
            return What::Idle;
        };
        self.budgets[server].used += 1;
        match first_task[server] {
            None => What::Empty { server },
            Some(task) => {
                self.queues[task].run += 1;
                What::Run { server, task }
            }
        }
    }
}

impl TakeEvents for Run {
    fn release(&mut self, task: u64) -> Result<(), No> {
        Run::release(self, task)
    }

    fn tick(&mut self, mark: bool) -> Result<Answer, No> {
        Run::tick(self, mark)
    }
}
