//! The frame blocks of the `states` program.

use crate::frame::{FrameRun, FrameTable, FrameTask};
use crate::run::{Queue, TakeEvents};
use crate::states::{fields, one, push_line, push_queues, push_row, push_tick};
use crate::states::{Operation, UNSOUND};
use crate::table::MAX_TASKS;

/// The fields of a frame block as given.
pub(crate) struct FrameBlock {
    tick: u32,
    task_count: u32,
    tasks: Vec<FrameTask>,
    ticks: u32,
    accepted: u32,
    last: Option<usize>,
    queues: Vec<Queue>,
}

impl FrameBlock {
    pub(crate) fn new(numbers: &[u64]) -> Result<FrameBlock, String> {
        let [tick, task_count] = fields("frame", numbers)?;
        Ok(FrameBlock {
            tick,
            task_count,
            tasks: Vec::new(),
            ticks: 0,
            accepted: 0,
            last: None,
            queues: Vec::new(),
        })
    }

    /// Takes a line of the block; false if the word is not one of its lines.
    pub(crate) fn take_line(&mut self, word: &str, numbers: &[u64]) -> Result<bool, String> {
        match word {
            "slotted" => {
                let [partition, priority, limit] = fields(word, numbers)?;
                let task = FrameTask { partition, priority, limit };
                push_row(&mut self.tasks, task, MAX_TASKS, word)?;
            }
            "box" => {
                let [ticks, accepted, any_last, last] = fields(word, numbers)?;
                self.ticks = ticks;
                self.accepted = accepted;
                self.last = one(&[None, Some(last as usize)], any_last, "answer to any last")?;
            }
            "queue" => {
                let [waiting, run] = fields(word, numbers)?;
                push_row(&mut self.queues, Queue { waiting, run }, MAX_TASKS, word)?;
            }
            _ => return Ok(false),
        }
        Ok(true)
    }

    /// The table and state on the rows in use, as in the other blocks.
    fn into_run(mut self) -> FrameRun {
        let rows = (self.task_count as usize).min(MAX_TASKS + 1);
        self.tasks.resize(rows, FrameTask { partition: 0, priority: 0, limit: 0 });
        self.queues.resize(rows, Queue::default());
        FrameRun {
            table: FrameTable { tick: self.tick, tasks: self.tasks },
            ticks: self.ticks,
            accepted: self.accepted,
            last: self.last,
            queues: self.queues,
        }
    }

    /// Does the operation and writes what was taken, or the refusal. An operation
    /// that a frame block does not have breaks the format.
    pub(crate) fn answer(self, operation: Operation, out: &mut String) -> Result<(), String> {
        let run = self.into_run();
        let outcome = match operation {
            Operation::Fresh => fresh(run, out),
            Operation::Release(task) => release(run, task, out),
            Operation::Tick(mark) => tick(run, mark, out),
            _ => return Err("a frame block has no such operation".to_string()),
        };
        if let Err(number) = outcome {
            push_line(out, &[&"no", &number]);
        }
        Ok(())
    }
}

/// A fresh run is handed the table alone, the others a state.
fn fresh(run: FrameRun, out: &mut String) -> Result<(), u8> {
    expect_sound(run.table.keeps_the_rules())?;
    push_line(out, &[&"fresh"]);
    push_state(&FrameRun::fresh(run.table), out);
    Ok(())
}

fn release(mut run: FrameRun, task: u64, out: &mut String) -> Result<(), u8> {
    expect_sound(run.is_sound())?;
    run.release(task).map_err(|no| no.number())?;
    push_line(out, &[&"release"]);
    push_state(&run, out);
    Ok(())
}

fn tick(mut run: FrameRun, mark: bool, out: &mut String) -> Result<(), u8> {
    expect_sound(run.is_sound())?;
    let answer = run.tick(mark).map_err(|no| no.number())?;
    push_tick(&answer, out);
    push_state(&run, out);
    Ok(())
}

fn expect_sound(sound: bool) -> Result<(), u8> {
    if sound {
        Ok(())
    } else {
        Err(UNSOUND)
    }
}

fn push_state(run: &FrameRun, out: &mut String) {
    let (any_last, last) = match run.last {
        None => (0, 0),
        Some(last) => (1, last),
    };
    push_line(out, &[&"box", &run.ticks, &run.accepted, &any_last, &last]);
    push_queues(&run.queues, out);
}
