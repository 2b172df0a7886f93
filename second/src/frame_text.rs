//! The reader of frame table text. The text holds microseconds, the table ticks.

use crate::frame::{FrameTable, FrameTask, PANEL};
use crate::table::MAX_TASKS;
use crate::text::{expect, expect_different, expect_fields, limit_in_bounds, number_at};
use crate::text::{priority_in_bounds, read_lines, read_tick, split_fields, Fault, Refusal};
use crate::text::{MALFORMED, NO_FIELDS, NO_LINE, OUT_OF_BOUNDS, THE_LINE};

/// The line of the first task.
const FIRST_TASK_LINE: usize = 2;

/// Reads a frame table text, or says why it is refused: length first, then line
/// by line, then equal priorities.
pub fn read(text: &[u8]) -> Result<FrameTable, Refusal> {
    let mut tick = None;
    let mut tasks = Vec::new();
    let lines_read = read_lines(text, |line| {
        let mut room = NO_FIELDS;
        let fields = split_fields(line, &mut room);
        match (fields[0], tick) {
            (b"tick", None) => tick = Some(read_tick(fields)?),
            (b"task", Some(tick)) => {
                let task = read_task(fields, u64::from(tick), tasks.len())?;
                tasks.push(task);
            }
            _ => return Err(Fault::new(MALFORMED, THE_LINE)),
        }
        Ok(())
    })?;
    let table = match tick {
        Some(tick) if !tasks.is_empty() => FrameTable { tick, tasks },
        _ => return Err(Refusal::at(lines_read + 1, NO_LINE)),
    };
    let priorities: Vec<u32> = table.tasks.iter().map(|task| task.priority).collect();
    expect_different(&priorities, FIRST_TASK_LINE)?;
    Ok(table)
}

/// The task of a task line after so many others.
fn read_task(fields: &[&[u8]], tick: u64, tasks_before: usize) -> Result<FrameTask, Fault> {
    expect_fields(fields, 3)?;
    let partition = number_at(fields, 1)?;
    let priority = number_at(fields, 2)?;
    let limit = number_at(fields, 3)?.div_ceil(tick);
    expect(
        OUT_OF_BOUNDS,
        &[
            (THE_LINE, tasks_before < MAX_TASKS),
            (1, partition <= u64::from(PANEL)),
            (2, priority_in_bounds(priority)),
            (3, limit_in_bounds(limit)),
        ],
    )?;
    Ok(FrameTask { partition: partition as u32, priority: priority as u32, limit: limit as u32 })
}
