//! A good table and a long event file, for measuring.

use crate::frame::{FrameTable, FrameTask};
use crate::random::Random;
use crate::table::{text_of, Server, Table, Task};

const TICK: u64 = 1000;
/// Rows of a partition: event servers and, last, their timed one.
const GROUP: usize = 16;
/// Lines of a cycle of the event file, and how many of them are busy.
const CYCLE: u64 = 100;
const BUSY: u64 = 60;

/// The text of a table with so many servers and tasks.
pub fn table_text(servers: usize, tasks: usize) -> Vec<u8> {
    text_of(&table(servers, tasks).lines())
}

/// Every partition has event servers and a timed one; the last server is timed
/// and takes what the others leave. All event servers stand above the timed
/// ones, so that few ticks go to timed servers without work.
fn table(servers: usize, tasks: usize) -> Table {
    let groups = servers.div_ceil(GROUP) as u64;
    let period = 4 * servers as u64;
    let mut server_rows = Vec::new();
    for row in 0..servers {
        let timed = timed_row_of(row, servers) == row;
        let priority = if timed { servers - row } else { 2 * servers - row };
        let capacity = if row == servers - 1 {
            [period; 3]
        } else if timed {
            [period / 16, period / groups, period / groups]
        } else {
            [period.min(16), 0, 0]
        };
        server_rows.push(Server {
            partition: (row / GROUP) as u64,
            timed,
            priority: priority as u64,
            period,
            capacity,
            phase: None,
        });
    }

    let mut task_rows = Vec::new();
    for row in 0..tasks {
        let level = ["HI", "MI", "LO"][row % 3];
        let limits: [u64; 3] = match level {
            "HI" => [10, 14, 20],
            "MI" => [10, 14, 16],
            _ => [12, 12, 12],
        };
        let home = row % servers;
        task_rows.push(Task {
            home,
            degraded: timed_row_of(home, servers),
            priority: (255 - row) as u64,
            level,
            time: limits.map(|limit| limit * TICK),
        });
    }
    Table { tick: TICK, servers: server_rows, tasks: task_rows }
}

/// The text of a frame table with so many tasks, of the three partitions by turns.
pub fn frame_table_text(tasks: usize) -> Vec<u8> {
    let row = |row: usize| FrameTask {
        partition: (row % 3) as u64,
        priority: (255 - row) as u64,
        time: (2 + row % 5) as u64 * TICK,
    };
    text_of(&FrameTable { tick: TICK, tasks: (0..tasks).map(row).collect() }.lines())
}

/// The row of the timed server in a row's partition.
fn timed_row_of(row: usize, servers: usize) -> usize {
    (row / GROUP * GROUP + GROUP - 1).min(servers - 1)
}

/// Three lines in ten are releases, nearly all others ticks. Jobs come in busy
/// stretches and are worked off in calm ones; in a few cycles the marks
/// stay away, so that jobs overrun and the mode rises.
pub fn events(lines: u64, tasks: usize, random: &mut Random) -> Vec<u8> {
    let mut text = Vec::new();
    let mut overrun = false;
    for line in 0..lines {
        let at = line % CYCLE;
        if at == 0 {
            overrun = random.chance(4);
        }
        let (release, mark) = if at < BUSY { (45, 65) } else { (8, 50) };
        let mark = if overrun { 5 } else { mark };
        if random.chance(release) {
            text.extend_from_slice(format!("R\t{}\n", random.below(tasks)).as_bytes());
        } else if random.below(1000) == 0 {
            text.extend_from_slice(b"T\t2\n");
        } else if random.chance(mark) {
            text.extend_from_slice(b"T\t1\n");
        } else {
            text.extend_from_slice(b"T\t0\n");
        }
    }
    text
}
