//! Tables and states broken in one clause of the page, each by its name, or in
//! two of them.

use crate::block::{largest, Block, Budget, Queue, D2, LO, MAX_BYTE, MAX_COUNT, MAX_FIELD};
use crate::block::{Operation, MAX_WAITING};
use crate::random::Random;
use crate::table::{self, MAX_LIMIT, MAX_PERIOD, MAX_SERVERS, MAX_TASKS, MAX_TICK};

/// Breaks a block; false if it has no place for that.
type Fault = fn(&mut Block, &mut Random) -> bool;

/// The clauses of "Tables".
const TABLE_FAULTS: [(&str, Fault); 32] = [
    ("tick-0", |block, _| set(&mut block.tick, 0)),
    ("tick-long", |block, random| set(&mut block.tick, above(MAX_TICK, random))),
    ("servers-0", |block, _| set(&mut block.server_count, 0)),
    ("servers-33", |block, _| set(&mut block.server_count, 33)),
    ("servers-many", |block, random| set(&mut block.server_count, above(33, random))),
    ("server-row-missing", |block, _| {
        let rows = block.servers.len();
        rows < MAX_SERVERS && set(&mut block.server_count, rows as u64 + 1)
    }),
    ("tasks-0", |block, _| set(&mut block.task_count, 0)),
    ("tasks-65", |block, _| set(&mut block.task_count, 65)),
    ("tasks-many", |block, random| set(&mut block.task_count, above(65, random))),
    ("task-row-missing", |block, _| {
        let rows = block.tasks.len();
        rows < MAX_TASKS && set(&mut block.task_count, rows as u64 + 1)
    }),
    ("partition", |block, random| {
        let partition = above_byte(15, random);
        let own = random.pick(&block.servers.iter().map(|row| row.partition).collect::<Vec<_>>());
        // All of the partition, so that home and degraded server stay together.
        for server in block.servers.iter_mut().filter(|server| server.partition == own) {
            server.partition = partition;
        }
        true
    }),
    ("server-priority-0", |block, random| {
        let row = random.below(block.servers.len());
        set(&mut block.servers[row].priority, 0)
    }),
    ("server-priorities-equal", |block, random| {
        let Some((one, other)) = two_rows(block.servers.len(), random) else { return false };
        block.servers[one].priority = block.servers[other].priority;
        true
    }),
    ("period-0", |block, random| {
        let row = random.below(block.servers.len());
        block.budgets[row] = Budget { used: 0, elapsed: 0 };
        block.servers[row].capacity = [0; 3];
        set(&mut block.servers[row].period, 0)
    }),
    ("period-long", |block, random| {
        let row = random.below(block.servers.len());
        set(&mut block.servers[row].period, above(MAX_PERIOD, random))
    }),
    ("capacity-n", |block, random| capacity(0, block, random)),
    ("capacity-d1", |block, random| capacity(1, block, random)),
    ("capacity-d2", |block, random| capacity(2, block, random)),
    ("home-absent", |block, random| {
        let row = random.below(block.tasks.len());
        set(&mut block.tasks[row].home, above_byte(block.servers.len() as u64 - 1, random))
    }),
    ("degraded-absent", |block, random| {
        let row = random.below(block.tasks.len());
        set(&mut block.tasks[row].degraded, above_byte(block.servers.len() as u64 - 1, random))
    }),
    ("degraded-event", |block, random| {
        give_servers(block, random, |home, degraded| !home.timed && home.row == degraded.row)
    }),
    ("degraded-elsewhere", |block, random| {
        give_servers(block, random, |home, degraded| {
            !home.timed && degraded.timed && home.partition != degraded.partition
        })
    }),
    ("degraded-not-home", |block, random| {
        give_servers(block, random, |home, degraded| {
            home.timed
                && degraded.timed
                && home.row != degraded.row
                && home.partition == degraded.partition
        })
    }),
    ("task-priority-0", |block, random| {
        let row = random.below(block.tasks.len());
        set(&mut block.tasks[row].priority, 0)
    }),
    ("task-priorities-equal", |block, random| {
        let Some((one, other)) = two_rows(block.tasks.len(), random) else { return false };
        block.tasks[one].priority = block.tasks[other].priority;
        true
    }),
    ("limit-0", |block, random| {
        let row = random.below(block.tasks.len());
        block.queues[row] = Queue { waiting: 0, run: 0 };
        if block.last == Some(row as u64) {
            block.last = None;
        }
        block.tasks[row].limit[..=random.below(3)].fill(0);
        true
    }),
    ("limit-long-n", |block, random| limit(0, block, random)),
    ("limit-long-d1", |block, random| limit(1, block, random)),
    ("limit-long-d2", |block, random| limit(2, block, random)),
    ("limits-fall-n", |block, random| falling(0, block, random)),
    ("limits-fall-d1", |block, random| falling(1, block, random)),
    ("limits-fall-to-1", |block, random| {
        let row = random.below(block.tasks.len());
        let limits = &mut block.tasks[row].limit;
        limits[2] = 1;
        limits[1] > 1
    }),
];

/// The clauses of "A state is sound", beside its table's.
const STATE_FAULTS: [(&str, Fault); 17] = [
    ("elapsed-above-period", |block, random| {
        let row = random.below(block.servers.len());
        set(&mut block.budgets[row].elapsed, above(block.servers[row].period, random))
    }),
    ("used-above-elapsed", |block, random| {
        let row = random.below(block.servers.len());
        let most = largest(&block.servers[row]);
        if most == 0 {
            return false;
        }
        let used = random.within(1, most);
        block.budgets[row] = Budget { used, elapsed: random.within(0, used - 1) };
        true
    }),
    ("used-above-capacity", |block, random| {
        let row = random.below(block.servers.len());
        let (period, most) = (block.servers[row].period, largest(&block.servers[row]));
        if period <= most {
            return false;
        }
        let used = random.pick(&[most + 1, period]);
        block.budgets[row] = Budget { used, elapsed: random.within(used, period) };
        true
    }),
    ("17-waiting", |block, random| {
        let Some(row) = some_waiting(block, random) else { return false };
        block.queues[row].waiting = above_byte(MAX_WAITING, random);
        accept_jobs(block);
        true
    }),
    ("run-count-of-none", |block, random| {
        let row = random.below(block.tasks.len());
        if block.last == Some(row as u64) {
            return false;
        }
        block.queues[row] = Queue { waiting: 0, run: above(0, random) };
        true
    }),
    ("run-count-at-limit", |block, random| {
        let Some(row) = some_waiting(block, random) else { return false };
        let limit = block.tasks[row].limit[block.mode];
        block.last != Some(row as u64) && set(&mut block.queues[row].run, limit)
    }),
    ("run-count-above-limit", |block, random| {
        let Some(row) = some_waiting(block, random) else { return false };
        let limit = block.tasks[row].limit[block.mode];
        block.last != Some(row as u64) && set(&mut block.queues[row].run, above(limit, random))
    }),
    ("last-above-limit", |block, random| {
        let Some(row) = some_last(block, random) else { return false };
        let limit = block.tasks[row].limit[block.mode];
        set(&mut block.queues[row].run, above(limit, random))
    }),
    ("last-not-waiting", |block, random| {
        let row = random.below(block.tasks.len());
        block.queues[row] = Queue { waiting: 0, run: 0 };
        block.ticks = block.ticks.max(1);
        block.last = Some(row as u64);
        true
    }),
    ("last-run-count-0", |block, random| {
        let Some(row) = some_last(block, random) else { return false };
        set(&mut block.queues[row].run, 0)
    }),
    ("last-without-tick", |block, random| {
        some_last(block, random).is_some() && set(&mut block.ticks, 0)
    }),
    ("last-absent", |block, random| {
        block.ticks = block.ticks.max(1);
        let rows = block.tasks.len() as u64;
        let great = above(rows - 1, random);
        block.last = Some(random.pick(&[rows, 64, great, MAX_FIELD]));
        true
    }),
    ("lo-waiting-in-d2", |block, random| {
        let low: Vec<usize> =
            (0..block.tasks.len()).filter(|&row| block.tasks[row].level == LO).collect();
        if low.is_empty() || block.last.is_some_and(|last| low.contains(&(last as usize))) {
            return false;
        }
        for &row in &low {
            block.queues[row] = Queue { waiting: 0, run: 0 };
        }
        block.mode = D2;
        block.queues[random.pick(&low)].waiting = random.within(1, MAX_WAITING);
        accept_jobs(block);
        true
    }),
    ("ticks-spent", |block, random| set(&mut block.ticks, above(MAX_COUNT, random))),
    ("accepted-spent", |block, random| set(&mut block.accepted, above(MAX_COUNT, random))),
    ("accepted-below-waiting", |block, random| {
        if some_waiting(block, random).is_none() {
            return false;
        }
        let most = block.jobs() - 1;
        set(&mut block.accepted, if random.chance(60) { most } else { random.within(0, most) })
    }),
    ("accepted-0-with-waiting", |block, random| {
        some_waiting(block, random).is_some() && set(&mut block.accepted, 0)
    }),
];

/// All names that a block broken in one clause may have.
pub fn names() -> impl Iterator<Item = &'static str> {
    table_names().chain(state_names())
}

/// Those of a broken table.
pub fn table_names() -> impl Iterator<Item = &'static str> {
    TABLE_FAULTS.iter().map(|(name, _)| *name)
}

/// Those of a broken state.
pub fn state_names() -> impl Iterator<Item = &'static str> {
    STATE_FAULTS.iter().map(|(name, _)| *name)
}

/// A block broken in one clause.
pub fn one_fault(random: &mut Random) -> Block {
    let mut block = broken(random);
    if !block.broken_table && random.chance(90) {
        look_at_state(&mut block, random);
    }
    block
}

/// A block broken in two clauses.
pub fn two_faults(random: &mut Random) -> Block {
    loop {
        let mut block = broken(random);
        let name = block.name.clone();
        if break_once(&mut block, random) {
            block.name = format!("{name}-and-{}", block.name);
            return block;
        }
    }
}

/// A block with `fits`, and in the next turns one with `fits_state`, broken in
/// every clause by turns. So `fits` is also asked beside every broken state.
pub fn in_turn(turn: usize, random: &mut Random) -> Block {
    let clauses = TABLE_FAULTS.len() + STATE_FAULTS.len();
    let operation = [Operation::Fits, Operation::FitsState][turn / clauses % 2];
    loop {
        let mut block = any_sound(random);
        if break_clause(&mut block, turn % clauses, random) {
            block.operation = operation;
            return block;
        }
    }
}

fn broken(random: &mut Random) -> Block {
    loop {
        let mut block = any_sound(random);
        if break_once(&mut block, random) {
            return block;
        }
    }
}

fn any_sound(random: &mut Random) -> Block {
    let table = match random.below(4) {
        0 => table::small(random),
        1 => table::at_bound(random).0,
        _ => table::rich(random),
    };
    Block::sound(&table, "", random)
}

/// Breaks a block in one clause; false, with the block in any shape, if it has
/// no place for that.
fn break_once(block: &mut Block, random: &mut Random) -> bool {
    let of_table = random.chance(60);
    let clause = if of_table {
        random.below(TABLE_FAULTS.len())
    } else {
        TABLE_FAULTS.len() + random.below(STATE_FAULTS.len())
    };
    break_clause(block, clause, random)
}

/// The same for a clause by its number, those of the table first.
fn break_clause(block: &mut Block, clause: usize, random: &mut Random) -> bool {
    let of_state = clause.checked_sub(TABLE_FAULTS.len());
    let (name, fault) = match of_state {
        None => TABLE_FAULTS[clause],
        Some(clause) => STATE_FAULTS[clause],
    };
    block.name = name.to_string();
    block.broken_table |= of_state.is_none();
    block.broken_state |= of_state.is_some();
    fault(block, random)
}

/// An operation that is handed the state.
fn look_at_state(block: &mut Block, random: &mut Random) {
    block.operation = match block.operation {
        operation if operation.looks_at_state() => operation,
        _ if random.chance(30) => Operation::Release(random.below(block.tasks.len()) as u64),
        _ => Operation::Tick(random.within(0, 1)),
    };
}

pub fn set(field: &mut u64, value: u64) -> bool {
    *field = value;
    true
}

/// A number of 32 bits above a bound, often the next.
pub fn above(bound: u64, random: &mut Random) -> u64 {
    if bound >= MAX_FIELD {
        return MAX_FIELD; // a fault before has set the bound itself so high
    }
    match random.below(5) {
        0..=2 => bound + 1,
        3 => random.within(bound + 1, MAX_FIELD),
        _ => random.pick(&[MAX_FIELD, MAX_FIELD - 1, (1 << 31).max(bound + 1)]),
    }
}

/// The same for a field of 8 bits.
pub fn above_byte(bound: u64, random: &mut Random) -> u64 {
    match random.below(4) {
        0 | 1 => bound + 1,
        2 => random.within(bound + 1, MAX_BYTE),
        _ => MAX_BYTE,
    }
}

pub fn two_rows(rows: usize, random: &mut Random) -> Option<(usize, usize)> {
    if rows < 2 {
        return None;
    }
    let one = random.below(rows);
    let other = (one + 1 + random.below(rows - 1)) % rows;
    Some((one, other))
}

fn capacity(mode: usize, block: &mut Block, random: &mut Random) -> bool {
    let row = random.below(block.servers.len());
    let server = &mut block.servers[row];
    server.capacity[mode] = above(server.period, random);
    true
}

/// The limits of a mode and of those after it are too long, none falls.
fn limit(mode: usize, block: &mut Block, random: &mut Random) -> bool {
    let row = random.below(block.tasks.len());
    let long = above(MAX_LIMIT, random);
    block.tasks[row].limit[mode..].fill(long);
    true
}

/// The limit of a mode is one above that of the next.
fn falling(mode: usize, block: &mut Block, random: &mut Random) -> bool {
    let row = random.below(block.tasks.len());
    let limits = &mut block.tasks[row].limit;
    limits[mode] = limits[mode + 1] + 1;
    limits[mode] <= MAX_LIMIT
}

/// A server as a task sees it.
struct Place {
    row: usize,
    timed: bool,
    partition: u64,
}

/// Gives a task a home and a degraded server that are so, if there are such.
fn give_servers(
    block: &mut Block,
    random: &mut Random,
    are_so: fn(&Place, &Place) -> bool,
) -> bool {
    let places: Vec<Place> = (block.servers.iter().enumerate())
        .map(|(row, server)| Place { row, timed: server.timed, partition: server.partition })
        .collect();
    let mut pairs = Vec::new();
    for home in &places {
        for degraded in places.iter().filter(|degraded| are_so(home, degraded)) {
            pairs.push((home.row as u64, degraded.row as u64));
        }
    }
    if pairs.is_empty() {
        return false;
    }
    let row = random.below(block.tasks.len());
    (block.tasks[row].home, block.tasks[row].degraded) = random.pick(&pairs);
    true
}

/// A task with a waiting job: one is put there where none waits.
fn some_waiting(block: &mut Block, random: &mut Random) -> Option<usize> {
    let rows: Vec<usize> = (0..block.tasks.len())
        .filter(|&row| block.mode != D2 || block.tasks[row].level != LO)
        .collect();
    if rows.is_empty() {
        return None;
    }
    let row = random.pick(&rows);
    block.queues[row].waiting = block.queues[row].waiting.max(1);
    accept_jobs(block);
    Some(row)
}

/// A task whose job ran last.
fn some_last(block: &mut Block, random: &mut Random) -> Option<usize> {
    if let Some(row) = block.last {
        return (row < block.tasks.len() as u64).then_some(row as usize);
    }
    let row = some_waiting(block, random)?;
    block.queues[row].run = block.queues[row].run.max(1);
    block.ticks = block.ticks.max(1);
    block.last = Some(row as u64);
    Some(row)
}

/// No more jobs wait than releases were accepted.
fn accept_jobs(block: &mut Block) {
    block.accepted = block.accepted.max(block.jobs());
}
