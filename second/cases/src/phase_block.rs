//! Blocks around the phase of a server, sound ones and ones broken in a clause that
//! is about phases; and phases for other blocks.

use crate::block::{any, largest, Block, Budget, Operation, LO, MAX_COUNT, MAX_FIELD};
use crate::random::Random;
use crate::table::{self, Server, Table, MAX_PERIOD, MAX_SERVERS};
use crate::unsound::above;

/// So many of a hundred other blocks have phases.
const WITH_PHASES: u64 = 40;

/// Sets a block about the phase of a row.
type Set = fn(&mut Block, usize, &mut Random);

/// What a block is when it is set: sound, or broken in its table or its state.
#[derive(Clone, Copy, PartialEq, Eq)]
enum Is {
    Sound,
    BrokenTable,
    BrokenState,
}

const NONE: Budget = Budget { used: 0, elapsed: 0 };

/// The row has a period of 3 ticks at least and a capacity of 1 at least in every
/// mode.
const SORTS: [(&str, Is, Set); 22] = [
    ("phase-tick-before", Is::Sound, |block, row, random| {
        let phase = some_phase(block, row, random);
        at(block, row, phase, phase - 1, NONE);
    }),
    ("phase-tick-before-the-last", Is::Sound, |block, row, _| {
        let phase = block.servers[row].period - 1;
        at(block, row, phase, phase - 1, NONE);
    }),
    ("phase-first-tick", Is::Sound, |block, row, random| {
        let phase = some_phase(block, row, random);
        at(block, row, phase, 0, NONE);
    }),
    ("phase-no-server-started", Is::Sound, |block, _, random| {
        let ticks = random.within(0, 6);
        for row in 0..block.servers.len() {
            let phase = ticks + random.within(1, 4);
            block.servers[row].period = block.servers[row].period.max(phase + 1);
            at(block, row, phase, ticks, NONE);
        }
    }),
    ("phase-tick-at", Is::Sound, |block, row, random| {
        let phase = some_phase(block, row, random);
        at(block, row, phase, phase, NONE);
    }),
    ("phase-tick-at-the-last", Is::Sound, |block, row, _| {
        let phase = block.servers[row].period - 1;
        at(block, row, phase, phase, NONE);
    }),
    ("phase-tick-at-elapsed", Is::Sound, |block, row, random| {
        let phase = some_phase(block, row, random);
        let elapsed = random.within(1, block.servers[row].period - 1);
        at(block, row, phase, phase, Budget { used: 0, elapsed });
    }),
    ("phase-tick-at-used", Is::Sound, |block, row, random| {
        let phase = some_phase(block, row, random);
        let budget = some_used(&block.servers[row], random);
        at(block, row, phase, phase, budget);
    }),
    ("phase-tick-at-elapsed-period", Is::Sound, |block, row, random| {
        let phase = some_phase(block, row, random);
        let (used, elapsed) = (largest(&block.servers[row]), block.servers[row].period);
        at(block, row, phase, phase, Budget { used, elapsed });
    }),
    ("phase-tick-after", Is::Sound, |block, row, random| {
        let phase = some_phase(block, row, random);
        let used = random.within(0, 1);
        at(block, row, phase, phase + 1, Budget { used, elapsed: 1 });
    }),
    ("phase-a-period-after", Is::Sound, |block, row, random| {
        let phase = some_phase(block, row, random);
        let (used, elapsed) = (largest(&block.servers[row]), block.servers[row].period);
        at(block, row, phase, phase + elapsed, Budget { used, elapsed });
    }),
    ("phase-at-a-multiple-of-the-period", Is::Sound, |block, row, random| {
        let phase = some_phase(block, row, random);
        let period = block.servers[row].period;
        let elapsed = period - phase;
        let used = largest(&block.servers[row]).min(elapsed);
        let ticks = period * random.within(1, 3);
        at(block, row, phase, ticks, Budget { used, elapsed });
    }),
    ("phase-999999", Is::Sound, |block, row, random| {
        block.servers[row].period = MAX_PERIOD;
        let phase = MAX_PERIOD - 1;
        let ticks = random.pick(&[0, phase - 1, phase, phase + 1]);
        at(block, row, phase, ticks, NONE);
    }),
    ("phase-ticks-at-the-end", Is::Sound, |block, row, random| {
        let phase = some_phase(block, row, random);
        let budget = some_used(&block.servers[row], random);
        at(block, row, phase, random.pick(&[MAX_COUNT - 1, MAX_COUNT - 2]), budget);
    }),
    ("phase-0-given", Is::Sound, |block, row, random| {
        let budget = some_used(&block.servers[row], random);
        at(block, row, 0, random.pick(&[0, 1]), budget);
    }),
    ("phase-of-a-row-not-in-use", Is::Sound, |block, row, random| {
        at(block, row, 1, 0, NONE);
        if block.servers.len() == MAX_SERVERS {
            return;
        }
        let mut server = block.servers[row].clone();
        server.phase = Some(random.pick(&[server.period, 1 << 31, MAX_FIELD]));
        block.servers.push(server);
        block.budgets.push(Budget { used: 1, elapsed: 1 });
    }),
    ("phase-equals-period", Is::BrokenTable, |block, row, random| {
        let period = block.servers[row].period;
        let ticks = random.pick(&[0, period, period + 1]);
        at(block, row, period, ticks, NONE);
    }),
    ("phase-above-period", Is::BrokenTable, |block, row, random| {
        let phase = above(block.servers[row].period, random);
        at(block, row, phase, 0, NONE);
    }),
    ("phase-1-of-period-1", Is::BrokenTable, |block, row, random| {
        block.servers[row].period = 1;
        block.servers[row].capacity = [1; 3];
        at(block, row, 1, random.within(0, 2), NONE);
    }),
    ("elapsed-before-phase", Is::BrokenState, |block, row, random| {
        let phase = some_phase(block, row, random);
        let elapsed = random.pick(&[1, block.servers[row].period]);
        at(block, row, phase, phase - 1, Budget { used: 0, elapsed });
    }),
    ("used-before-phase", Is::BrokenState, |block, row, random| {
        let phase = some_phase(block, row, random);
        let budget = some_used(&block.servers[row], random);
        at(block, row, phase, phase - 1, budget);
    }),
    ("elapsed-long-before-phase", Is::BrokenState, |block, row, random| {
        let phase = block.servers[row].period - 1;
        let elapsed = random.within(1, block.servers[row].period);
        at(block, row, phase, 0, Budget { used: 0, elapsed });
    }),
];

/// What is asked of the state, and of the table alone.
const OF_STATE: [&str; 3] = ["tick", "release", "fits_state"];
const OF_TABLE: [&str; 4] = ["fresh", "fits", "verdict", "write"];
/// What is asked of every sort, by turns; where it is nothing, something of the
/// table alone.
const ASKED: [&str; 9] =
    ["tick", "release", "fits_state", "", "tick", "tick", "", "tick", "release"];

/// The blocks by turns: every sort with all that is asked of a state.
pub fn in_turn(turn: usize, random: &mut Random) -> Block {
    let (name, is, set) = SORTS[turn % SORTS.len()];
    let round = turn / SORTS.len();
    let asked = match ASKED[round % ASKED.len()] {
        "" => OF_TABLE[(turn + round / 5) % OF_TABLE.len()],
        asked => asked,
    };
    let mut table = match random.below(4) {
        0 => table::small(random),
        1 => table::at_bound(random).0,
        _ => table::rich(random),
    };
    let row = some_row(&table, random);
    let server = &mut table.servers[row];
    server.period = server.period.max(random.within(3, 12));
    server.capacity = server.capacity.map(|capacity| capacity.max(1));
    if random.chance(70) {
        make_highest(&mut table, row);
    }

    let mut block = Block::sound(&table, name, random);
    block.broken_table = is == Is::BrokenTable;
    block.broken_state = is == Is::BrokenState;
    if !block.servers[row].timed {
        calm_in_n(&mut block);
    }
    if random.chance(80) {
        put_job(&mut block, row);
    }
    set(&mut block, row, random);
    block.operation = match asked {
        "tick" => Operation::Tick(u64::from(block.last.is_some() && random.chance(30))),
        "release" => Operation::Release(random.below(block.tasks.len()) as u64),
        "fits_state" => Operation::FitsState,
        "fresh" => Operation::Fresh,
        "fits" => Operation::Fits,
        "verdict" => {
            Operation::Verdict(random.within(0, block.server_count - 1), random.within(0, 2))
        }
        _ => Operation::Write(block.text_length() + random.within(0, 2)),
    };
    block
}

/// The first row, the last or any, or an event server that is the home of a task.
fn some_row(table: &Table, random: &mut Random) -> usize {
    let rows = table.servers.len();
    let homes: Vec<usize> = (0..rows)
        .filter(|&row| !table.servers[row].timed)
        .filter(|&row| table.tasks.iter().any(|task| task.home == row))
        .collect();
    if !homes.is_empty() && random.chance(50) {
        return random.pick(&homes);
    }
    let any_row = random.below(rows);
    random.pick(&[0, rows - 1, any_row])
}

/// The phase of a row, the ticks taken and the budget. Without a tick no job has
/// run last. Other rows may hold a budget only if they have started.
fn at(block: &mut Block, row: usize, phase: u64, ticks: u64, budget: Budget) {
    block.servers[row].phase = Some(phase);
    block.budgets[row] = budget;
    block.ticks = ticks;
    if ticks == 0 {
        if let Some(last) = block.last.take() {
            block.queues[last as usize].run = 0;
        }
    }
}

/// A phase from 1 to the period less 1.
fn some_phase(block: &Block, row: usize, random: &mut Random) -> u64 {
    let most = block.servers[row].period - 1;
    match random.below(4) {
        0 => 1,
        1 => most.min(2),
        _ => random.within(1, most),
    }
}

/// A budget with at least one tick used.
fn some_used(server: &Server, random: &mut Random) -> Budget {
    let used = random.within(1, largest(server));
    Budget { used, elapsed: random.within(used, server.period) }
}

fn make_highest(table: &mut Table, row: usize) {
    let rows = 0..table.servers.len();
    let Some(highest) = rows.max_by_key(|&row| table.servers[row].priority) else { return };
    let own = table.servers[row].priority;
    table.servers[row].priority = table.servers[highest].priority;
    table.servers[highest].priority = own;
}

/// Only in N an event server has work. No job has run, so that the limits of that
/// mode are kept.
fn calm_in_n(block: &mut Block) {
    block.mode = 0;
    block.last = None;
    for queue in &mut block.queues {
        queue.run = 0;
    }
}

/// A job waits for the row in the mode of the block, if a task belongs to it.
fn put_job(block: &mut Block, row: usize) {
    let mode = block.mode;
    for (task, queue) in block.tasks.iter().zip(&mut block.queues) {
        let server = if mode == 0 { task.home } else { task.degraded };
        if server == row as u64 && (mode < 2 || task.level != LO) {
            queue.waiting = queue.waiting.max(1);
        }
    }
    block.accepted = block.accepted.max(block.jobs());
}

/// Gives servers of a block phases, so that it is as sound as it was; rows not in
/// use may have any. A room that is about the length of the text stays so.
pub fn give(block: &mut Block, random: &mut Random) {
    if !random.chance(WITH_PHASES) {
        return;
    }
    let sound = !block.broken_table;
    let length_before = if sound { block.text_length() } else { 0 };
    for row in 0..block.servers.len() {
        if block.servers[row].phase.is_some() || random.chance(30) {
            continue;
        }
        if row as u64 >= block.server_count {
            block.servers[row].phase = Some(any(random));
            continue;
        }
        let no_budget =
            block.budgets.get(row).is_none_or(|budget| budget.used == 0 && budget.elapsed == 0);
        let most = block.servers[row].period.saturating_sub(1).min(MAX_FIELD);
        let most = if no_budget { most } else { most.min(block.ticks) };
        let phase = match random.below(8) {
            0 => 0,
            1 => 1,
            2 => most,
            3 => block.ticks,
            4 | 5 => block.ticks + 1,
            _ => random.within(0, most),
        };
        block.servers[row].phase = Some(phase.min(most));
    }
    if let (true, Operation::Write(room)) = (sound, block.operation) {
        if room.abs_diff(length_before) <= 1 {
            block.operation = Operation::Write(room + block.text_length() - length_before);
        }
    }
}

/// What must be seen: every sort with all that is asked of a state, sound and
/// broken ones with all that is asked of a table, and these.
pub fn wanted() -> Vec<String> {
    let mut wanted: Vec<String> = [
        "phase: tick, event server charged at it",
        "phase: tick, timed server charged at it",
        "phase: tick, budget stays 0 before it",
        "phase: tick, idle as servers have not started",
        "phase: tick, higher server not started, a lower one charged",
        "phase: tick, refilled at no multiple of the period",
        "phase: tick, not refilled at a multiple of the period",
        "phase: written",
        "phase: 0 given, not written",
    ]
    .map(String::from)
    .to_vec();
    for (name, is, _) in SORTS {
        wanted.extend(OF_STATE.map(|asked| seen(name, asked, is != Is::Sound)));
    }
    for (is, what) in [
        (Is::Sound, "a sound block"),
        (Is::BrokenTable, "a broken table"),
        (Is::BrokenState, "a broken state"),
    ] {
        wanted.extend(OF_TABLE.map(|asked| seen(what, asked, is == Is::BrokenTable)));
    }
    wanted
}

fn seen(name: &str, asked: &str, refused: bool) -> String {
    let answer = if refused { "13" } else { "not 13" };
    format!("phase: {name}, {asked}: {answer}")
}

/// An answer: its first line's `no` or `tick` if it is one, and the budgets after
/// it.
pub struct Answer<'a> {
    pub no: Option<&'a [u64]>,
    pub tick: Option<&'a [u64]>,
    pub budgets: &'a [Budget],
}

/// The names of what was seen in the answer to a block.
pub fn names(block: &Block, answer: &Answer) -> Vec<String> {
    let mut names = Vec::new();
    if SORTS.iter().any(|(name, ..)| *name == block.name) {
        let what = match block.operation {
            operation if operation.looks_at_state() => &block.name,
            _ if block.broken_table => "a broken table",
            _ if block.broken_state => "a broken state",
            _ => "a sound block",
        };
        names.push(seen(what, block.operation.word(), answer.no == Some(&[13])));
    }
    let rows = block.servers.len().min(block.server_count as usize);
    let servers = &block.servers[..rows];
    if matches!(block.operation, Operation::Write(_)) && answer.no.is_none() {
        if servers.iter().any(|server| server.phase.is_some_and(|phase| phase > 0)) {
            names.push("phase: written".to_string());
        }
        if servers.iter().any(|server| server.phase == Some(0)) {
            names.push("phase: 0 given, not written".to_string());
        }
    }
    let Some(&[tick, mode, what, charged, ..]) = answer.tick else { return names };
    for (row, server) in servers.iter().enumerate() {
        let Some(phase) = server.phase.filter(|&phase| phase > 0) else { continue };
        let before = block.budgets.get(row).copied().unwrap_or(NONE);
        let Some(after) = answer.budgets.get(row) else { continue };
        let is_charged = what > 0 && charged == row as u64;
        let kind = if server.timed { "timed" } else { "event" };
        let mut see = |what: &str| names.push(format!("phase: tick, {what}"));
        if tick < phase {
            see("budget stays 0 before it");
            // An event server may be without work.
            let wants = server.timed && server.capacity[(mode as usize).min(2)] > 0;
            if wants && what == 0 {
                see("idle as servers have not started");
            }
            if wants && what > 0 && servers[charged as usize].priority < server.priority {
                see("higher server not started, a lower one charged");
            }
            continue;
        }
        if tick == phase && is_charged {
            see(&format!("{kind} server charged at it"));
        }
        if before.elapsed == server.period && tick % server.period > 0 && after.elapsed == 1 {
            see("refilled at no multiple of the period");
        }
        if before.elapsed < server.period && tick % server.period == 0 && after.elapsed > 1 {
            see("not refilled at a multiple of the period");
        }
    }
    names
}

/// What a taken tick does with budgets, as far as phases say it, in words if it is
/// otherwise: none before the phase, and one more elapsed tick from it on.
pub fn wrong_budget(block: &Block, answer: &Answer) -> Option<String> {
    let &[tick, ..] = answer.tick? else { return None };
    for (row, after) in answer.budgets.iter().enumerate() {
        let server = block.servers.get(row)?;
        let before = block.budgets.get(row).copied().unwrap_or(NONE);
        let elapsed = match before.elapsed {
            _ if tick < server.phase.unwrap_or(0) => 0,
            elapsed if elapsed == server.period => 1,
            elapsed => elapsed + 1,
        };
        if after.elapsed != elapsed || after.used > elapsed {
            let Budget { used, elapsed } = after;
            return Some(format!(
                "server {row}: used {used} and elapsed {elapsed} after tick {tick}"
            ));
        }
    }
    None
}

#[cfg(test)]
mod tests {
    use super::{in_turn, Is, OF_STATE, OF_TABLE, SORTS};
    use crate::random::Random;

    #[test]
    fn blocks_are_broken_as_their_sort_says() {
        for turn in 0..2000 {
            let block = in_turn(turn, &mut Random::new(turn as u64));
            let (name, is, _) = SORTS[turn % SORTS.len()];
            assert_eq!(block.name, name);
            let rows = block.server_count as usize;
            let table_is_good = block.servers[..rows]
                .iter()
                .all(|server| server.phase.unwrap_or(0) < server.period);
            assert_eq!(table_is_good, is != Is::BrokenTable, "{name}");
            let state_is_good = block.servers[..rows].iter().zip(&block.budgets).all(|row| {
                let (server, budget) = row;
                server.phase.unwrap_or(0) <= block.ticks || budget.elapsed + budget.used == 0
            });
            assert!(is == Is::BrokenTable || state_is_good == (is == Is::Sound), "{name}");
            let asked = block.operation.word();
            assert!(OF_STATE.contains(&asked) || OF_TABLE.contains(&asked));
        }
    }
}
