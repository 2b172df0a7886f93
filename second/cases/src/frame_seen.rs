//! What was seen in the answers of frame nights.

use crate::frame::{LONG_TICKS, SELF_TEST, SLOTS};

/// The counts of frame nights that must not be 0.
pub const WANTED: [&str; 33] = [
    "frame: table taken",
    "frame: no events",
    "frame: event no 1",
    "frame: release ok",
    "frame: release no 6",
    "frame: release no 8",
    "frame: tick no 9",
    "frame: run of partition 0",
    "frame: run of partition 1",
    "frame: run of partition 2",
    "frame: empty slot of partition 0",
    "frame: empty slot of partition 1",
    "frame: empty slot of partition 2",
    "frame: slot 600 to 611 run, with a remainder of 0",
    "frame: slot 600 to 611 run, with a remainder of 1",
    "frame: slot 600 to 611 run, with a remainder of 2",
    "frame: slot 600 to 611 empty, with a remainder of 0",
    "frame: slot 600 to 611 empty, with a remainder of 1",
    "frame: slot 600 to 611 empty, with a remainder of 2",
    "frame: slot 599",
    "frame: slot 612",
    "frame: slot 1199",
    "frame: slot 0 of a later frame",
    "frame: left done",
    "frame: left cut",
    "frame: mark 1 at the limit",
    "frame: mark 0 at the limit",
    "frame: cut while others of its task wait",
    "frame: done while others of its task wait",
    "frame: a higher task of another partition waits while one runs",
    "frame: two tasks of the slot's partition wait",
    "frame: a job of another partition waits at an empty slot",
    "frame: a job runs on after slots of other partitions",
];
/// And this of long nights.
pub const LONG_WANTED: &str = "frame: night of more than 2400 ticks";

/// The names of the runs and the empty slots, by partition.
const RUNS: usize = 7;
const EMPTY: usize = 10;
/// Those of the self-test, by the partition the remainder alone would give.
const RUNS_IN_TEST: usize = 13;
const EMPTY_IN_TEST: usize = 16;

/// A task as the table's text has it, and what the answers say of its queue.
struct Task {
    partition: usize,
    priority: u64,
    limit: u64,
    waiting: u64,
    run: u64,
}

/// The tasks of a good table's text.
fn tasks_of(table: &[u8]) -> Vec<Task> {
    let text = String::from_utf8_lossy(table);
    let numbers = |line: &str| -> Option<Vec<u64>> {
        line.split('\t').skip(1).map(|field| field.parse().ok()).collect()
    };
    let mut lines = text.lines().filter_map(numbers);
    let tick = lines.next().and_then(|numbers| numbers.first().copied()).unwrap_or(1).max(1);
    lines
        .filter(|numbers| numbers.len() == 3)
        .map(|numbers| Task {
            partition: numbers[0] as usize,
            priority: numbers[1],
            limit: numbers[2].div_ceil(tick),
            waiting: 0,
            run: 0,
        })
        .collect()
}

/// The partition that the remainder alone gives a slot.
fn by_remainder(slot: u64) -> usize {
    match slot % 12 {
        1 | 7 => 1,
        remainder if remainder % 3 == 0 => 0,
        _ => 2,
    }
}

/// Counts the answers of a frame night whose table was taken.
pub fn see(table: &[u8], output: &[u8], mut count: impl FnMut(&str)) {
    let mut tasks = tasks_of(table);
    let text = String::from_utf8_lossy(output);
    count(WANTED[0]);
    if text.is_empty() {
        count("frame: no events");
    }
    let mut ticks = 0;
    for line in text.lines() {
        let fields: Vec<&str> = line.split('\t').collect();
        match fields.as_slice() {
            ["?", "no", "1"] => count("frame: event no 1"),
            ["R", task, "ok"] => {
                count("frame: release ok");
                if let Some(task) = task_of(&mut tasks, task) {
                    task.waiting += 1;
                }
            }
            ["R", _, "no", "6"] => count("frame: release no 6"),
            ["R", _, "no", "8"] => count("frame: release no 8"),
            ["T", "no", "9"] => count("frame: tick no 9"),
            ["T", tick, "N", what, _, task, how, left, "0"] => {
                ticks += 1;
                if let Some(left) = task_of(&mut tasks, left) {
                    see_left(left, how, &mut count);
                }
                let tick = tick.parse().unwrap_or(0);
                see_slot(tick, what, &mut count);
                see_tasks(&tasks, tick, task, &mut count);
                if let Some(task) = task_of(&mut tasks, task) {
                    task.run += 1;
                }
            }
            _ => count("frame: other answers"),
        }
    }
    if ticks > LONG_TICKS {
        count(LONG_WANTED);
    }
}

fn task_of<'a>(tasks: &'a mut [Task], row: &str) -> Option<&'a mut Task> {
    tasks.get_mut(row.parse::<usize>().ok()?)
}

/// Counts a job that left, and takes it from its queue.
fn see_left(task: &mut Task, how: &str, count: &mut impl FnMut(&str)) {
    let at_limit = task.run == task.limit;
    task.run = 0;
    task.waiting = task.waiting.saturating_sub(1);
    let names = match how {
        "done" => [
            "frame: left done",
            "frame: mark 1 at the limit",
            "frame: done while others of its task wait",
        ],
        "cut" => [
            "frame: left cut",
            "frame: mark 0 at the limit",
            "frame: cut while others of its task wait",
        ],
        _ => return,
    };
    let seen = [true, at_limit, task.waiting > 0];
    for (name, _) in names.iter().zip(seen).filter(|(_, seen)| *seen) {
        count(name);
    }
}

/// Counts a taken tick by its slot.
fn see_slot(tick: u64, what: &str, count: &mut impl FnMut(&str)) {
    let slot = tick % SLOTS;
    let by_remainder = by_remainder(slot);
    let in_test = SELF_TEST.contains(&slot);
    let partition = if in_test { 0 } else { by_remainder };
    let (all, test) = match what {
        "run" => (RUNS, RUNS_IN_TEST),
        "empty" => (EMPTY, EMPTY_IN_TEST),
        _ => return count("frame: other answers"),
    };
    count(WANTED[all + partition]);
    if in_test {
        count(WANTED[test + by_remainder]);
    }
    match slot {
        599 => count("frame: slot 599"),
        612 => count("frame: slot 612"),
        1199 => count("frame: slot 1199"),
        0 if tick > 0 => count("frame: slot 0 of a later frame"),
        _ => {}
    }
}

/// Counts a taken tick by who waits at it; `task` is the one that runs, if any.
fn see_tasks(tasks: &[Task], tick: u64, task: &str, count: &mut impl FnMut(&str)) {
    let slot = tick % SLOTS;
    let partition = if SELF_TEST.contains(&slot) { 0 } else { by_remainder(slot) };
    let waiting = || tasks.iter().filter(|task| task.waiting > 0);
    let Some(running) = task.parse().ok().and_then(|row: usize| tasks.get(row)) else {
        if waiting().next().is_some() {
            count("frame: a job of another partition waits at an empty slot");
        }
        return;
    };
    let is_higher = |task: &Task| task.partition != partition && task.priority > running.priority;
    if waiting().any(is_higher) {
        count("frame: a higher task of another partition waits while one runs");
    }
    if waiting().filter(|task| task.partition == partition).count() >= 2 {
        count("frame: two tasks of the slot's partition wait");
    }
    if running.run > 0 && by_remainder((slot + SLOTS - 1) % SLOTS) != partition {
        count("frame: a job runs on after slots of other partitions");
    }
}

#[cfg(test)]
mod tests {
    use super::{see, EMPTY, EMPTY_IN_TEST, RUNS, RUNS_IN_TEST, WANTED};

    #[test]
    fn the_names_stand_where_they_are_looked_for() {
        for partition in 0..3 {
            assert_eq!(WANTED[RUNS + partition], format!("frame: run of partition {partition}"));
            let empty = format!("frame: empty slot of partition {partition}");
            assert_eq!(WANTED[EMPTY + partition], empty);
            let rest = format!("with a remainder of {partition}");
            let run = format!("frame: slot 600 to 611 run, {rest}");
            assert_eq!(WANTED[RUNS_IN_TEST + partition], run);
            let empty = format!("frame: slot 600 to 611 empty, {rest}");
            assert_eq!(WANTED[EMPTY_IN_TEST + partition], empty);
        }
    }

    #[test]
    fn jobs_and_slots_are_seen() {
        let table = b"tick\t10\ntask\t0\t5\t11\ntask\t1\t7\t10\n";
        let answers = b"R\t0\tok\nR\t0\tok\nR\t1\tok\nR\t2\tno\t6\n\
            T\t0\tN\trun\t0\t0\t-\t-\t0\nT\t1\tN\trun\t1\t1\t-\t-\t0\n\
            T\t2\tN\tempty\t2\t-\tcut\t1\t0\nT\tno\t9\nT\t3\tN\trun\t0\t0\t-\t-\t0\n\
            T\t4\tN\tempty\t2\t-\tcut\t0\t0\n";
        let mut counted: Vec<String> = Vec::new();
        see(table, answers, |what| counted.push(what.to_string()));
        counted.retain(|what| what != "frame: release ok");
        let seen = [
            "table taken",
            "release no 6",
            "run of partition 0",
            "a higher task of another partition waits while one runs",
            "run of partition 1",
            "left cut",
            "mark 0 at the limit",
            "empty slot of partition 2",
            "a job of another partition waits at an empty slot",
            "tick no 9",
            "run of partition 0",
            "a job runs on after slots of other partitions",
            "left cut",
            "mark 0 at the limit",
            "cut while others of its task wait",
            "empty slot of partition 2",
            "a job of another partition waits at an empty slot",
        ];
        let seen: Vec<String> = seen.iter().map(|what| format!("frame: {what}")).collect();
        assert_eq!(counted, seen);
    }
}
