//! What is to be seen of servers that start late: by the table's text and the
//! answers of its night.

use crate::judged::MODES;

/// What must be seen, as [`see`] and the others below have it. What is said of a
/// server is said of one whose phase is above 0.
pub const WANTED: [&str; 38] = [
    "phase: of an event server",
    "phase: of a timed server",
    "phase: of row 0",
    "phase: of the last row",
    "phase: of the only row",
    "phase: of every row",
    "phase: of some rows, absent in others",
    "phase: 1",
    "phase: period less 1",
    "phase: not reached in the night",
    "phase: 0 written, taken",
    "phase: 0 written, left out by the writer",
    "phase: written back the same",
    "phase: table that fits",
    "phase: table that misses",
    "phase: event server with a waiting job before it",
    "phase: timed server with a waiting job before it",
    "phase: higher event server not started, a lower one charged",
    "phase: higher timed server not started, a lower one charged",
    "phase: idle as an event server has not started",
    "phase: idle as a timed server has not started",
    "phase: waiting in D1 before it",
    "phase: waiting in D2 before it",
    "phase: waiting and not charged both before it and at it",
    "phase: reached in N",
    "phase: reached in D1",
    "phase: reached in D2",
    "phase: event server charged at it",
    "phase: timed server charged at it",
    "phase: timed server charged at it, empty",
    "phase: charged at it in D1",
    "phase: charged at it in D2",
    "phase: event server first charged later",
    "phase: timed server first charged later",
    "phase: event server charged as it is refilled then",
    "phase: timed server charged as it is refilled then",
    "phase: event server not refilled at a multiple of its period",
    "phase: timed server not refilled at a multiple of its period",
];

/// The damages that must be made, as [`made`] has them.
const MADE: [&str; 22] = [
    "phase: made: 1 alone",
    "phase: made: 2 alone",
    "phase: made: 3 alone",
    "phase: made: 0 left of 1",
    "phase: made: 0 left of 2",
    "phase: made: 0 left of 3",
    "phase: made: 1 left of 1",
    "phase: made: 1 left of 2",
    "phase: made: 1 left of 3",
    "phase: made: 2 left of 1",
    "phase: made: 2 left of 2",
    "phase: made: 2 left of 3",
    "phase: made: 3 left of 1",
    "phase: made: 3 left of 2",
    "phase: made: 3 left of 3",
    "phase: made: fields after it",
    "phase: made: at a task line",
    "phase: made: 33rd server with a fault at it",
    "phase: made: misplaced line with a fault at it",
    "phase: made: unclosed line with a fault at it",
    "phase: made: on two lines",
    "phase: made: 5 and a fault at it",
];

/// The faults of field 8 that must be made, each alone: number and kind.
pub const KINDS: [(u8, &str); 13] = [
    (1, "number-empty"),
    (1, "leading-zero"),
    (1, "12-digits"),
    (1, "plus"),
    (1, "minus"),
    (1, "letter"),
    (2, "phase-above-by-1"),
    (2, "phase-period"),
    (2, "phase-period-less-1"),
    (2, "phase-above-period"),
    (2, "phase-round-32-bits"),
    (2, "phase-11-digits"),
    (3, "phase-part"),
];

/// All damages that must be made.
pub fn all_made() -> Vec<String> {
    let kinds = KINDS.iter().map(|(number, kind)| format!("phase: made: {number}-server-8-{kind}"));
    MADE.into_iter().map(String::from).chain(kinds).collect()
}

/// What a damage is after, by its name.
pub fn made(name: &str) -> Vec<String> {
    const FAULT: &str = "-server-8-";
    let number = |fault: &str| fault.split('-').next().unwrap_or("").to_string();
    if name.starts_with("1-server-0-") && name.contains("-phase") {
        return vec!["phase: made: fields after it".to_string()];
    }
    if name == "1-task-0-phase" {
        return vec!["phase: made: at a task line".to_string()];
    }
    if !name.contains(FAULT) {
        return Vec::new();
    }
    let what = if let Some(pair) = name.strip_prefix("pair-one-line-") {
        let (left, right) = pair.split_once("-and-").unwrap_or((pair, ""));
        let of_line = left.split('-').nth(2) == Some("0");
        let left = if of_line { "0".to_string() } else { number(left) };
        format!("{left} left of {}", number(right))
    } else if name.starts_with("pair-two-lines-5-") {
        "5 and a fault at it".to_string()
    } else if name.starts_with("pair-two-lines-") {
        "on two lines".to_string()
    } else if name.starts_with("2-33rd-server-") {
        "33rd server with a fault at it".to_string()
    } else if name.starts_with("1-misplaced-") {
        "misplaced line with a fault at it".to_string()
    } else if name.starts_with("1-unclosed-") {
        "unclosed line with a fault at it".to_string()
    } else {
        return vec![
            format!("phase: made: {} alone", number(name)),
            format!("phase: made: {name}"),
        ];
    };
    vec![format!("phase: made: {what}")]
}

/// A server row of a good table's text, its times in ticks, and what is followed
/// of it in the night.
struct Server {
    timed: bool,
    priority: u64,
    period: u64,
    capacity: [u64; 3],
    phase: Option<u64>,
    used: u64,
    charged: bool,
    /// Whether it had a waiting job in the last tick and was not charged.
    waited: bool,
}

impl Server {
    fn late(&self) -> bool {
        self.phase.is_some_and(|phase| phase > 0)
    }

    fn kind(&self) -> &'static str {
        if self.timed {
            "timed"
        } else {
            "event"
        }
    }
}

/// A task row and the jobs that wait.
struct Task {
    home: usize,
    degraded: usize,
    lo: bool,
    waiting: u64,
}

struct Night {
    servers: Vec<Server>,
    tasks: Vec<Task>,
    ticks: u64,
}

/// Counts what a table that was taken, and its night, show of phases.
pub fn see(table: &[u8], answers: &[u8], mut count: impl FnMut(&str)) {
    let Some(mut night) = Night::of(table) else { return };
    if night.servers.iter().all(|server| server.phase.is_none()) {
        return;
    }
    night.see_rows(&mut count);
    for line in String::from_utf8_lossy(answers).lines() {
        let fields: Vec<&str> = line.split('\t').collect();
        match fields.as_slice() {
            ["R", task, "ok"] => {
                if let Some(task) =
                    task.parse().ok().and_then(|row: usize| night.tasks.get_mut(row))
                {
                    task.waiting += 1;
                }
            }
            ["T", tick, mode, what, server, _, _, left, discarded] => {
                night.work_in(left, *discarded != "0");
                let mode = MODES.iter().position(|word| word == mode);
                let (Ok(tick), Some(mode)) = (tick.parse(), mode) else { return };
                night.see_tick(tick, mode, *what == "empty", server.parse().ok(), &mut count);
            }
            _ => {}
        }
    }
    for server in night.servers.iter().filter(|server| server.late()) {
        if server.phase >= Some(night.ticks) {
            count("phase: not reached in the night");
        }
    }
}

/// Counts how a table with phases is written back.
pub fn see_rewritten(table: &[u8], written: &[u8], mut count: impl FnMut(&str)) {
    if written.starts_with(b"table\t") {
        return;
    }
    let Some(night) = Night::of(table) else { return };
    let has_zero = night.servers.iter().any(|server| server.phase == Some(0));
    if has_zero && written != table {
        count("phase: 0 written, left out by the writer");
    }
    if night.servers.iter().any(Server::late) && written == table {
        count("phase: written back the same");
    }
}

/// Counts whether a table with phases fits.
pub fn see_fits(table: &[u8], fits: bool, mut count: impl FnMut(&str)) {
    let Some(night) = Night::of(table) else { return };
    if night.servers.iter().any(Server::late) {
        count(if fits { "phase: table that fits" } else { "phase: table that misses" });
    }
}

impl Night {
    /// The rows of a good table's text.
    fn of(table: &[u8]) -> Option<Night> {
        let table = std::str::from_utf8(table).ok()?;
        let tick: u64 = table.lines().next()?.strip_prefix("tick\t")?.parse().ok()?;
        let mut night = Night { servers: Vec::new(), tasks: Vec::new(), ticks: 0 };
        for line in table.lines().skip(1) {
            let fields: Vec<&str> = line.split('\t').collect();
            let number = |field: usize| fields.get(field)?.parse::<u64>().ok();
            let ticks = |field: usize| Some(number(field)? / tick);
            match fields[0] {
                "server" => night.servers.push(Server {
                    timed: fields.get(2) == Some(&"timed"),
                    priority: number(3)?,
                    period: ticks(4).filter(|&period| period > 0)?,
                    capacity: [ticks(5)?, ticks(6)?, ticks(7)?],
                    phase: ticks(8),
                    used: 0,
                    charged: false,
                    waited: false,
                }),
                _ => night.tasks.push(Task {
                    home: number(1)? as usize,
                    degraded: number(2)? as usize,
                    lo: fields.get(4) == Some(&"LO"),
                    waiting: 0,
                }),
            }
        }
        Some(night)
    }

    fn see_rows(&self, count: &mut impl FnMut(&str)) {
        let rows = self.servers.len();
        if self.servers.iter().any(|server| server.phase == Some(0)) {
            count("phase: 0 written, taken");
        }
        let late = self.servers.iter().filter(|server| server.late()).count();
        let absent = self.servers.iter().any(|server| server.phase.is_none());
        if late == rows {
            count("phase: of every row");
        } else if late > 0 && absent {
            count("phase: of some rows, absent in others");
        }
        for (row, server) in self.servers.iter().enumerate().filter(|(_, server)| server.late()) {
            count(if server.timed { WANTED[1] } else { WANTED[0] });
            if rows == 1 {
                count("phase: of the only row");
            } else if row == 0 {
                count("phase: of row 0");
            } else if row + 1 == rows {
                count("phase: of the last row");
            }
            if server.phase == Some(1) {
                count("phase: 1");
            }
            if server.phase == Some(server.period - 1) && server.period > 2 {
                count("phase: period less 1");
            }
        }
    }

    /// The job that left and those that were discarded wait no more.
    fn work_in(&mut self, left: &str, discards: bool) {
        if let Some(task) = left.parse().ok().and_then(|row: usize| self.tasks.get_mut(row)) {
            task.waiting = task.waiting.saturating_sub(1);
        }
        // Only on entering D2 jobs are discarded, and then all of the LO tasks.
        if discards {
            for task in self.tasks.iter_mut().filter(|task| task.lo) {
                task.waiting = 0;
            }
        }
    }

    fn see_tick(
        &mut self,
        tick: u64,
        mode: usize,
        empty: bool,
        charged: Option<usize>,
        count: &mut impl FnMut(&str),
    ) {
        self.ticks = tick + 1;
        let mut waits = vec![false; self.servers.len()];
        for task in self.tasks.iter().filter(|task| task.waiting > 0) {
            let row = if mode == 0 { task.home } else { task.degraded };
            if let Some(waits) = waits.get_mut(row) {
                *waits = true;
            }
        }
        let charged_priority =
            charged.and_then(|row| self.servers.get(row)).map(|server| server.priority);
        for (row, server) in self.servers.iter_mut().enumerate() {
            let phase = server.phase.unwrap_or(0);
            let kind = server.kind();
            let is_charged = charged == Some(row);
            let wants = server.capacity[mode] > 0 && (server.timed || waits[row]);
            if tick < phase {
                if waits[row] {
                    count(&format!("phase: {kind} server with a waiting job before it"));
                    if mode > 0 {
                        count(&format!("phase: waiting in {} before it", MODES[mode]));
                    }
                }
                match charged_priority {
                    None if wants => {
                        let a = if server.timed { "a" } else { "an" };
                        count(&format!("phase: idle as {a} {kind} server has not started"));
                    }
                    Some(priority) if wants && priority < server.priority => {
                        count(&format!(
                            "phase: higher {kind} server not started, a lower one charged"
                        ));
                    }
                    _ => {}
                }
                if is_charged {
                    count("phase: charged before it");
                }
            } else if server.late() {
                if tick == phase {
                    count(&format!("phase: reached in {}", MODES[mode]));
                    if is_charged {
                        count(&format!("phase: {kind} server charged at it"));
                        if empty {
                            count(&format!("phase: {kind} server charged at it, empty"));
                        }
                        if mode > 0 {
                            count(&format!("phase: charged at it in {}", MODES[mode]));
                        }
                    } else if waits[row] && server.waited {
                        count("phase: waiting and not charged both before it and at it");
                    }
                } else if is_charged && !server.charged {
                    count(&format!("phase: {kind} server first charged later"));
                }
                let spent = server.used >= server.capacity[mode];
                if tick > phase && (tick - phase) % server.period == 0 {
                    if is_charged && spent {
                        count(&format!("phase: {kind} server charged as it is refilled then"));
                    }
                    server.used = 0;
                } else if tick % server.period == 0 && wants && spent {
                    count(&format!(
                        "phase: {kind} server not refilled at a multiple of its period"
                    ));
                }
            }
            server.used += u64::from(is_charged);
            server.charged |= is_charged;
            server.waited = waits[row] && !is_charged;
        }
    }
}

#[cfg(test)]
mod tests {
    use super::{all_made, made, see, see_rewritten, MADE, WANTED};

    const TABLE: &[u8] = b"tick\t10\nserver\t0\tevent\t3\t40\t10\t0\t0\t20\n\
        server\t0\ttimed\t1\t50\t10\t10\t10\t0\n\
        task\t0\t1\t1\tMI\t30\t30\t30\n";

    #[test]
    fn a_server_that_starts_at_tick_2() {
        // One release, then ticks with mark 0.
        let answers = b"R\t0\tok\nT\t0\tN\tempty\t1\t-\t-\t-\t0\nT\t1\tN\tidle\t-\t-\t-\t-\t0\n\
            T\t2\tN\trun\t0\t0\t-\t-\t0\nT\t3\tN\tidle\t-\t-\t-\t-\t0\n\
            T\t4\tN\tidle\t-\t-\t-\t-\t0\nT\t5\tN\tempty\t1\t-\t-\t-\t0\n\
            T\t6\tN\trun\t0\t0\t-\t-\t0\n";
        let mut counted = Vec::new();
        see(TABLE, answers, |what| counted.push(what.to_string()));
        let expected = [
            "phase: 0 written, taken",
            "phase: of an event server",
            "phase: of row 0",
            "phase: event server with a waiting job before it",
            "phase: higher event server not started, a lower one charged",
            "phase: event server with a waiting job before it",
            "phase: idle as an event server has not started",
            "phase: reached in N",
            "phase: event server charged at it",
            "phase: event server not refilled at a multiple of its period",
            "phase: event server charged as it is refilled then",
        ];
        assert_eq!(counted, expected);
        assert!(counted.iter().all(|what| WANTED.contains(&what.as_str())));
    }

    #[test]
    fn a_0_that_is_left_out() {
        let written = String::from_utf8_lossy(TABLE).replace("\t10\t0\ntask", "\t10\ntask");
        let mut counted = Vec::new();
        see_rewritten(TABLE, written.as_bytes(), |what| counted.push(what.to_string()));
        see_rewritten(written.as_bytes(), written.as_bytes(), |what| {
            counted.push(what.to_string());
        });
        let expected = ["phase: 0 written, left out by the writer", "phase: written back the same"];
        assert_eq!(counted, expected);
    }

    #[test]
    fn damages_by_their_names() {
        let names = [
            ("pair-one-line-2-server-1-partition-and-3-server-8-phase-part", "2 left of 3"),
            ("pair-one-line-1-server-0-first-word-and-1-server-8-plus", "0 left of 1"),
            ("2-33rd-server-and-2-server-8-phase-period", "33rd server with a fault at it"),
            ("pair-two-lines-5-task-pair-and-1-server-8-nul", "5 and a fault at it"),
            ("1-server-0-tab-after-phase", "fields after it"),
        ];
        for (name, what) in names {
            assert_eq!(made(name), [format!("phase: made: {what}")]);
            assert!(MADE.contains(&made(name)[0].as_str()));
        }
        let alone = ["phase: made: 2 alone", "phase: made: 2-server-8-phase-period"];
        assert_eq!(made("2-server-8-phase-period"), alone);
        assert!(alone.iter().all(|what| all_made().contains(&what.to_string())));
        assert!(made("1-server-0-tab-at-end").is_empty());
    }
}
