//! Blocks of the `states` program: a table and a state by their fields, and one
//! operation. The format is in STATES.md of the package above.

use std::fmt::{Display, Write};

use crate::judged::LEVELS;
use crate::random::Random;
use crate::table::{self, Server, Table, MAX_SERVERS, MAX_TASKS};

pub const MAX_COUNT: u64 = 4_000_000_000;
pub const MAX_WAITING: u64 = 16;
pub const MAX_BYTE: u64 = 255;
pub const MAX_FIELD: u64 = u32::MAX as u64;
/// The greatest task, row or room that both programs take.
const ELEVEN_DIGITS: u64 = 99_999_999_999;
pub const LO: u64 = 0;
pub const D2: usize = 2;
/// Every mode with every level of which a job may wait in it. Those of which a
/// job may raise the mode to D2 are there twice.
const LEVELS_IN_MODES: [(usize, &str); 10] = [
    (0, "LO"),
    (0, "MI"),
    (0, "HI"),
    (0, "HI"),
    (1, "LO"),
    (1, "MI"),
    (1, "HI"),
    (1, "HI"),
    (D2, "MI"),
    (D2, "HI"),
];

/// A task row, its limits in ticks.
#[derive(Clone)]
pub struct Task {
    pub home: u64,
    pub degraded: u64,
    pub priority: u64,
    pub level: u64,
    pub limit: [u64; 3],
}

#[derive(Clone, Copy)]
pub struct Budget {
    pub used: u64,
    pub elapsed: u64,
}

#[derive(Clone, Copy)]
pub struct Queue {
    pub waiting: u64,
    pub run: u64,
}

#[derive(Clone, Copy)]
pub enum Operation {
    Fresh,
    Release(u64),
    Tick(u64),
    Verdict(u64, u64),
    Write(u64),
    Fits,
    FitsState,
}

impl Operation {
    pub fn word(self) -> &'static str {
        match self {
            Operation::Fresh => "fresh",
            Operation::Release(_) => "release",
            Operation::Tick(_) => "tick",
            Operation::Verdict(..) => "verdict",
            Operation::Write(_) => "write",
            Operation::Fits => "fits",
            Operation::FitsState => "fits_state",
        }
    }

    /// Whether the state is handed in, and not the table alone.
    pub fn looks_at_state(self) -> bool {
        matches!(self, Operation::Release(_) | Operation::Tick(_) | Operation::FitsState)
    }

    /// Whether it asks if the table fits.
    pub fn is_fits(self) -> bool {
        matches!(self, Operation::Fits | Operation::FitsState)
    }
}

/// The counts say which rows are in use.
#[derive(Clone)]
pub struct Block {
    pub name: String,
    /// Whether the table, and whether the state beside it, breaks a rule.
    pub broken_table: bool,
    pub broken_state: bool,
    pub tick: u64,
    pub server_count: u64,
    pub task_count: u64,
    pub servers: Vec<Server>,
    pub tasks: Vec<Task>,
    pub mode: usize,
    pub ticks: u64,
    pub accepted: u64,
    pub last: Option<u64>,
    pub budgets: Vec<Budget>,
    pub queues: Vec<Queue>,
    pub operation: Operation,
}

impl Block {
    /// A block whose table keeps the rules and whose state is sound.
    pub fn sound(table: &Table, name: &str, random: &mut Random) -> Block {
        let mut block = Block {
            name: name.to_string(),
            broken_table: false,
            broken_state: false,
            tick: table.tick,
            server_count: table.servers.len() as u64,
            task_count: table.tasks.len() as u64,
            servers: table.servers.clone(),
            tasks: table.tasks.iter().map(|task| in_ticks(task, table.tick)).collect(),
            mode: random.below(3),
            ticks: 0,
            accepted: 0,
            last: None,
            budgets: Vec::new(),
            queues: Vec::new(),
            operation: Operation::Fresh,
        };
        if random.chance(8) {
            block.mode = 0;
            block.budgets = vec![Budget { used: 0, elapsed: 0 }; block.servers.len()];
            block.queues = vec![Queue { waiting: 0, run: 0 }; block.tasks.len()];
        } else {
            block.draw_state(random);
        }
        block.operation = block.draw_operation(random);
        block
    }

    /// A sound block whose last-run job, of any level, has reached its limit in
    /// any mode, with other jobs waiting, with LO jobs only, or alone, and a tick
    /// with mark 0. Its limits are often equal, so that it is judged more than
    /// once.
    pub fn at_limit(mut table: Table, random: &mut Random) -> Block {
        for task in &mut table.tasks {
            if random.chance(40) {
                task.level = "LO";
            }
        }
        let row = random.below(table.tasks.len());
        let (mode, level) = random.pick(&LEVELS_IN_MODES);
        table.tasks[row].level = level;
        let time = table.tasks[row].time[0];
        match random.below(10) {
            0..=3 => table.tasks[row].time = [time; 3],
            4 | 5 => table.tasks[row].time = [time, time, time + table.tick],
            6 => table.tasks[row].time = [time, time + table.tick, time + table.tick],
            _ => {}
        }
        let mut block = Block::sound(&table, "sound-at-limit", random);
        block.mode = mode;
        block.last = None;
        block.draw_state(random);
        if let Some(last) = block.last {
            block.queues[last as usize].run = 0;
        }
        match random.below(10) {
            0..=2 => block.queues.fill(Queue { waiting: 0, run: 0 }),
            3..=5 => block.leave_lo_jobs(random),
            _ => {}
        }
        let limit = block.tasks[row].limit[block.mode];
        let waiting = random.pick(&[1, 1, 1, 1, 2, MAX_WAITING]);
        block.queues[row] = Queue { waiting, run: limit };
        block.last = Some(row as u64);
        block.ticks = block.ticks.clamp(1, MAX_COUNT - 1);
        block.accepted = block.accepted.max(block.jobs());
        block.operation = Operation::Tick(0);
        block
    }

    /// Jobs of LO tasks wait and no others; in D2 none.
    fn leave_lo_jobs(&mut self, random: &mut Random) {
        let mode = self.mode;
        for (task, queue) in self.tasks.iter().zip(&mut self.queues) {
            let busy = if task.level == LO { 70 } else { 0 };
            *queue = draw_queue(task, mode, busy, random);
        }
    }

    fn draw_state(&mut self, random: &mut Random) {
        self.budgets = self.servers.iter().map(|server| draw_budget(server, random)).collect();
        let busy = random.pick(&[10, 50, 50, 90]);
        let mode = self.mode;
        self.queues = self.tasks.iter().map(|task| draw_queue(task, mode, busy, random)).collect();
        self.ticks = draw_count(0, random);
        self.accepted = draw_count(self.jobs(), random);
        if random.chance(65) {
            self.draw_last(random);
        }
    }

    /// A task with a waiting job becomes the one that ran last, if there is one.
    fn draw_last(&mut self, random: &mut Random) {
        let waiting: Vec<usize> =
            (0..self.queues.len()).filter(|&row| self.queues[row].waiting > 0).collect();
        if waiting.is_empty() {
            return;
        }
        let row = random.pick(&waiting);
        let limit = self.tasks[row].limit[self.mode];
        self.queues[row].run = match random.below(4) {
            0 | 1 => limit,
            2 => 1,
            _ => random.within(1, limit),
        };
        self.last = Some(row as u64);
        self.ticks = self.ticks.max(1);
    }

    fn draw_operation(&self, random: &mut Random) -> Operation {
        match random.below(20) {
            0..=8 => {
                let percent = if self.last.is_some() { 35 } else { 15 };
                Operation::Tick(u64::from(random.chance(percent)))
            }
            9..=13 => Operation::Release(draw_row(self.task_count, random)),
            14 | 15 => Operation::Verdict(draw_row(self.server_count, random), random.within(0, 2)),
            16 | 17 => Operation::Write(self.draw_room(random)),
            18 => random.pick(&[Operation::Fits, Operation::FitsState]),
            _ => Operation::Fresh,
        }
    }

    /// A room about as long as the table's text.
    fn draw_room(&self, random: &mut Random) -> u64 {
        let length = self.text_length();
        match random.below(8) {
            0 | 1 => length,
            2 | 3 => length - 1,
            4 => length + 1,
            5 => random.pick(&[0, 1, 16_383, 16_384, 16_385, ELEVEN_DIGITS]),
            _ => random.within(0, 2 * length),
        }
    }

    /// The jobs that wait.
    pub fn jobs(&self) -> u64 {
        self.queues.iter().map(|queue| queue.waiting).sum()
    }

    /// Whether the operation must be refused with 13, by what it looks at.
    pub fn must_be_13(&self) -> bool {
        self.broken_table || (self.broken_state && self.operation.looks_at_state())
    }

    /// How many bytes the table's text has.
    pub fn text_length(&self) -> u64 {
        self.table_text().len() as u64
    }

    /// The text of the table, which keeps the rules, on the rows in use, as a writer
    /// writes it.
    pub fn table_text(&self) -> String {
        let mut used = self.clone();
        used.servers.truncate(self.server_count as usize);
        used.tasks.truncate(self.task_count as usize);
        for server in &mut used.servers {
            server.phase = server.phase.filter(|&phase| phase > 0);
        }
        let kind = |server: &Server| if server.timed { "timed" } else { "event" };
        let level = |task: &Task| LEVELS[task.level as usize];
        line(&[&"tick", &self.tick]) + &used.row_lines(self.tick, kind, level)
    }

    /// The rows' lines, each time so many times its ticks.
    fn row_lines<K: Display, L: Display>(
        &self,
        tick: u64,
        kind: fn(&Server) -> K,
        level: fn(&Task) -> L,
    ) -> String {
        let mut text = String::new();
        for row in &self.servers {
            let [n, d1, d2] = row.capacity.map(|ticks| ticks * tick);
            let (kind, period) = (kind(row), row.period * tick);
            let phase = row.phase.map(|phase| phase * tick);
            let mut fields: Vec<&dyn Display> =
                vec![&"server", &row.partition, &kind, &row.priority, &period, &n, &d1, &d2];
            fields.extend(phase.as_ref().map(|phase| phase as &dyn Display));
            text += &line(&fields);
        }
        for row in &self.tasks {
            let [n, d1, d2] = row.limit.map(|ticks| ticks * tick);
            let level = level(row);
            text +=
                &line(&[&"task", &row.home, &row.degraded, &row.priority, &level, &n, &d1, &d2]);
        }
        text
    }

    /// Rows that are not in use and may hold anything; rows that are all 0 and
    /// need not be given.
    pub fn pad(&mut self, random: &mut Random) {
        let (servers, tasks) = (self.servers.len(), self.tasks.len());
        if self.server_count <= servers as u64 && servers < MAX_SERVERS && random.chance(20) {
            self.servers.push(any_server(random));
            self.budgets.push(Budget { used: any(random), elapsed: any(random) });
        }
        if self.task_count <= tasks as u64 && tasks < MAX_TASKS && random.chance(20) {
            self.tasks.push(any_task(random));
            self.queues.push(Queue { waiting: random.within(0, MAX_BYTE), run: any(random) });
        }
        while self.budgets.last().is_some_and(|b| b.used == 0 && b.elapsed == 0)
            && random.chance(40)
        {
            self.budgets.pop();
        }
        while self.queues.last().is_some_and(|q| q.waiting == 0 && q.run == 0) && random.chance(40)
        {
            self.queues.pop();
        }
    }

    /// The block's lines.
    pub fn text(&self, random: &mut Random) -> String {
        let mut text = line(&[&"table", &self.tick, &self.server_count, &self.task_count]);
        text += &self.row_lines(1, |server| u64::from(server.timed), |task| task.level);
        text += &self.state_lines(random);
        text + &operation_line(self.operation)
    }

    fn state_lines(&self, random: &mut Random) -> String {
        let (any_last, last) = match self.last {
            Some(row) => (1, row),
            None => (0, random.pick(&[0, 1, 64, MAX_FIELD])),
        };
        let mut text = String::new();
        let all_0 = self.mode == 0 && self.ticks == 0 && self.accepted == 0 && any_last == 0;
        if !all_0 || random.chance(50) {
            text += &line(&[&"state", &self.mode, &self.ticks, &self.accepted, &any_last, &last]);
        }
        for budget in &self.budgets {
            text += &line(&[&"budget", &budget.used, &budget.elapsed]);
        }
        for queue in &self.queues {
            text += &line(&[&"queue", &queue.waiting, &queue.run]);
        }
        text
    }
}

pub fn operation_line(operation: Operation) -> String {
    let word = operation.word();
    match operation {
        Operation::Fresh | Operation::Fits | Operation::FitsState => line(&[&word]),
        Operation::Verdict(row, mode) => line(&[&word, &row, &mode]),
        Operation::Release(number) | Operation::Tick(number) | Operation::Write(number) => {
            line(&[&word, &number])
        }
    }
}

pub fn line(fields: &[&dyn Display]) -> String {
    let mut line = String::new();
    for (index, field) in fields.iter().enumerate() {
        let tab = if index == 0 { "" } else { "\t" };
        let _ = write!(line, "{tab}{field}"); // writing to a String cannot fail
    }
    line.push('\n');
    line
}

fn in_ticks(task: &table::Task, tick: u64) -> Task {
    Task {
        home: task.home as u64,
        degraded: task.degraded as u64,
        priority: task.priority,
        level: match task.level {
            "LO" => LO,
            "MI" => 1,
            _ => 2,
        },
        limit: task.time.map(|time| time.div_ceil(tick)),
    }
}

fn draw_budget(server: &Server, random: &mut Random) -> Budget {
    let elapsed = match random.below(5) {
        0 => 0,
        1 | 2 => server.period,
        _ => random.within(0, server.period),
    };
    let most = elapsed.min(largest(server));
    let used = match random.below(4) {
        0 => 0,
        1 | 2 => most,
        _ => random.within(0, most),
    };
    Budget { used, elapsed }
}

pub fn largest(server: &Server) -> u64 {
    server.capacity.into_iter().max().unwrap_or(0)
}

fn draw_queue(task: &Task, mode: usize, busy: u64, random: &mut Random) -> Queue {
    if !random.chance(busy) || (mode == D2 && task.level == LO) {
        return Queue { waiting: 0, run: 0 };
    }
    let waiting = match random.below(6) {
        0 | 1 => MAX_WAITING,
        2 => MAX_WAITING - 1,
        3 => 1,
        _ => random.within(1, MAX_WAITING),
    };
    let limit = task.limit[mode];
    let run = match random.below(4) {
        0 | 1 => 0,
        2 => limit - 1,
        _ => random.within(0, limit - 1),
    };
    Queue { waiting, run }
}

/// A count from a least one to 4,000,000,000, often at the end.
pub fn draw_count(least: u64, random: &mut Random) -> u64 {
    match random.below(10) {
        0 => least,
        1 => MAX_COUNT,
        2 | 3 => MAX_COUNT - 1,
        4 => random.within(least, MAX_COUNT),
        _ => least + random.within(0, 40),
    }
}

/// A row, mostly one in use.
pub fn draw_row(count: u64, random: &mut Random) -> u64 {
    match random.below(10) {
        0 => count,
        1 => random.pick(&[count + 1, 31, 32, 63, 64, 255, 256, MAX_FIELD, ELEVEN_DIGITS]),
        _ => random.within(0, count - 1),
    }
}

/// A number of 32 bits, often at an end.
pub fn any(random: &mut Random) -> u64 {
    match random.below(4) {
        0 => random.pick(&[0, 1, MAX_COUNT, MAX_COUNT + 1, 1 << 31, MAX_FIELD]),
        1 => random.within(0, 20),
        _ => random.within(0, MAX_FIELD),
    }
}

fn any_server(random: &mut Random) -> Server {
    Server {
        partition: random.within(0, MAX_BYTE),
        timed: random.chance(50),
        priority: random.within(0, MAX_BYTE),
        period: any(random),
        capacity: [0; 3].map(|_| any(random)),
        phase: None,
    }
}

fn any_task(random: &mut Random) -> Task {
    Task {
        home: random.within(0, MAX_BYTE),
        degraded: random.within(0, MAX_BYTE),
        priority: random.within(0, MAX_BYTE),
        level: random.within(0, 2),
        limit: [0; 3].map(|_| any(random)),
    }
}
