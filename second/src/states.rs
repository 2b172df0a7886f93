//! The `states` program: tables and states handed in by their fields, one
//! operation each. The line format is described in STATES.md.

use std::fmt::Write;

use crate::fits;
use crate::frame_states::FrameBlock;
use crate::run::{Answer, Budget, How, Queue, Run, What};
use crate::table::{Kind, Level, Mode, Server, Table, Task, MAX_SERVERS, MAX_TASKS};
use crate::text;
use crate::verdict;

pub const NO_SUCH_SERVER: u8 = 11;
pub const ROOM_TOO_SHORT: u8 = 12;
pub const UNSOUND: u8 = 13;

/// Answers every block of a states text, or says what is wrong with the text.
pub fn answer_blocks(text: &str) -> Result<String, String> {
    let mut out = String::new();
    let mut block: Option<AnyBlock> = None;
    for (index, line) in text.lines().enumerate() {
        if line.is_empty() || line.starts_with('#') {
            continue;
        }
        let in_line = |message: String| format!("line {}: {message}", index + 1);
        let (word, numbers) = parse_line(line).map_err(in_line)?;
        if word == "table" || word == "frame" {
            if block.is_some() {
                return Err(in_line("the block before has no operation".to_string()));
            }
            block = Some(AnyBlock::new(word, &numbers).map_err(in_line)?);
            continue;
        }
        let Some(current) = &mut block else {
            return Err(in_line("a block begins with a table or frame line".to_string()));
        };
        if current.take_line(word, &numbers).map_err(in_line)? {
            continue;
        }
        let operation = Operation::parse(word, &numbers).map_err(in_line)?;
        if let Some(finished) = block.take() {
            finished.answer(operation, &mut out).map_err(in_line)?;
        }
    }
    if block.is_some() {
        return Err("the last block has no operation".to_string());
    }
    Ok(out)
}

/// A block of either kind.
enum AnyBlock {
    Table(Block),
    Frame(FrameBlock),
}

impl AnyBlock {
    /// The block that begins with the line.
    fn new(word: &str, numbers: &[u64]) -> Result<AnyBlock, String> {
        match word {
            "frame" => Ok(AnyBlock::Frame(FrameBlock::new(numbers)?)),
            _ => Ok(AnyBlock::Table(Block::new(numbers)?)),
        }
    }

    fn take_line(&mut self, word: &str, numbers: &[u64]) -> Result<bool, String> {
        match self {
            AnyBlock::Table(block) => block.take_line(word, numbers),
            AnyBlock::Frame(block) => block.take_line(word, numbers),
        }
    }

    fn answer(self, operation: Operation, out: &mut String) -> Result<(), String> {
        match self {
            AnyBlock::Table(block) => block.answer(operation, out),
            AnyBlock::Frame(block) => return block.answer(operation, out),
        }
        Ok(())
    }
}

fn parse_line(line: &str) -> Result<(&str, Vec<u64>), String> {
    let mut fields = line.split('\t');
    let word = fields.next().unwrap_or("");
    let mut numbers = Vec::new();
    for field in fields {
        if field.is_empty() || !field.bytes().all(|byte| byte.is_ascii_digit()) {
            return Err(format!("not a number: {field:?}"));
        }
        numbers.push(field.parse().map_err(|_| format!("number too great: {field}"))?);
    }
    Ok((word, numbers))
}

/// The numbers of a line as so many u32 fields.
pub(crate) fn fields<const COUNT: usize>(
    word: &str,
    numbers: &[u64],
) -> Result<[u32; COUNT], String> {
    if numbers.len() != COUNT {
        return Err(format!("a {word} line has {COUNT} numbers, not {}", numbers.len()));
    }
    let mut values = [0; COUNT];
    for (value, &number) in values.iter_mut().zip(numbers) {
        *value = u32::try_from(number).map_err(|_| format!("number too great: {number}"))?;
    }
    Ok(values)
}

pub(crate) fn one<T: Copy>(cases: &[T], number: u32, what: &str) -> Result<T, String> {
    cases.get(number as usize).copied().ok_or_else(|| format!("no such {what}: {number}"))
}

pub(crate) enum Operation {
    Fresh,
    Release(u64),
    Tick(bool),
    Verdict(u64, Mode),
    Write(u64),
    Fits,
    FitsState,
}

impl Operation {
    fn parse(word: &str, numbers: &[u64]) -> Result<Operation, String> {
        match (word, numbers) {
            ("fresh", []) => Ok(Operation::Fresh),
            ("release", &[task]) => Ok(Operation::Release(task)),
            ("tick", [0]) => Ok(Operation::Tick(false)),
            ("tick", [1]) => Ok(Operation::Tick(true)),
            ("verdict", &[row, mode]) => {
                let mode = u32::try_from(mode).unwrap_or(u32::MAX);
                Ok(Operation::Verdict(row, one(&Mode::ALL, mode, "mode")?))
            }
            ("write", &[room]) => Ok(Operation::Write(room)),
            ("fits", []) => Ok(Operation::Fits),
            ("fits_state", []) => Ok(Operation::FitsState),
            _ => Err(format!("no such line: {word} with {} numbers", numbers.len())),
        }
    }
}

/// The fields of a block as given.
struct Block {
    tick: u32,
    server_count: u32,
    task_count: u32,
    servers: Vec<Server>,
    tasks: Vec<Task>,
    mode: Mode,
    ticks: u32,
    accepted: u32,
    last: Option<usize>,
    budgets: Vec<Budget>,
    queues: Vec<Queue>,
}

impl Block {
    fn new(numbers: &[u64]) -> Result<Block, String> {
        let [tick, server_count, task_count] = fields("table", numbers)?;
        Ok(Block {
            tick,
            server_count,
            task_count,
            servers: Vec::new(),
            tasks: Vec::new(),
            mode: Mode::N,
            ticks: 0,
            accepted: 0,
            last: None,
            budgets: Vec::new(),
            queues: Vec::new(),
        })
    }

    /// Takes a line of the block; false if the word is not one of its lines.
    fn take_line(&mut self, word: &str, numbers: &[u64]) -> Result<bool, String> {
        match word {
            "server" => {
                // The phase is a last number that may be absent, and is then 0.
                let mut numbers = numbers.to_vec();
                if numbers.len() == 7 {
                    numbers.push(0);
                }
                let [partition, kind, priority, period, n, d1, d2, phase] = fields(word, &numbers)?;
                let kind = one(&[Kind::Event, Kind::Timed], kind, "kind")?;
                let capacity = [n, d1, d2];
                let server = Server { partition, kind, priority, period, capacity, phase };
                push_row(&mut self.servers, server, MAX_SERVERS, word)?;
            }
            "task" => {
                let [home, degraded, priority, level, n, d1, d2] = fields(word, numbers)?;
                let level = one(&[Level::Lo, Level::Mi, Level::Hi], level, "level")?;
                let task = Task { home, degraded, priority, level, limit: [n, d1, d2] };
                push_row(&mut self.tasks, task, MAX_TASKS, word)?;
            }
            "state" => {
                let [mode, ticks, accepted, any_last, last] = fields(word, numbers)?;
                self.mode = one(&Mode::ALL, mode, "mode")?;
                self.ticks = ticks;
                self.accepted = accepted;
                self.last = one(&[None, Some(last as usize)], any_last, "answer to any last")?;
            }
            "budget" => {
                let [used, elapsed] = fields(word, numbers)?;
                push_row(&mut self.budgets, Budget { used, elapsed }, MAX_SERVERS, word)?;
            }
            "queue" => {
                let [waiting, run] = fields(word, numbers)?;
                push_row(&mut self.queues, Queue { waiting, run }, MAX_TASKS, word)?;
            }
            _ => return Ok(false),
        }
        Ok(true)
    }

    /// The table and state on the rows in use. A row that is in use but not
    /// given is all 0. Of too many rows one more than fits is kept, so that
    /// the table stays unsound.
    fn into_run(mut self) -> Run {
        let blank_server = Server {
            partition: 0,
            kind: Kind::Event,
            priority: 0,
            period: 0,
            capacity: [0; 3],
            phase: 0,
        };
        let blank_task =
            Task { home: 0, degraded: 0, priority: 0, level: Level::Lo, limit: [0; 3] };
        let server_rows = (self.server_count as usize).min(MAX_SERVERS + 1);
        let task_rows = (self.task_count as usize).min(MAX_TASKS + 1);
        self.servers.resize(server_rows, blank_server);
        self.budgets.resize(server_rows, Budget::default());
        self.tasks.resize(task_rows, blank_task);
        self.queues.resize(task_rows, Queue::default());
        Run {
            table: Table { tick: self.tick, servers: self.servers, tasks: self.tasks },
            mode: self.mode,
            ticks: self.ticks,
            accepted: self.accepted,
            last: self.last,
            budgets: self.budgets,
            queues: self.queues,
        }
    }

    fn answer(self, operation: Operation, out: &mut String) {
        if let Err(number) = apply(self.into_run(), operation, out) {
            push_line(out, &[&"no", &number]);
        }
    }
}

pub(crate) fn push_row<T>(
    rows: &mut Vec<T>,
    row: T,
    most: usize,
    word: &str,
) -> Result<(), String> {
    if rows.len() == most {
        return Err(format!("at most {most} {word} lines"));
    }
    rows.push(row);
    Ok(())
}

/// Does the operation and writes what was taken, or gives the number of the
/// refusal. A release, a tick and `fits_state` are handed a state, the others a
/// table.
fn apply(mut run: Run, operation: Operation, out: &mut String) -> Result<(), u8> {
    let sound = match operation {
        Operation::Release(_) | Operation::Tick(_) | Operation::FitsState => run.is_sound(),
        Operation::Fresh | Operation::Verdict(..) | Operation::Write(_) | Operation::Fits => {
            run.table.keeps_the_rules()
        }
    };
    if !sound {
        return Err(UNSOUND);
    }

    match operation {
        Operation::Fresh => {
            push_line(out, &[&"fresh"]);
            push_state(&Run::fresh(run.table), out);
        }
        Operation::Release(task) => {
            run.release(task).map_err(|no| no.number())?;
            push_line(out, &[&"release"]);
            push_state(&run, out);
        }
        Operation::Tick(mark) => {
            let answer = run.tick(mark).map_err(|no| no.number())?;
            push_tick(&answer, out);
            push_state(&run, out);
        }
        Operation::Verdict(row, mode) => {
            if row >= run.table.servers.len() as u64 {
                return Err(NO_SUCH_SERVER);
            }
            match verdict::response(&run.table, row as usize, mode) {
                None => push_line(out, &[&"verdict", &0, &0]),
                Some(response) => push_line(out, &[&"verdict", &1, &response]),
            }
        }
        Operation::Write(room) => {
            let table_text = text::write(&run.table);
            if room < table_text.len() as u64 {
                return Err(ROOM_TOO_SHORT);
            }
            push_line(out, &[&"write", &table_text.len()]);
            out.push_str(&table_text);
        }
        Operation::Fits | Operation::FitsState => match fits::first_miss(&run.table) {
            None => push_line(out, &[&"fits", &1, &0, &0]),
            Some((mode, row)) => push_line(out, &[&"fits", &0, &mode.index(), &row]),
        },
    }
    Ok(())
}

pub(crate) fn push_tick(answer: &Answer, out: &mut String) {
    let (what, server, task) = match answer.what {
        What::Idle => (0, 0, 0),
        What::Empty { server } => (1, server, 0),
        What::Run { server, task } => (2, server, task),
    };
    let (how, left) = match answer.left {
        None => (0, 0),
        Some(left) => match left.how {
            How::Done => (1, left.task),
            How::Cut => (2, left.task),
        },
    };
    let mode = answer.mode.index();
    push_line(
        out,
        &[&"tick", &answer.tick, &mode, &what, &server, &task, &how, &left, &answer.discarded],
    );
}

fn push_state(run: &Run, out: &mut String) {
    let (any_last, last) = match run.last {
        None => (0, 0),
        Some(last) => (1, last),
    };
    push_line(out, &[&"state", &run.mode.index(), &run.ticks, &run.accepted, &any_last, &last]);
    for budget in &run.budgets {
        push_line(out, &[&"budget", &budget.used, &budget.elapsed]);
    }
    push_queues(&run.queues, out);
}

pub(crate) fn push_queues(queues: &[Queue], out: &mut String) {
    for queue in queues {
        push_line(out, &[&"queue", &queue.waiting, &queue.run]);
    }
}

pub(crate) fn push_line(out: &mut String, fields: &[&dyn std::fmt::Display]) {
    for (index, field) in fields.iter().enumerate() {
        let tab = if index == 0 { "" } else { "\t" };
        let _ = write!(out, "{tab}{field}"); // writing to a String cannot fail
    }
    out.push('\n');
}
