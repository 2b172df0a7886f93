//! The reader and the writer of table text. Text holds microseconds, a table
//! holds ticks; only this module and that of frame tables convert.

use std::fmt;

use crate::number;
use crate::table::{
    misfit, Kind, Level, Misfit, Server, Table, Task, MAX_LIMIT, MAX_PARTITION, MAX_PERIOD,
    MAX_PRIORITY, MAX_SERVERS, MAX_TASKS, MAX_TICK_LENGTH,
};

/// The most bytes a table text may have.
pub const MAX_TEXT: usize = 16_384;

pub const MALFORMED: u8 = 1;
pub const OUT_OF_BOUNDS: u8 = 2;
pub const NOT_WHOLE_TICKS: u8 = 3;
pub const ABSENT_ROW: u8 = 41;
pub const OTHER_PARTITION: u8 = 42;
pub const NOT_TIMED: u8 = 43;
pub const NOT_THE_HOME: u8 = 44;
pub const FALLING_LIMITS: u8 = 45;
pub const EQUAL_PRIORITIES: u8 = 5;

/// The most fields a line has, with its leading word.
const MAX_FIELDS: usize = 9;

/// The field that stands for the line itself; the others count from 1 after
/// the leading word.
pub const THE_LINE: usize = 0;

/// Why a text was refused: the number for no, the line, and what comes back
/// with them.
#[derive(Clone, Copy, Debug, PartialEq, Eq)]
pub struct Refusal {
    pub number: u8,
    pub line: usize,
    pub with: With,
}

/// What a refusal gives beside its number and line.
#[derive(Clone, Copy, Debug, PartialEq, Eq)]
pub enum With {
    Field(usize),
    /// For equal priorities, which have no field.
    SecondLine(usize),
}

impl Refusal {
    pub(crate) fn at(line: usize, fault: Fault) -> Refusal {
        Refusal { number: fault.number, line, with: With::Field(fault.field) }
    }
}

impl fmt::Display for Refusal {
    fn fmt(&self, f: &mut fmt::Formatter<'_>) -> fmt::Result {
        let (With::Field(last) | With::SecondLine(last)) = self.with;
        write!(f, "table\tno\t{}\t{}\t{last}", self.number, self.line)
    }
}

/// What is wrong with a line: the number for no and the field.
#[derive(Clone, Copy)]
pub(crate) struct Fault {
    number: u8,
    field: usize,
}

/// A line that is missing or unclosed is malformed as a line.
pub(crate) const NO_LINE: Fault = Fault { number: MALFORMED, field: THE_LINE };

impl Fault {
    pub(crate) fn new(number: u8, field: usize) -> Fault {
        Fault { number, field }
    }
}

/// Reads a table text, or says why it is refused: length first, then line by
/// line, then equal priorities of servers, then of tasks.
pub fn read(text: &[u8]) -> Result<Table, Refusal> {
    let mut reader = Reader::default();
    let lines_read = read_lines(text, |line| reader.take_line(line))?;
    let table = reader.finish().ok_or(Refusal::at(lines_read + 1, NO_LINE))?;
    check_priorities(&table)?;
    Ok(table)
}

/// Hands over the lines of a text one by one, each without its line feed, and
/// gives how many there are; or refuses the text, length first, at the first line
/// that is unclosed or in which a fault is found.
pub(crate) fn read_lines(
    text: &[u8],
    mut take_line: impl FnMut(&[u8]) -> Result<(), Fault>,
) -> Result<usize, Refusal> {
    if text.len() > MAX_TEXT {
        return Err(Refusal::at(0, Fault::new(OUT_OF_BOUNDS, THE_LINE)));
    }

    let mut lines_read = 0;
    let mut rest = text;
    while !rest.is_empty() {
        let line_number = lines_read + 1;
        let Some(end) = rest.iter().position(|&byte| byte == b'\n') else {
            return Err(Refusal::at(line_number, NO_LINE));
        };
        take_line(&rest[..end]).map_err(|fault| Refusal::at(line_number, fault))?;
        rest = &rest[end + 1..];
        lines_read = line_number;
    }
    Ok(lines_read)
}

/// A server line that is well formed; times are in microseconds.
struct ServerLine {
    partition: u64,
    kind: Kind,
    priority: u64,
    period: u64,
    capacity: [u64; 3],
    phase: u64,
}

/// A task line that is well formed; times are in microseconds.
struct TaskLine {
    home: u64,
    degraded: u64,
    priority: u64,
    level: Level,
    limit: [u64; 3],
}

// The fields of a line stand behind its leading word, so that a field's place
// among them is its count from 1. They are read from left to right, so that the
// leftmost malformed one is told.

/// The tick length of a tick line.
pub(crate) fn read_tick(fields: &[&[u8]]) -> Result<u32, Fault> {
    expect_fields(fields, 1)?;
    let tick = number_at(fields, 1)?;
    expect(OUT_OF_BOUNDS, &[(1, tick >= 1 && tick <= u64::from(MAX_TICK_LENGTH))])?;
    Ok(tick as u32)
}

/// The phase is a last field that may be absent, and is then 0.
fn parse_server(fields: &[&[u8]]) -> Result<ServerLine, Fault> {
    let has_phase = fields.len() == 1 + 8;
    expect_fields(fields, if has_phase { 8 } else { 7 })?;
    Ok(ServerLine {
        partition: number_at(fields, 1)?,
        kind: Kind::from_word(fields[2]).ok_or(Fault::new(MALFORMED, 2))?,
        priority: number_at(fields, 3)?,
        period: number_at(fields, 4)?,
        capacity: [number_at(fields, 5)?, number_at(fields, 6)?, number_at(fields, 7)?],
        phase: if has_phase { number_at(fields, 8)? } else { 0 },
    })
}

fn parse_task(fields: &[&[u8]]) -> Result<TaskLine, Fault> {
    expect_fields(fields, 7)?;
    Ok(TaskLine {
        home: number_at(fields, 1)?,
        degraded: number_at(fields, 2)?,
        priority: number_at(fields, 3)?,
        level: Level::from_word(fields[4]).ok_or(Fault::new(MALFORMED, 4))?,
        limit: [number_at(fields, 5)?, number_at(fields, 6)?, number_at(fields, 7)?],
    })
}

/// Room for the fields of a line. Of too many fields one more than fits is kept, so
/// that they stay too many.
pub(crate) const NO_FIELDS: [&[u8]; MAX_FIELDS + 1] = [b""; MAX_FIELDS + 1];

/// The fields of a line, its leading word first.
pub(crate) fn split_fields<'r, 'l>(
    line: &'l [u8],
    room: &'r mut [&'l [u8]; MAX_FIELDS + 1],
) -> &'r [&'l [u8]] {
    let mut count = 0;
    for (field, place) in line.split(|&byte| byte == b'\t').zip(room.iter_mut()) {
        *place = field;
        count += 1;
    }
    &room[..count]
}

/// Whether so many fields follow the leading word.
pub(crate) fn expect_fields(fields: &[&[u8]], count: usize) -> Result<(), Fault> {
    if fields.len() != 1 + count {
        return Err(Fault::new(MALFORMED, THE_LINE));
    }
    Ok(())
}

pub(crate) fn number_at(fields: &[&[u8]], field: usize) -> Result<u64, Fault> {
    number::parse(fields[field]).ok_or(Fault::new(MALFORMED, field))
}

/// Refuses with the number at the first field whose condition does not hold;
/// the fields are given from left to right, the line itself before them.
pub(crate) fn expect(number: u8, conditions: &[(usize, bool)]) -> Result<(), Fault> {
    for &(field, holds) in conditions {
        if !holds {
            return Err(Fault::new(number, field));
        }
    }
    Ok(())
}

/// What was read so far.
#[derive(Default)]
struct Reader {
    tick: Option<u32>,
    servers: Vec<Server>,
    tasks: Vec<Task>,
}

impl Reader {
    /// Takes the next line, without its line feed, or says what is wrong with
    /// it: its leading word for its place, then the count of its fields, then
    /// all of 1, 2, 3 and 41 to 45 in this order.
    fn take_line(&mut self, line: &[u8]) -> Result<(), Fault> {
        let mut room = NO_FIELDS;
        let fields = split_fields(line, &mut room);
        match (fields[0], self.tick) {
            (b"tick", None) => {
                self.tick = Some(read_tick(fields)?);
                Ok(())
            }
            (b"server", Some(tick)) if self.tasks.is_empty() => {
                self.take_server(parse_server(fields)?, u64::from(tick))
            }
            (b"task", Some(tick)) if !self.servers.is_empty() => {
                self.take_task(parse_task(fields)?, u64::from(tick))
            }
            _ => Err(Fault::new(MALFORMED, THE_LINE)),
        }
    }

    fn take_server(&mut self, line: ServerLine, tick: u64) -> Result<(), Fault> {
        let ServerLine { partition, kind, priority, period, capacity, phase } = line;
        let [n, d1, d2] = capacity;

        // Bounds, in microseconds.
        let longest = u64::from(MAX_PERIOD) * tick;
        expect(
            OUT_OF_BOUNDS,
            &[
                (THE_LINE, self.servers.len() < MAX_SERVERS),
                (1, partition <= u64::from(MAX_PARTITION)),
                (3, priority_in_bounds(priority)),
                (4, period >= tick && period <= longest),
                (5, n <= period),
                (6, d1 <= period),
                (7, d2 <= period),
                (8, phase + tick <= period),
            ],
        )?;
        expect(
            NOT_WHOLE_TICKS,
            &[
                (4, period % tick == 0),
                (5, n % tick == 0),
                (6, d1 % tick == 0),
                (7, d2 % tick == 0),
                (8, phase % tick == 0),
            ],
        )?;

        self.servers.push(Server {
            partition: partition as u32,
            kind,
            priority: priority as u32,
            period: (period / tick) as u32,
            capacity: capacity.map(|time| (time / tick) as u32),
            phase: (phase / tick) as u32,
        });
        Ok(())
    }

    fn take_task(&mut self, line: TaskLine, tick: u64) -> Result<(), Fault> {
        let TaskLine { home, degraded, priority, level, limit } = line;

        // Limits are rounded up to ticks before anything is compared.
        let limit = limit.map(|time| time.div_ceil(tick));
        let [n, d1, d2] = limit;
        expect(
            OUT_OF_BOUNDS,
            &[
                (THE_LINE, self.tasks.len() < MAX_TASKS),
                (3, priority_in_bounds(priority)),
                (5, limit_in_bounds(n)),
                (6, limit_in_bounds(d1)),
                (7, limit_in_bounds(d2)),
            ],
        )?;
        if let Some(misfit) = misfit(&self.servers, home, degraded) {
            return Err(fault_of(misfit));
        }
        expect(FALLING_LIMITS, &[(6, n <= d1), (7, d1 <= d2)])?;

        self.tasks.push(Task {
            home: home as u32,
            degraded: degraded as u32,
            priority: priority as u32,
            level,
            limit: limit.map(|ticks| ticks as u32),
        });
        Ok(())
    }

    /// The table, if no line is missing.
    fn finish(self) -> Option<Table> {
        let tick = self.tick?;
        if self.servers.is_empty() || self.tasks.is_empty() {
            return None;
        }
        Some(Table { tick, servers: self.servers, tasks: self.tasks })
    }
}

pub(crate) fn priority_in_bounds(priority: u64) -> bool {
    priority >= 1 && priority <= u64::from(MAX_PRIORITY)
}

pub(crate) fn limit_in_bounds(ticks: u64) -> bool {
    ticks >= 1 && ticks <= u64::from(MAX_LIMIT)
}

/// Home and degraded server are fields 1 and 2 of a task. Where the two do not
/// go together the later is told.
fn fault_of(misfit: Misfit) -> Fault {
    match misfit {
        Misfit::HomeAbsent => Fault::new(ABSENT_ROW, 1),
        Misfit::DegradedAbsent => Fault::new(ABSENT_ROW, 2),
        Misfit::OtherPartition => Fault::new(OTHER_PARTITION, 2),
        Misfit::NotTimed => Fault::new(NOT_TIMED, 2),
        Misfit::NotTheHome => Fault::new(NOT_THE_HOME, 2),
    }
}

fn check_priorities(table: &Table) -> Result<(), Refusal> {
    let servers: Vec<u32> = table.servers.iter().map(|server| server.priority).collect();
    let tasks: Vec<u32> = table.tasks.iter().map(|task| task.priority).collect();
    let first_server_line = 2;
    let first_task_line = first_server_line + servers.len();

    for (priorities, first_line) in [(servers, first_server_line), (tasks, first_task_line)] {
        expect_different(&priorities, first_line)?;
    }
    Ok(())
}

/// Refuses equal priorities of rows of which the first stands on the line.
pub(crate) fn expect_different(priorities: &[u32], first_line: usize) -> Result<(), Refusal> {
    match first_equal_pair(priorities) {
        None => Ok(()),
        Some((smaller, larger)) => Err(Refusal {
            number: EQUAL_PRIORITIES,
            line: first_line + smaller,
            with: With::SecondLine(first_line + larger),
        }),
    }
}

/// The first pair of rows with equal priority: pairs are ordered by the
/// smaller row, then by the larger.
fn first_equal_pair(priorities: &[u32]) -> Option<(usize, usize)> {
    for smaller in 0..priorities.len() {
        for larger in smaller + 1..priorities.len() {
            if priorities[smaller] == priorities[larger] {
                return Some((smaller, larger));
            }
        }
    }
    None
}

/// Writes a table that keeps the rules, in microseconds, from the ticks held. A
/// phase of 0 is left out.
pub fn write(table: &Table) -> String {
    let in_microseconds = |ticks: u32| u64::from(ticks) * u64::from(table.tick);

    let mut text = format!("tick\t{}\n", table.tick);
    for server in &table.servers {
        let [n, d1, d2] = server.capacity.map(in_microseconds);
        text.push_str(&format!(
            "server\t{}\t{}\t{}\t{}\t{n}\t{d1}\t{d2}",
            server.partition,
            server.kind.word(),
            server.priority,
            in_microseconds(server.period),
        ));
        if server.phase > 0 {
            text.push_str(&format!("\t{}", in_microseconds(server.phase)));
        }
        text.push('\n');
    }
    for task in &table.tasks {
        let [n, d1, d2] = task.limit.map(in_microseconds);
        text.push_str(&format!(
            "task\t{}\t{}\t{}\t{}\t{n}\t{d1}\t{d2}\n",
            task.home,
            task.degraded,
            task.priority,
            task.level.word(),
        ));
    }
    text
}
