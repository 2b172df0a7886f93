//! Damaged frame tables, by turns. Their names are those of [`crate::damage`].

use crate::damage::{malform_line, malform_number, ELEVEN_DIGITS, MAX_TEXT};
use crate::frame::{self, FrameTable, FrameTask};
use crate::random::Random;
use crate::table::{text_of, Line, MAX_LIMIT, MAX_TASKS, MAX_TICK};

/// What is done to a table. A number 0 stands for 1 of the line itself.
#[derive(Clone, Copy)]
enum Damage {
    /// A fault of the number at a field of the tick line, or of a task line.
    Tick(u8, usize),
    Task(u8, usize),
    /// 2: this number at a field of a task line.
    TaskWith(usize, u64),
    /// 1 of the line itself, in one of these ways.
    TickLine(&'static [&'static str]),
    TaskLine(&'static [&'static str]),
    /// Faults of two numbers on one task line, from left to right.
    OneLine(u8, u8),
    /// Faults of two numbers on two lines, the upper first.
    TwoLines(u8, u8),
    EqualPair,
    EqualMany,
    /// Equal priorities, and a fault of the number.
    EqualAnd(u8),
    /// A 65th task, with a fault of the number if there is one.
    TooMany(Option<u8>),
    TooManyEqual,
    TooManyUnclosed,
    /// A tick line after the first line, or a task line before it.
    SecondTick(Option<u8>),
    TaskFirst(Option<u8>),
    ServerLine,
    Unclosed(Option<u8>),
    Empty,
    TickOnly,
    NoTick,
    LongText(usize),
    Any,
}

const FEW: &[&str] = &["field-missing", "fields-missing"];
const MANY: &[&str] = &["field-more", "tab-at-end", "fields-more"];
const WORD: &[&str] = &["tab-at-start", "line-empty", "first-word"];

const DAMAGES: [Damage; 55] = [
    Damage::Tick(1, 1),
    Damage::Task(1, 1),
    Damage::Task(1, 2),
    Damage::Task(1, 3),
    Damage::Tick(2, 1),
    Damage::Task(2, 1),
    Damage::Task(2, 2),
    Damage::Task(2, 3),
    Damage::TaskWith(1, 3),
    Damage::TaskWith(1, 256),
    Damage::TaskWith(2, 0),
    Damage::TaskWith(3, 0),
    Damage::TickLine(FEW),
    Damage::TickLine(MANY),
    Damage::TickLine(WORD),
    Damage::TaskLine(FEW),
    Damage::TaskLine(MANY),
    Damage::TaskLine(WORD),
    Damage::OneLine(0, 1),
    Damage::OneLine(0, 2),
    Damage::OneLine(1, 1),
    Damage::OneLine(1, 2),
    Damage::OneLine(2, 1),
    Damage::OneLine(2, 2),
    Damage::TwoLines(1, 1),
    Damage::TwoLines(1, 2),
    Damage::TwoLines(2, 1),
    Damage::TwoLines(2, 2),
    Damage::EqualPair,
    Damage::EqualMany,
    Damage::EqualAnd(0),
    Damage::EqualAnd(1),
    Damage::EqualAnd(2),
    Damage::TooMany(None),
    Damage::TooMany(Some(0)),
    Damage::TooMany(Some(1)),
    Damage::TooMany(Some(2)),
    Damage::TooManyEqual,
    Damage::TooManyUnclosed,
    Damage::SecondTick(None),
    Damage::SecondTick(Some(1)),
    Damage::SecondTick(Some(2)),
    Damage::TaskFirst(None),
    Damage::TaskFirst(Some(1)),
    Damage::TaskFirst(Some(2)),
    Damage::ServerLine,
    Damage::Unclosed(None),
    Damage::Unclosed(Some(1)),
    Damage::Unclosed(Some(2)),
    Damage::Empty,
    Damage::TickOnly,
    Damage::NoTick,
    Damage::LongText(MAX_TEXT),
    Damage::LongText(MAX_TEXT + 1),
    Damage::Any,
];

/// A damaged frame table text and the name of the damage, each in its turn.
pub fn damaged(turn: usize, random: &mut Random) -> (Vec<u8>, String) {
    let mut draft = Draft::new(frame::rich(random));
    let tasks = draft.table.tasks.len();
    let row = 1 + random.below(tasks);
    let name = match DAMAGES[turn % DAMAGES.len()] {
        Damage::Tick(number, field) => draft.put(number, 0, field, random),
        Damage::Task(number, field) => draft.put(number, row, field, random),
        Damage::TaskWith(field, number) => {
            draft.set(row, field, number);
            fault_name(2, row, field, &number.to_string())
        }
        Damage::TickLine(ways) => draft.malform(0, ways, None, random),
        Damage::TaskLine(ways) => draft.malform(row, ways, None, random),
        Damage::OneLine(left, right) => draft.put_both(left, right, row, random),
        Damage::TwoLines(upper, lower) => {
            let lower_row = 1 + random.below(tasks);
            let upper_row = random.below(lower_row);
            let upper = draft.put_any(upper, upper_row, random);
            let lower = draft.put_any(lower, lower_row, random);
            format!("pair-two-lines-{upper}-and-{lower}")
        }
        Damage::EqualPair => draft.equal_pair(random),
        Damage::EqualMany => draft.equal_many(random),
        Damage::EqualAnd(number) => {
            let equal =
                if random.chance(50) { draft.equal_pair(random) } else { draft.equal_many(random) };
            let fault = draft.put_any(number, random.below(1 + tasks), random);
            format!("pair-two-lines-{equal}-and-{fault}")
        }
        Damage::TooMany(number) => {
            let row = draft.fill(random);
            let how = draft.alone_or_with(number, row, random);
            format!("2-65th-task-{how}")
        }
        Damage::TooManyEqual => {
            draft.fill(random);
            format!("2-65th-task-and-{}", draft.equal_pair(random))
        }
        Damage::TooManyUnclosed => {
            let row = draft.fill(random);
            return (unclosed(&draft.lines[..=row]), "1-unclosed-65th-task".to_string());
        }
        Damage::SecondTick(number) => {
            let line = draft.lines[0].clone();
            let how = draft.alone_or_with(number, 0, random);
            let misplaced = std::mem::replace(&mut draft.lines[0], line);
            draft.lines.insert(row, misplaced);
            format!("1-misplaced-second-tick-{how}")
        }
        Damage::TaskFirst(number) => {
            let line = draft.lines[row].clone();
            let how = draft.alone_or_with(number, row, random);
            let misplaced = std::mem::replace(&mut draft.lines[row], line);
            draft.lines.insert(0, misplaced);
            format!("1-misplaced-task-before-tick-{how}")
        }
        Damage::ServerLine => draft.server_line(row, random),
        Damage::Unclosed(number) => {
            let row = random.below(1 + tasks);
            let how = draft.alone_or_with(number, row, random);
            return (unclosed(&draft.lines[..=row]), format!("1-unclosed-{how}"));
        }
        Damage::Empty => return (Vec::new(), "1-text-empty".to_string()),
        Damage::TickOnly => {
            draft.lines.truncate(1);
            "1-tick-only".to_string()
        }
        Damage::NoTick => {
            draft.lines.remove(0);
            "1-no-tick".to_string()
        }
        Damage::LongText(length) => return long_text(&draft.lines, length, random),
        Damage::Any => return any_damage(draft.lines, random),
    };
    (text_of(&draft.lines), name)
}

/// The text of lines, the last one unclosed.
fn unclosed(lines: &[Line]) -> Vec<u8> {
    let mut text = text_of(lines);
    text.pop();
    text
}

/// A table and its lines, which take the faults. Line 0 is the tick line.
struct Draft {
    table: FrameTable,
    lines: Vec<Line>,
}

impl Draft {
    fn new(table: FrameTable) -> Draft {
        let lines = table.lines();
        Draft { table, lines }
    }

    fn set(&mut self, row: usize, field: usize, number: u64) {
        self.lines[row][field] = number.to_string().into_bytes();
    }

    /// Puts a fault of the number at a field of a line and gives its name.
    fn put(&mut self, number: u8, row: usize, field: usize, random: &mut Random) -> String {
        let how = match number {
            1 => malform_number(&mut self.lines[row][field], random),
            _ => self.out_of_bounds(row, field, random),
        };
        fault_name(number, row, field, how)
    }

    /// The same at any field of the line, or with 0 at the line itself.
    fn put_any(&mut self, number: u8, row: usize, random: &mut Random) -> String {
        if number == 0 {
            return self.malform(row, &[], None, random);
        }
        let field = 1 + random.below(self.lines[row].len() - 1);
        self.put(number, row, field, random)
    }

    /// 1 as 0: a line malformed in one of the ways, or in any if none is given. One
    /// field may be kept.
    fn malform(
        &mut self,
        row: usize,
        ways: &[&str],
        keep: Option<usize>,
        random: &mut Random,
    ) -> String {
        let good = self.lines[row].clone();
        loop {
            let how = malform_line(&mut self.lines[row], keep, random);
            if ways.is_empty() || ways.contains(&how) {
                return fault_name(1, row, 0, how);
            }
            self.lines[row] = good.clone();
        }
    }

    /// Two faults at different fields of a task line; the left one may be the line
    /// itself.
    fn put_both(&mut self, left: u8, right: u8, row: usize, random: &mut Random) -> String {
        let (left, right) = if left == 0 {
            let field = 1 + random.below(3);
            let right = self.put(right, row, field, random);
            (self.malform(row, &[], Some(field), random), right)
        } else {
            let (one, other) = random.pick(&[(1, 2), (1, 3), (2, 3)]);
            (self.put(left, row, one, random), self.put(right, row, other, random))
        };
        format!("pair-one-line-{left}-and-{right}")
    }

    fn alone_or_with(&mut self, number: Option<u8>, row: usize, random: &mut Random) -> String {
        match number {
            None => "alone".to_string(),
            Some(number) => format!("and-{}", self.put_any(number, row, random)),
        }
    }

    /// 2: a number beyond its bounds.
    fn out_of_bounds(&mut self, row: usize, field: usize, random: &mut Random) -> &'static str {
        let tick = self.table.tick;
        let wrapped = random.pick(&[1 << 8, 1 << 16, 1 << 32]);
        if row == 0 {
            let beyond = [0, MAX_TICK + 1, 65_536 + tick, (1 << 32) + tick, ELEVEN_DIGITS];
            self.set(row, 1, random.pick(&beyond));
            return "length";
        }
        let FrameTask { partition, priority, time } = self.table.tasks[row - 1].clone();
        let longest = MAX_LIMIT * tick;
        let (beyond, how): (&[u64], _) = match field {
            1 => (&[3, 3, 3, 4, 15, wrapped + partition, ELEVEN_DIGITS], "partition"),
            2 => (&[0, 256, wrapped + priority, ELEVEN_DIGITS], "priority"),
            _ if random.chance(33) => (&[0], "time-0"),
            _ => {
                let great = time + (tick << 32).min(90_000_000_000);
                (&[longest + 1, longest + 1, longest + tick, great, ELEVEN_DIGITS], "time-long")
            }
        };
        self.set(row, field, random.pick(beyond));
        how
    }

    /// 5: two tasks of equal priority.
    fn equal_pair(&mut self, random: &mut Random) -> String {
        let mut rows: Vec<usize> = (1..=self.table.tasks.len()).collect();
        random.shuffle(&mut rows);
        let priority = self.table.tasks[rows[0] - 1].priority;
        self.set(rows[1], 2, priority);
        "5-task-pair".to_string()
    }

    /// 5: few priorities for many tasks, so that pairs nest and cross. The first
    /// task has one of its own.
    fn equal_many(&mut self, random: &mut Random) -> String {
        let few = random.within(1, 2);
        for row in 1..=self.table.tasks.len() {
            self.set(row, 2, random.within(1, few));
        }
        self.set(1, 2, 200);
        "5-task-many".to_string()
    }

    /// Fills the table with tasks to one or some more than it can have; gives the
    /// line of the 65th.
    fn fill(&mut self, random: &mut Random) -> usize {
        let more = random.within(1, 3) as usize;
        for (row, task) in self.table.tasks.iter_mut().enumerate() {
            task.priority = 1 + row as u64;
        }
        while self.table.tasks.len() < MAX_TASKS + more {
            let mut task = self.table.tasks[random.below(self.table.tasks.len())].clone();
            task.priority = 1 + self.table.tasks.len() as u64;
            self.table.tasks.push(task);
        }
        self.lines = self.table.lines();
        MAX_TASKS + 1
    }

    /// 1: a server line, as other tables have it, or a task's with that word.
    fn server_line(&mut self, row: usize, random: &mut Random) -> String {
        let server = b"server\t0\ttimed\t1\t10000\t0\t0\t0";
        let line: Line = server.split(|&byte| byte == b'\t').map(<[u8]>::to_vec).collect();
        if random.chance(50) {
            self.lines.insert(row, line);
            "1-server-line".to_string()
        } else {
            self.lines[row][0] = line[0].clone();
            "1-server-word".to_string()
        }
    }
}

fn fault_name(number: u8, row: usize, field: usize, how: &str) -> String {
    let word = if row == 0 { "tick" } else { "task" };
    format!("{number}-{word}-{field}-{how}")
}

/// A text of just the length bound or one byte more.
fn long_text(lines: &[Line], length: usize, random: &mut Random) -> (Vec<u8>, String) {
    let mut text = text_of(lines);
    let name = match random.below(4) {
        0 => {
            // A long last line after a good table.
            text.resize(length - 1, b'x');
            text.push(b'\n');
            "long-last-line"
        }
        1 => {
            text.resize(length, b'7');
            "long-unclosed-line"
        }
        2 => {
            let tasks = text_of(&lines[1..]);
            while text.len() < length {
                text.extend_from_slice(&tasks);
            }
            text.truncate(length - 1);
            text.push(b'\n');
            "tasks"
        }
        _ => {
            text = vec![b'\n'; length];
            "line-feeds"
        }
    };
    (text, format!("2-text-of-{length}-{name}"))
}

/// A damage that may bring any number or none.
fn any_damage(mut lines: Vec<Line>, random: &mut Random) -> (Vec<u8>, String) {
    let mut text = text_of(&lines);
    let name = match random.below(6) {
        0 | 1 => {
            let at = random.below(text.len());
            text[at] = random.pick(b"\t\n\r\0 0123456789-acikstT\xff");
            "byte-changed"
        }
        2 => {
            text.truncate(random.below(text.len()));
            "text-broken-off"
        }
        3 => {
            text = [&text[..], &text[..]].concat();
            "table-twice"
        }
        4 => {
            for line in &mut lines {
                line.last_mut().expect("a line has fields").push(b'\r');
            }
            text = text_of(&lines);
            "carriage-returns"
        }
        _ => {
            lines.remove(random.below(lines.len()));
            text = text_of(&lines);
            "line-removed"
        }
    };
    (text, format!("any-{name}"))
}
