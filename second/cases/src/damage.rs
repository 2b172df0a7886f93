//! Damaged tables. Every way has a name that begins with the number of the
//! refusal it is after, `pair` for two of them, or `any` for a damage that may
//! bring any number or none. A fault of one line is named by its number, the
//! leading word of the line, the field it is after (0 for the line itself) and
//! what is wrong. What a program must answer is left to the programs.

use crate::random::Random;
use crate::table::{self, text_of, Line, Table, MAX_LIMIT, MAX_PERIOD, MAX_TICK};

/// The most bytes a table text may have.
pub const MAX_TEXT: usize = 16_384;
pub const ELEVEN_DIGITS: u64 = 99_999_999_999;

/// A damaged table text and the name of the damage.
pub fn damaged(random: &mut Random) -> (Vec<u8>, String) {
    match random.below(40) {
        0..=13 => one_fault(random),
        14..=23 => two_on_one_line(random),
        24..=27 => two_faults(random),
        28..=32 => too_many_rows(random),
        _ => wrong_text(random),
    }
}

#[derive(Clone, Copy, PartialEq, Eq)]
pub enum Place {
    Tick,
    Server(usize),
    Task(usize),
}

impl Place {
    fn word(self) -> &'static str {
        match self {
            Place::Tick => "tick",
            Place::Server(_) => "server",
            Place::Task(_) => "task",
        }
    }

    /// The field that holds a word.
    fn word_field(self) -> Option<usize> {
        match self {
            Place::Tick => None,
            Place::Server(_) => Some(2),
            Place::Task(_) => Some(4),
        }
    }

    /// The fields that a fault of the number can be after, but for the phase.
    pub fn fields_for(self, number: u8) -> &'static [usize] {
        match (self, number) {
            (Place::Tick, 1) => &[0, 0, 1],
            (Place::Tick, 2) => &[1],
            (_, 1) => &[0, 1, 2, 3, 4, 5, 6, 7],
            (Place::Server(_), 2) => &[1, 3, 4, 5, 6, 7],
            (Place::Server(_), 3) => &[4, 5, 6, 7],
            (Place::Task(_), 2) => &[3, 5, 6, 7],
            (Place::Task(_), 41) => &[1, 2],
            (Place::Task(_), 42..=44) => &[2],
            (Place::Task(_), 45) => &[6, 7],
            _ => &[],
        }
    }
}

/// The numbers of the last group, all of them about task lines. Those with more
/// fields or more cases come more often.
const LAST_NUMBERS: [u8; 11] = [41, 41, 42, 42, 42, 43, 43, 44, 45, 45, 45];
/// These stand for any of the last group, and for 1 of the line itself.
const LAST: u8 = u8::MAX;
const LINE: u8 = 0;

/// A fault of a line: the number it is after, and the field.
#[derive(Clone, Copy, PartialEq, Eq)]
pub struct Fault {
    pub number: u8,
    pub field: usize,
}

/// A table and its lines, which take the faults.
pub struct Draft {
    pub table: Table,
    pub lines: Vec<Line>,
}

impl Draft {
    pub fn new(table: Table) -> Draft {
        let lines = table.lines();
        Draft { table, lines }
    }

    /// The number of the line, counted from 0.
    pub fn index(&self, place: Place) -> usize {
        match place {
            Place::Tick => 0,
            Place::Server(row) => 1 + row,
            Place::Task(row) => 1 + self.table.servers.len() + row,
        }
    }

    pub fn line(&mut self, place: Place) -> &mut Line {
        let index = self.index(place);
        &mut self.lines[index]
    }

    fn set(&mut self, place: Place, field: usize, number: u64) {
        self.line(place)[field] = number.to_string().into_bytes();
    }

    fn any_server(&self, random: &mut Random) -> Place {
        Place::Server(random.below(self.table.servers.len()))
    }

    fn any_task(&self, random: &mut Random) -> Place {
        Place::Task(random.below(self.table.tasks.len()))
    }

    pub fn any_place(&self, random: &mut Random) -> Place {
        match random.below(16) {
            0..=2 => Place::Tick,
            3..=9 => self.any_server(random),
            _ => self.any_task(random),
        }
    }

    /// A place that can have a fault of the number.
    fn place_for(&self, number: u8, random: &mut Random) -> Place {
        match number {
            1 | 2 => self.any_place(random),
            3 => self.any_server(random),
            _ => self.any_task(random),
        }
    }

    /// A number that a fault of the line can have.
    pub fn number_for(&self, place: Place, random: &mut Random) -> u8 {
        match place {
            Place::Tick => random.pick(&[1, 1, 2]),
            Place::Server(_) => random.pick(&[1, 1, 2, 2, 3]),
            Place::Task(_) => {
                let last = random.pick(&LAST_NUMBERS);
                random.pick(&[1, 1, 2, 2, last])
            }
        }
    }

    /// Puts a fault of the number at the place, at any of its fields.
    pub fn put_any(&mut self, number: u8, place: Place, random: &mut Random) -> String {
        let field = random.pick(place.fields_for(number));
        self.put(Fault { number, field }, place, random)
    }

    /// Puts a fault at the place and gives its name.
    pub fn put(&mut self, fault: Fault, place: Place, random: &mut Random) -> String {
        let Fault { number, field } = fault;
        let how = match (number, field) {
            (1, 0) => malform_line(self.line(place), None, random),
            (1, _) => self.malform_field(place, field, random),
            (2, _) => self.out_of_bounds(place, field, random),
            (3, _) => self.not_whole(place, field, random),
            (41, _) => self.absent_row(place, field, random),
            (42..=44, _) => self.wrong_degraded(place, number, random),
            _ => self.falling(place, field, random),
        };
        fault_name(fault, place, how)
    }

    /// Puts two faults of different fields at the place, given from left to
    /// right. Each leaves the other in place where it can.
    pub fn put_both(
        &mut self,
        faults: [Fault; 2],
        place: Place,
        random: &mut Random,
    ) -> [String; 2] {
        let [left, right] = faults;
        if left.number == 45 && right.number == 45 {
            self.fall_twice(place);
            return faults.map(|fault| fault_name(fault, place, "twice"));
        }
        if left.field == 0 {
            let right_name = self.put(right, place, random);
            let how = malform_line(self.line(place), Some(right.field), random);
            return [fault_name(left, place, how), right_name];
        }
        // The greater numbers change several fields, a malformed field is not
        // looked at again.
        if left.number >= right.number {
            let left_name = self.put(left, place, random);
            [left_name, self.put(right, place, random)]
        } else {
            let right_name = self.put(right, place, random);
            [self.put(left, place, random), right_name]
        }
    }

    /// 1: a field loses its form.
    fn malform_field(&mut self, place: Place, field: usize, random: &mut Random) -> &'static str {
        if place.word_field() == Some(field) {
            return self.unknown_word(place, field, random);
        }
        malform_number(&mut self.line(place)[field], random)
    }

    fn unknown_word(&mut self, place: Place, field: usize, random: &mut Random) -> &'static str {
        let kinds: [&[u8]; 8] =
            [b"", b"Event", b"TIMED", b"periodic", b"tim", b"eventt", b"event ", b"LO"];
        let levels: [&[u8]; 8] = [b"", b"lo", b"Mi", b"HIGH", b"H", b"LO ", b"0", b"timed"];
        let words = if matches!(place, Place::Server(_)) { kinds } else { levels };
        self.line(place)[field] = random.pick(&words).to_vec();
        "unknown-word"
    }

    /// 2: a number beyond its bounds.
    fn out_of_bounds(&mut self, place: Place, field: usize, random: &mut Random) -> &'static str {
        let tick = self.table.tick;
        let wrapped = random.pick(&[1 << 8, 1 << 16, 1 << 32]);
        match (place, field) {
            (Place::Tick, _) => {
                let beyond = [0, MAX_TICK + 1, 65_536 + tick, (1 << 32) + tick, ELEVEN_DIGITS];
                self.set(place, 1, random.pick(&beyond));
                "length"
            }
            (Place::Server(row), 1) => {
                let partition = self.table.servers[row].partition;
                let beyond = [16, 17, 255, wrapped + partition, ELEVEN_DIGITS];
                self.set(place, 1, random.pick(&beyond));
                "partition"
            }
            (Place::Server(row), 3) => {
                let priority = self.table.servers[row].priority;
                self.set(place, 3, random.pick(&[0, 256, wrapped + priority, ELEVEN_DIGITS]));
                "priority"
            }
            (Place::Server(row), 4) if random.chance(40) => {
                if random.chance(60) {
                    // So that no capacity lies above the period, but for those
                    // that have a fault already.
                    let own = self.table.lines()[1 + row].clone();
                    for field in 5..=7 {
                        if self.line(place)[field] == own[field] {
                            self.set(place, field, 0);
                        }
                    }
                }
                self.set(place, 4, random.pick(&[0, tick - 1]));
                "period-short"
            }
            (Place::Server(_), 4) => {
                let longest = MAX_PERIOD * tick;
                let (least, most) = (longest + 1, longest + tick - 1);
                let beyond = [least, least, least, most, most, most, longest + tick, ELEVEN_DIGITS];
                self.set(place, 4, random.pick(&beyond));
                "period-long"
            }
            (Place::Server(row), 8) => self.phase_above(place, row, random),
            (Place::Server(row), _) => {
                // Above the period that is written there.
                let period = self.written_period(place, row);
                let beyond = [period + 1, period + tick - 1, period + tick, period + (1 << 32)];
                let beyond = random.pick(&beyond).min(ELEVEN_DIGITS);
                self.set(place, field, random.pick(&[beyond, beyond, beyond, ELEVEN_DIGITS]));
                "capacity"
            }
            (Place::Task(row), 3) => {
                let priority = self.table.tasks[row].priority;
                self.set(place, 3, random.pick(&[0, 256, wrapped + priority, ELEVEN_DIGITS]));
                "priority"
            }
            (Place::Task(_), _) if random.chance(33) => {
                self.set(place, field, 0);
                "time-0"
            }
            (Place::Task(row), _) => {
                let longest = MAX_LIMIT * tick;
                let beyond = [
                    longest + 1,
                    longest + 1,
                    longest + tick,
                    self.table.tasks[row].time[field - 5] + (tick << 32).min(90_000_000_000),
                    ELEVEN_DIGITS,
                ];
                self.set(place, field, random.pick(&beyond));
                "time-long"
            }
        }
    }

    /// The period that is written there, in microseconds; if it is malformed, that of
    /// the table.
    fn written_period(&mut self, place: Place, row: usize) -> u64 {
        let written = String::from_utf8_lossy(&self.line(place)[4]).parse();
        written.unwrap_or(self.table.servers[row].period * self.table.tick)
    }

    /// 2: a phase above the period that is written there less one tick.
    fn phase_above(&mut self, place: Place, row: usize, random: &mut Random) -> &'static str {
        let tick = self.table.tick;
        let period = self.written_period(place, row);
        let least = period.saturating_sub(tick) + 1;
        let own = self.table.servers[row].phase.unwrap_or(0) * tick;
        let (phase, how) = match random.below(8) {
            0 | 1 => (least, "phase-above-by-1"),
            2 | 3 => (period, "phase-period"),
            4 => (period.max(least + 1) - 1, "phase-period-less-1"),
            5 => (period + random.pick(&[1, tick - 1, tick]), "phase-above-period"),
            6 => (random.pick(&[1 << 32, 1 << 35]) + own, "phase-round-32-bits"),
            _ => (ELEVEN_DIGITS, "phase-11-digits"),
        };
        self.set(place, 8, phase.max(least).min(ELEVEN_DIGITS));
        how
    }

    /// 3: a phase that is not whole ticks, and not above the period that is written
    /// there less one tick. The period is 2 ticks or more.
    fn phase_part(&mut self, place: Place, row: usize, random: &mut Random) -> &'static str {
        let tick = self.table.tick;
        let period = self.written_period(place, row);
        if period > tick && period % tick > 0 && random.chance(50) {
            self.set(place, 8, period - tick);
            return "phase-at-the-bound";
        }
        let most = (period / tick).saturating_sub(1).max(1);
        let any_part = random.within(1, tick - 1);
        let part = random.pick(&[1, any_part, tick - 1]);
        let ticks = random.pick(&[1, most, most]);
        self.set(place, 8, ticks * tick - part);
        "phase-part"
    }

    /// 3: a period, capacity or phase that is not whole ticks. The tick is 2 or more.
    fn not_whole(&mut self, place: Place, field: usize, random: &mut Random) -> &'static str {
        let Place::Server(row) = place else { return "nowhere" };
        let tick = self.table.tick;
        let server = self.table.servers[row].clone();
        let any_part = random.within(1, tick - 1);
        let part = random.pick(&[1, any_part, tick - 1]);
        if field == 4 {
            self.set(place, 4, server.period * tick + part);
            return "period";
        }
        if field == 8 {
            return self.phase_part(place, row, random);
        }
        let capacity = server.capacity[field - 5];
        if capacity < server.period && random.chance(50) {
            self.set(place, field, capacity * tick + part);
            "capacity-above"
        } else if capacity > 0 {
            self.set(place, field, capacity * tick - part);
            "capacity-below"
        } else {
            self.set(place, field, part);
            "capacity-part"
        }
    }

    /// 41: an absent server row; with the home the degraded server may be
    /// absent too.
    fn absent_row(&mut self, place: Place, field: usize, random: &mut Random) -> &'static str {
        let Place::Task(row) = place else { return "nowhere" };
        let count = self.table.servers.len() as u64;
        let task = self.table.tasks[row].clone();
        let absent = |own: usize, random: &mut Random| {
            let own = own as u64;
            random.pick(&[
                count,
                count,
                count + 1,
                32,
                255,
                256 + own,
                256 + own,
                65_536 + own,
                (1 << 32) + own,
                (1 << 36) + own,
                ELEVEN_DIGITS,
            ])
        };
        if field == 2 {
            self.set(place, 2, absent(task.degraded, random));
            return "degraded-absent";
        }
        self.set(place, 1, absent(task.home, random));
        if random.chance(50) {
            self.set(place, 2, absent(task.degraded, random));
            return "both-absent";
        }
        "home-absent"
    }

    /// 42, 43 or 44: a wrong degraded server. Of another partition it may also
    /// be no timed one, or another than the timed home, or both; not being timed
    /// it may also be another than the timed home.
    fn wrong_degraded(&mut self, place: Place, number: u8, random: &mut Random) -> &'static str {
        let elsewhere = number == 42;
        let (home_timed, timed, how) = match (number, random.below(4)) {
            (42, 0) => (false, true, "elsewhere"),
            (42, 1) => (false, false, "elsewhere-event"),
            (42, 2) => (true, true, "elsewhere-not-home"),
            (42, _) => (true, false, "elsewhere-event-not-home"),
            (43, 0 | 1) => (false, false, "event"),
            (43, _) => (true, false, "event-not-home"),
            _ => (true, true, "not-home"),
        };
        // A rich table has such rows.
        let servers = &self.table.servers;
        let mut pairs = Vec::new();
        for (home, home_server) in servers.iter().enumerate() {
            for (degraded, server) in servers.iter().enumerate() {
                let fits = home_server.timed == home_timed
                    && server.timed == timed
                    && (server.partition != home_server.partition) == elsewhere
                    && !(timed && degraded == home);
                if fits {
                    pairs.push((home, degraded));
                }
            }
        }
        let (home, degraded) = random.pick(&pairs);
        self.set(place, 1, home as u64);
        self.set(place, 2, degraded as u64);
        how
    }

    /// 45: falling limits, told at the field.
    fn falling(&mut self, place: Place, field: usize, random: &mut Random) -> &'static str {
        let tick = self.table.tick;
        let limit = random.pick(&[2, 3, 4, 5, 6, MAX_LIMIT]);
        let below = (limit - 1) * tick;
        let above = below + random.within(1, tick);
        let (times, how) = match (field, random.below(5)) {
            (6, 0 | 1) => {
                self.fall_twice(place);
                return "twice";
            }
            (6, _) => {
                let last = random.pick(&[below, limit * tick]);
                ([above, below - random.within(0, tick - 1), last], "n-d1")
            }
            (_, 0 | 1) => {
                // N above D1 in microseconds, but not in ticks.
                ([limit * tick, below + random.within(1, tick - 1), below], "d1-d2-rounded")
            }
            (_, 2) => ([limit * tick, above, below], "d1-d2-below-n"),
            _ => ([random.pick(&[1, below]), above, below], "d1-d2"),
        };
        for (field, time) in (5..=7).zip(times) {
            self.set(place, field, time);
        }
        how
    }

    fn fall_twice(&mut self, place: Place) {
        let tick = self.table.tick;
        for (field, ticks) in [(5, 3), (6, 2), (7, 1)] {
            self.set(place, field, ticks * tick);
        }
    }

    /// 5: equal priorities.
    pub fn equal_priorities(&mut self, random: &mut Random) -> String {
        let servers = self.table.servers.len();
        let tasks = self.table.tasks.len();
        let name = match random.below(5) {
            0 => {
                self.equal_pair(Place::Server, servers, random);
                "server-pair"
            }
            1 => {
                self.equal_pair(Place::Task, tasks, random);
                "task-pair"
            }
            2 => {
                self.equal_many(Place::Server, servers, random);
                "server-many"
            }
            3 => {
                self.equal_many(Place::Task, tasks, random);
                "task-many"
            }
            _ => {
                self.equal_pair(Place::Server, servers, random);
                self.equal_pair(Place::Task, tasks, random);
                "server-and-task"
            }
        };
        format!("5-{name}")
    }

    fn equal_pair(&mut self, place: fn(usize) -> Place, rows: usize, random: &mut Random) {
        let mut pair: Vec<usize> = (0..rows).collect();
        random.shuffle(&mut pair);
        let priority = self.line(place(pair[0]))[3].clone();
        self.line(place(pair[1]))[3] = priority;
    }

    /// Few priorities for many rows: several pairs, which nest and cross.
    fn equal_many(&mut self, place: fn(usize) -> Place, rows: usize, random: &mut Random) {
        let few = random.within(2, 4);
        for row in 0..rows {
            self.set(place(row), 3, random.within(1, few));
        }
        let unlike = random.below(rows);
        self.set(place(unlike), 3, 200);
        if rows > 1 {
            let row = (unlike + 1) % rows;
            let other = (unlike + rows - 1) % rows;
            self.set(place(row), 3, 100);
            self.set(place(other), 3, 100);
        }
    }
}

/// 1 as 0: the line loses its leading word or has another count of fields,
/// one field being kept.
pub fn malform_line(line: &mut Line, keep: Option<usize>, random: &mut Random) -> &'static str {
    let how = malform_once(line, keep, random);
    // A server line may have 7 fields or 8.
    if line.first().is_some_and(|word| word == b"server") {
        if line.len() == 1 + 8 {
            line.insert(8, b"0".to_vec());
        } else if line.len() == 1 + 7 {
            line.remove(1);
        }
    }
    how
}

fn malform_once(line: &mut Line, keep: Option<usize>, random: &mut Random) -> &'static str {
    let fields = line.len() - 1;
    match random.below(9) {
        0 | 1 => {
            // Any field but the one kept.
            let others: Vec<usize> = (1..=fields).filter(|&field| Some(field) != keep).collect();
            line.remove(if others.is_empty() { fields } else { random.pick(&others) });
            "field-missing"
        }
        2 => {
            let kept = keep.unwrap_or(0).min(fields - 1) as u64;
            line.truncate(random.within(1 + kept, fields as u64) as usize);
            "fields-missing"
        }
        3 => {
            line.insert(random.within(1, fields as u64) as usize, b"1".to_vec());
            "field-more"
        }
        4 => {
            line.push(Vec::new());
            "tab-at-end"
        }
        5 => {
            let more = random.within(1, 12) as usize;
            line.extend(vec![b"0".to_vec(); more]);
            "fields-more"
        }
        6 => {
            line.insert(0, Vec::new());
            "tab-at-start"
        }
        7 if keep.is_none() => {
            *line = Vec::new();
            "line-empty"
        }
        _ => {
            let words: [&[u8]; 11] = [
                b"",
                b"Tick",
                b"SERVER",
                b"tasks",
                b"servers",
                b"tas",
                b"tick ",
                b" server",
                b"\xef\xbb\xbftick",
                b"#",
                b"job",
            ];
            line[0] = random.pick(&words).to_vec();
            "first-word"
        }
    }
}

/// 1: a number loses its form.
pub fn malform_number(field: &mut Vec<u8>, random: &mut Random) -> &'static str {
    let own = field.clone();
    let with_prefix = |prefix: &[u8]| [prefix, &own].concat();
    let with_suffix = |suffix: &[u8]| [&own, suffix].concat();
    let (text, how) = match random.below(18) {
        0 => (Vec::new(), "number-empty"),
        1 => (with_prefix(b"0"), "leading-zero"),
        2 => (b"00".to_vec(), "two-zeros"),
        3 => (with_prefix(b"+"), "plus"),
        4 => (with_prefix(b"-"), "minus"),
        5 => (with_prefix(b" "), "space-before"),
        6 => (with_suffix(b" "), "space-after"),
        7 => (with_suffix(b"\r"), "carriage-return"),
        8 => (with_suffix(b"\0"), "nul"),
        9 => (random.pick(&[b"100000000000", b"999999999999"]).to_vec(), "12-digits"),
        10 => {
            let zeros = 12 - own.len().min(11);
            (with_prefix(&vec![b'0'; zeros]), "zeros-to-12-digits")
        }
        11 => (with_suffix(&random.pick(&[*b"a", *b"x", *b"_", *b".", *b","])), "letter"),
        12 => (with_suffix(b".0"), "point"),
        13 => (with_suffix("\u{0663}".as_bytes()), "other-digit"),
        14 => (with_prefix(b"\xff"), "byte-ff"),
        15 => (vec![b'7'; random.within(13, 400) as usize], "many-digits"),
        16 => {
            let value: u128 = String::from_utf8_lossy(&own).parse().unwrap_or(1);
            ((value + (1 << 64)).to_string().into_bytes(), "round-64-bits")
        }
        _ => {
            let texts: [&[u8]; 4] = [b"/", b":", b"0x1", b"1e3"];
            (random.pick(&texts).to_vec(), "not-a-digit")
        }
    };
    *field = text;
    how
}

fn fault_name(fault: Fault, place: Place, how: &str) -> String {
    format!("{}-{}-{}-{how}", fault.number, place.word(), fault.field)
}

fn one_fault(random: &mut Random) -> (Vec<u8>, String) {
    let mut draft = Draft::new(table::rich(random));
    let last = random.pick(&LAST_NUMBERS);
    let number = match random.below(42) {
        0..=8 => 1,
        9..=16 => 2,
        17..=20 => 3,
        21..=33 => last,
        34 | 35 => {
            let place = draft.any_server(random);
            let name = draft.put(Fault { number: 2, field: 4 }, place, random);
            return (text_of(&draft.lines), name);
        }
        _ => {
            let name = draft.equal_priorities(random);
            return (text_of(&draft.lines), name);
        }
    };
    let place = draft.place_for(number, random);
    let name = draft.put_any(number, place, random);
    (text_of(&draft.lines), name)
}

/// Two faults at different fields of one line, of one number or of two, the
/// smaller number left or right. The name has them from left to right.
fn two_on_one_line(random: &mut Random) -> (Vec<u8>, String) {
    let mut draft = Draft::new(table::rich(random));
    let (place, left, right) = match random.below(16) {
        0 => (Place::Tick, LINE, random.pick(&[1, 2])),
        1..=7 => (draft.any_server(random), random.pick(&[LINE, 1, 2, 3]), random.pick(&[1, 2, 3])),
        _ => (draft.any_task(random), random.pick(&[LINE, 1, 2, LAST]), random.pick(&[1, 2, LAST])),
    };
    let draw = |number: u8, random: &mut Random| {
        if number == LINE {
            return Fault { number: 1, field: 0 };
        }
        let number = if number == LAST { random.pick(&LAST_NUMBERS) } else { number };
        Fault { number, field: random.pick(place.fields_for(number)) }
    };
    let faults = loop {
        let faults = [draw(left, random), draw(right, random)];
        if faults[0].field < faults[1].field {
            break faults;
        }
    };
    let [left, right] = draft.put_both(faults, place, random);
    (text_of(&draft.lines), format!("pair-one-line-{left}-and-{right}"))
}

/// Faults on two lines, the upper first, or equal priorities and a fault of a
/// line.
fn two_faults(random: &mut Random) -> (Vec<u8>, String) {
    let mut draft = Draft::new(table::rich(random));
    let last = random.pick(&LAST_NUMBERS);
    if random.chance(30) {
        let number = random.pick(&[1, 2, 3, last]);
        let place = draft.place_for(number, random);
        let first = draft.equal_priorities(random);
        let second = draft.put_any(number, place, random);
        return (text_of(&draft.lines), format!("pair-two-lines-{first}-and-{second}"));
    }
    let (upper, lower) = loop {
        let (upper, lower) = (draft.any_place(random), draft.any_place(random));
        if draft.index(upper) < draft.index(lower) {
            break (upper, lower);
        }
    };
    let first_number = draft.number_for(upper, random);
    let second_number = draft.number_for(lower, random);
    let first = draft.put_any(first_number, upper, random);
    let second = draft.put_any(second_number, lower, random);
    (text_of(&draft.lines), format!("pair-two-lines-{first}-and-{second}"))
}

/// A 33rd server or a 65th task, sound in itself or not.
fn too_many_rows(random: &mut Random) -> (Vec<u8>, String) {
    let mut table = table::rich(random);
    let more = random.within(1, 3) as usize;
    let servers_full = random.chance(50);
    let place = if servers_full {
        while table.servers.len() < table::MAX_SERVERS + more {
            let mut server = table.servers[random.below(table.servers.len())].clone();
            server.priority = 256 - table.servers.len() as u64;
            table.servers.push(server);
        }
        Place::Server(table::MAX_SERVERS)
    } else {
        while table.tasks.len() < table::MAX_TASKS + more {
            let mut task = table.tasks[random.below(table.tasks.len())].clone();
            task.priority = 256 - table.tasks.len() as u64;
            table.tasks.push(task);
        }
        Place::Task(table::MAX_TASKS)
    };
    let mut draft = Draft::new(table);
    let what = if servers_full { "33rd-server" } else { "65th-task" };
    let last = if servers_full { 3 } else { random.pick(&LAST_NUMBERS) };
    let name = match random.below(10) {
        0 => "alone".to_string(),
        1 | 2 => format!("and-{}", draft.put_any(1, place, random)),
        3 | 4 => format!("and-{}", draft.put_any(2, place, random)),
        5 | 6 => format!("and-{}", draft.put_any(last, place, random)),
        7 => format!("and-{}", draft.equal_priorities(random)),
        _ => {
            let place = draft.any_place(random);
            let number = draft.number_for(place, random);
            format!("with-{}", draft.put_any(number, place, random))
        }
    };
    let mut text = text_of(&draft.lines);
    if random.chance(15) {
        // The line that is one too many is the last, and unclosed.
        text = text_of(&draft.lines[..=draft.index(place)]);
        text.pop();
        return (text, format!("1-unclosed-{what}-{name}"));
    }
    (text, format!("2-{what}-{name}"))
}

/// Lines missing, misplaced or unclosed; texts too long or just not.
fn wrong_text(random: &mut Random) -> (Vec<u8>, String) {
    let mut draft = Draft::new(table::rich(random));
    let servers = draft.table.servers.len();
    let tasks = draft.table.tasks.len();
    let lines = &mut draft.lines;
    let name = match random.below(38) {
        0 => return (Vec::new(), "1-text-empty".to_string()),
        1 => {
            let texts: [&[u8]; 5] = [b"\n", b"\t\n", b"\0", b"tick", b"tick\t1000"];
            return (random.pick(&texts).to_vec(), "1-text-tiny".to_string());
        }
        2 | 3 | 28..=30 => return unclosed(draft, random),
        4 => {
            lines.truncate(1);
            "1-tick-only"
        }
        5 => {
            lines.drain(1..=servers);
            "1-no-servers"
        }
        6 | 27 => {
            lines.truncate(1 + random.within(1, servers as u64) as usize);
            "1-no-tasks"
        }
        7 => {
            lines.remove(0);
            "1-no-tick"
        }
        8 => {
            let at = random.below(lines.len() + 1);
            lines.insert(at, Vec::new());
            "1-blank-line"
        }
        9..=14 => return misplaced(draft, random),
        15 => {
            // Some of these words are right at their place, but the fields are
            // not then.
            let words: [&[u8]; 3] = [b"tick", b"server", b"task"];
            let row = random.below(lines.len());
            let others: Vec<&[u8]> =
                words.into_iter().filter(|&word| word != lines[row][0]).collect();
            lines[row][0] = random.pick(&others).to_vec();
            "1-other-first-word"
        }
        16 => {
            // After the first server it stands well, but the servers below it
            // do not, and it may lack its own.
            let task = lines.remove(servers + 1 + random.below(tasks));
            lines.insert(random.within(1, servers as u64) as usize, task);
            "any-task-before-server"
        }
        17 => {
            let (one, other) = (random.below(lines.len()), random.below(lines.len()));
            lines.swap(one, other);
            "any-lines-swapped"
        }
        18 => {
            lines.remove(random.below(lines.len()));
            "any-line-removed"
        }
        19 => {
            let row = random.below(lines.len());
            let line = lines[row].clone();
            lines.insert(row, line);
            "any-line-doubled"
        }
        20 => {
            for line in lines.iter_mut() {
                line[1..].last_mut().expect("a line has fields").push(b'\r');
            }
            "1-carriage-returns"
        }
        21 => {
            let text = text_of(lines);
            let cut = random.below(text.len());
            return (text[..cut].to_vec(), "any-text-broken-off".to_string());
        }
        22..=24 => {
            let mut text = text_of(lines);
            let at = random.below(text.len());
            text[at] = random.pick(b"\t\n\r\0 0123456789-aeilmnrtvHILMO\xff");
            return (text, "any-byte-changed".to_string());
        }
        25 => {
            let text = text_of(lines);
            return ([&text[..], &text[..]].concat(), "1-table-twice".to_string());
        }
        26 => {
            // 5 against a missing line or an unclosed one.
            draft.equal_priorities(random);
            let mut text = if random.chance(50) {
                text_of(&draft.lines[..=servers])
            } else {
                text_of(&draft.lines)
            };
            if random.chance(70) {
                text.pop();
            }
            return (text, "1-missing-or-unclosed-and-5".to_string());
        }
        _ => return long_text(&draft, random),
    };
    (text_of(lines), name.to_string())
}

/// An unclosed last line, sound in itself or not.
fn unclosed(mut draft: Draft, random: &mut Random) -> (Vec<u8>, String) {
    let place = draft.any_place(random);
    let name = if random.chance(60) {
        let number = if random.chance(40) { 1 } else { draft.number_for(place, random) };
        format!("and-{}", draft.put_any(number, place, random))
    } else {
        "alone".to_string()
    };
    let mut text = text_of(&draft.lines[..=draft.index(place)]);
    text.pop();
    (text, format!("1-unclosed-{name}"))
}

/// A line where another should stand, sound in itself or not.
fn misplaced(mut draft: Draft, random: &mut Random) -> (Vec<u8>, String) {
    let servers = draft.table.servers.len() as u64;
    let tasks = draft.table.tasks.len() as u64;
    let (place, at, what) = match random.below(5) {
        0 => (Place::Tick, random.within(1, servers + tasks + 1), "second-tick"),
        1 | 2 => {
            let at = servers + 1 + random.within(1, tasks);
            (draft.any_server(random), at, "server-after-task")
        }
        3 => (draft.any_server(random), 0, "server-before-tick"),
        _ => (draft.any_task(random), random.within(0, 1), "task-before-servers"),
    };
    let own = draft.line(place).clone();
    let greatest = match place {
        Place::Tick => 2,
        Place::Server(_) => 3,
        Place::Task(_) => random.pick(&LAST_NUMBERS),
    };
    let name = match random.below(10) {
        0 | 1 => "alone".to_string(),
        2..=5 => format!("and-{}", draft.put_any(1, place, random)),
        6 | 7 => format!("and-{}", draft.put_any(2, place, random)),
        _ => format!("and-{}", draft.put_any(greatest, place, random)),
    };
    let line = std::mem::replace(draft.line(place), own);
    draft.lines.insert(at as usize, line);
    (text_of(&draft.lines), format!("1-misplaced-{what}-{name}"))
}

/// Texts about the length bound.
fn long_text(draft: &Draft, random: &mut Random) -> (Vec<u8>, String) {
    let length = random.pick(&[
        MAX_TEXT - 1,
        MAX_TEXT,
        MAX_TEXT,
        MAX_TEXT,
        MAX_TEXT + 1,
        MAX_TEXT + 1,
        MAX_TEXT + 1,
        20_000,
        70_000,
    ]);
    let good = text_of(&draft.lines);
    let mut text = Vec::new();
    let name = match random.below(6) {
        0 => {
            // A long last line after a good table.
            text.extend_from_slice(&good);
            text.resize(length - 1, b'x');
            text.push(b'\n');
            "long-last-line"
        }
        1 => {
            text.extend_from_slice(&good);
            text.resize(length, b'7');
            "long-unclosed-line"
        }
        2 => {
            // A long first line before the rest.
            text.extend_from_slice(b"tick\t1");
            text.resize(length - good.len(), b'0');
            text.push(b'\n');
            text.extend_from_slice(&good);
            text.truncate(length - 1);
            text.push(b'\n');
            "long-first-line"
        }
        3 => {
            // Servers without end, the last line made to measure.
            text.extend_from_slice(&text_of(&draft.lines[..1]));
            let servers = text_of(&draft.lines[1..=draft.table.servers.len()]);
            while text.len() < length {
                text.extend_from_slice(&servers);
            }
            text.truncate(length - 1);
            text.push(b'\n');
            "servers"
        }
        4 => {
            text.extend_from_slice(&good);
            let tasks = text_of(&draft.lines[1 + draft.table.servers.len()..]);
            while text.len() < length {
                text.extend_from_slice(&tasks);
            }
            text.truncate(length - 1);
            text.push(b'\n');
            "tasks"
        }
        _ => {
            text.resize(length, b'\n');
            "line-feeds"
        }
    };
    (text, format!("2-text-of-{length}-{name}"))
}
