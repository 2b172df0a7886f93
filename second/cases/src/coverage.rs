//! What was seen in the answers, counted over all cases.

use std::cmp::Ordering;
use std::collections::BTreeMap;

use crate::damage::MAX_TEXT;
use crate::fit::{self, Page};
use crate::frame::FrameCase;
use crate::frame_seen;
use crate::judged::{self, Judged, LEVELS, MODES};
use crate::phase_seen;

/// The counts that must not be 0, beside those of step 1 and of tables that fit or
/// miss.
const WANTED: [&str; 24] = [
    "table taken",
    "event no 1",
    "release ok",
    "release no 6",
    "release no 7",
    "release no 8",
    "tick no 9",
    "mode N",
    "mode D1",
    "mode D2",
    "run",
    "empty",
    "idle",
    "left done",
    "left cut",
    "left none",
    "discards",
    "rise taken back with discards",
    "rise to D1",
    "rise to D2 from N",
    "rise to D2 from D1",
    "no events",
    "verdict response",
    "verdict misses",
];

/// The refusals of tables that must be told, by number, field and kind of line.
/// A field 0 is told apart by its causes instead, as [`cause_of_1`] has them.
const FIELDS: [(&str, &str, &[usize]); 12] = [
    ("1", "tick", &[1]),
    ("1", "server", &[1, 2, 3, 4, 5, 6, 7, 8]),
    ("1", "task", &[1, 2, 3, 4, 5, 6, 7]),
    ("2", "tick", &[1]),
    ("2", "server", &[1, 3, 4, 5, 6, 7, 8]),
    ("2", "task", &[3, 5, 6, 7]),
    ("3", "server", &[4, 5, 6, 7, 8]),
    ("41", "task", &[1, 2]),
    ("42", "task", &[2]),
    ("43", "task", &[2]),
    ("44", "task", &[2]),
    ("45", "task", &[6, 7]),
];
/// The causes of a field 0, and the kinds of line of 5.
const CAUSES: [&str; 17] = [
    "table no 1 at 0: leading word",
    "table no 1 at 0: too few fields of a tick line",
    "table no 1 at 0: too few fields of a server line",
    "table no 1 at 0: too few fields of a task line",
    "table no 1 at 0: too many fields of a tick line",
    "table no 1 at 0: too many fields of a server line",
    "table no 1 at 0: too many fields of a task line",
    "table no 1 at 0: misplaced tick line",
    "table no 1 at 0: misplaced server line",
    "table no 1 at 0: misplaced task line",
    "table no 1 at 0: missing line",
    "table no 1 at 0: unclosed line",
    "table no 2 at 0: text too long",
    "table no 2 at 0: server row too many",
    "table no 2 at 0: task row too many",
    "table no 5 of server lines",
    "table no 5 of task lines",
];

/// The damages with two faults that must be made, as [`made`] has them. A 0
/// on the left stands for the line itself.
const MADE: [&str; 40] = [
    "made: on one line, 0 left of 1",
    "made: on one line, 0 left of 2",
    "made: on one line, 0 left of 3",
    "made: on one line, 0 left of 41 to 45",
    "made: on one line, 1 left of 1",
    "made: on one line, 1 left of 2",
    "made: on one line, 1 left of 3",
    "made: on one line, 1 left of 41 to 45",
    "made: on one line, 2 left of 1",
    "made: on one line, 2 left of 2",
    "made: on one line, 2 left of 3",
    "made: on one line, 2 left of 41 to 45",
    "made: on one line, 3 left of 1",
    "made: on one line, 3 left of 2",
    "made: on one line, 3 left of 3",
    "made: on one line, 41 to 45 left of 1",
    "made: on one line, 41 to 45 left of 2",
    "made: on one line, 41 to 45 left of 41 to 45",
    "made: both rows absent",
    "made: 42 and 43 at once",
    "made: 42 and 44 at once",
    "made: 42, 43 and 44 at once",
    "made: 43 and 44 at once",
    "made: both pairs of limits fall",
    "made: a second pair falls, the first only before rounding",
    "made: 33rd server with 1",
    "made: 33rd server with 2",
    "made: 33rd server with 3",
    "made: 65th task with 1",
    "made: 65th task with 2",
    "made: 65th task with 41 to 45",
    "made: misplaced line with 1",
    "made: misplaced line with 2",
    "made: misplaced line with 3 or 41 to 45",
    "made: unclosed line with a fault",
    "made: on two lines, the smaller number above",
    "made: on two lines, the greater number above",
    "made: on two lines, one number",
    "made: 5 and a fault of a line",
    "made: a row too many and 5",
];

/// The same for frame tables, and what is to be made of them.
const FRAME_FIELDS: [(&str, &str, &[usize]); 4] = [
    ("1", "tick", &[1]),
    ("1", "task", &[1, 2, 3]),
    ("2", "tick", &[1]),
    ("2", "task", &[1, 2, 3]),
];
const FRAME_CAUSES: [&str; 14] = [
    "frame: table no 1 at 0: leading word",
    "frame: table no 1 at 0: too few fields of a tick line",
    "frame: table no 1 at 0: too few fields of a task line",
    "frame: table no 1 at 0: too many fields of a tick line",
    "frame: table no 1 at 0: too many fields of a task line",
    "frame: table no 1 at 0: misplaced tick line",
    "frame: table no 1 at 0: misplaced server line",
    "frame: table no 1 at 0: misplaced task line",
    "frame: table no 1 at 0: missing line",
    "frame: table no 1 at 0: empty text",
    "frame: table no 1 at 0: unclosed line",
    "frame: table no 2 at 0: text too long",
    "frame: table no 2 at 0: task row too many",
    "frame: table no 5 of task lines",
];
const FRAME_MADE: [&str; 17] = [
    "frame: made: on one line, 0 left of 1",
    "frame: made: on one line, 0 left of 2",
    "frame: made: on one line, 1 left of 1",
    "frame: made: on one line, 1 left of 2",
    "frame: made: on one line, 2 left of 1",
    "frame: made: on one line, 2 left of 2",
    "frame: made: 65th task with 1",
    "frame: made: 65th task with 2",
    "frame: made: a row too many and 5",
    "frame: made: misplaced line with 1",
    "frame: made: misplaced line with 2",
    "frame: made: unclosed line with a fault",
    "frame: made: on two lines, the smaller number above",
    "frame: made: on two lines, the greater number above",
    "frame: made: on two lines, one number",
    "frame: made: 5 and a fault of a line",
    "frame: table of 16384 bytes",
];

/// The counts of `report`'s pages that must not be 0. Those above 1 are of rows,
/// the others of pages.
const PAGES: [&str; 14] = [
    "page: charged above 1",
    "page: empty above 1",
    "page: longest above 1",
    "page: finished above 1",
    "page: cut above 1",
    "page: discarded above 1",
    "page: waiting above 1",
    "page: ticks in N above 1",
    "page: ticks in D1 above 1",
    "page: ticks in D2 above 1",
    "page with ticks in D2",
    "page with discards of two tasks",
    "page of event servers",
    "page of timed servers",
];
/// And these of long nights.
const LONG_PAGES: [&str; 2] =
    ["page of 300 kilobytes of events", "page of 300 kilobytes with discards of two tasks"];
const LONG_PAGE_BYTES: usize = 300 * 1024;

/// A place where programs cut what they work on, whatever the lines are: so many
/// bytes read, so many bytes of answers, so many lines taken at once. The counts
/// are of cuts in a release, in a tick, in another line and at a line's end.
struct Seam {
    size: usize,
    counts: [&'static str; 4],
}

const READ: Seam = Seam {
    size: 16_384,
    counts: [
        "read cut in a release",
        "read cut in a tick",
        "read cut in another line",
        "read cut at a line's end",
    ],
};
const WRITTEN: Seam = Seam {
    size: 65_536,
    counts: [
        "answers cut in a release",
        "answers cut in a tick",
        "answers cut in another line",
        "answers cut at a line's end",
    ],
};
const BATCH: Seam = Seam {
    size: 1_024,
    counts: [
        "batch ends with a release",
        "batch ends with a tick",
        "batch ends with another line",
        "batch ends with the file",
    ],
};

#[derive(Default)]
pub struct Coverage {
    counts: BTreeMap<String, u64>,
}

impl Coverage {
    fn count(&mut self, what: &str) {
        self.count_more(what, 1);
    }

    fn count_more(&mut self, what: &str, more: u64) {
        match self.counts.get_mut(what) {
            Some(count) => *count += more,
            None => {
                self.counts.insert(what.to_string(), more);
            }
        }
    }

    pub fn add(&mut self, other: &Coverage) {
        for (what, &count) in &other.counts {
            self.count_more(what, count);
        }
    }

    /// Counts a case by its name: what two faults it has, if any, and whether its
    /// table was taken.
    pub fn case(&mut self, name: &str, night: &[u8]) {
        let good = name.starts_with("good-");
        let taken = !night.starts_with(b"table\t");
        self.count(match (good, taken) {
            (true, true) => "good table taken",
            (true, false) => "good table refused",
            (false, true) => "damaged table taken",
            (false, false) => "damaged table refused",
        });
        for what in made(name) {
            self.count(&format!("made: {what}"));
        }
        for what in phase_seen::made(name) {
            self.count(&what);
        }
    }

    /// Counts the answers of a night.
    pub fn night(&mut self, table: &[u8], output: &[u8]) {
        let text = String::from_utf8_lossy(output);
        if text.is_empty() {
            self.count("no events");
        }
        let levels = levels_of(table);
        let mut mode_before = "N";
        // The level of the job that the last taken tick ran, if it ran one.
        let mut last: Option<usize> = None;
        for line in text.lines() {
            let fields: Vec<&str> = line.split('\t').collect();
            match fields.as_slice() {
                ["table", "no", number, line, last] => {
                    self.table_refused("", &TABLE, table, [number, line, last]);
                    return;
                }
                ["?", "no", "1"] => self.count("event no 1"),
                ["R", _, "ok"] => self.count("release ok"),
                ["R", _, "no", "6"] => self.count("release no 6"),
                ["R", _, "no", "7"] => self.count("release no 7"),
                ["R", _, "no", "8"] => self.count("release no 8"),
                ["T", "no", "9"] => self.count("tick no 9"),
                ["T", _, mode, what, _, task, how, _, discarded] => {
                    self.tick(mode_before, mode, what, how, discarded);
                    if let Some(level) = last {
                        self.judged(level, mode_before, mode, how);
                    }
                    mode_before = mode;
                    last = task.parse().ok().and_then(|row: usize| levels.get(row).copied());
                }
                _ => self.count("other answers"),
            }
        }
        self.count("table taken");
        phase_seen::see(table, output, |what| self.count(what));
    }

    /// Counts a refusal of a text by its number, line and field or second line. The
    /// names begin with a prefix.
    fn table_refused(&mut self, prefix: &str, form: &Form, table: &[u8], refusal: [&str; 3]) {
        let [number, line, last] = refusal;
        let line: usize = line.parse().unwrap_or(0);
        let word = form.word_of(lines_of(table).nth(line.wrapping_sub(1)).unwrap_or(b""));
        let what = match (number, last) {
            ("5", _) => format!("of {word} lines"),
            ("1", "0") => format!("at 0: {}", form.cause_of_1(table, line)),
            ("2", "0") if line == 0 => "at 0: text too long".to_string(),
            ("2", "0") => format!("at 0: {word} row too many"),
            _ => format!("at {last} of a {word} line"),
        };
        self.count(&format!("{prefix}table no {number} {what}"));
    }

    /// Counts a frame table by its name, and the answers to it.
    pub fn frame(&mut self, frame: &FrameCase, output: &[u8]) {
        for what in made(&frame.name) {
            self.count(&format!("frame: made: {what}"));
        }
        let text = String::from_utf8_lossy(output);
        let fields: Vec<&str> = text.trim_end_matches('\n').split('\t').collect();
        let &["table", "no", number, line, last] = fields.as_slice() else {
            return frame_seen::see(&frame.table, output, |what| self.count(what));
        };
        self.table_refused("frame: ", &FRAME, &frame.table, [number, line, last]);
        if frame.table.is_empty() {
            self.count("frame: table no 1 at 0: empty text");
        }
        if frame.table.len() == MAX_TEXT {
            self.count("frame: table of 16384 bytes");
        }
    }

    fn tick(&mut self, mode_before: &str, mode: &str, what: &str, how: &str, discarded: &str) {
        self.count(match mode {
            "N" => "mode N",
            "D1" => "mode D1",
            "D2" => "mode D2",
            _ => "other answers",
        });
        self.count(match what {
            "run" => "run",
            "empty" => "empty",
            "idle" => "idle",
            _ => "other answers",
        });
        self.count(match how {
            "done" => "left done",
            "cut" => "left cut",
            "-" => "left none",
            _ => "other answers",
        });
        if discarded != "0" {
            self.count("discards");
            // Only on entering D2 jobs are discarded.
            if mode == "N" {
                self.count("rise taken back with discards");
            }
        }
        match (mode_before, mode) {
            ("N", "D1") => self.count("rise to D1"),
            ("N", "D2") => self.count("rise to D2 from N"),
            ("D1", "D2") => self.count("rise to D2 from D1"),
            _ => {}
        }
    }

    /// Counts what step 1 did with the job run last, of this level.
    fn judged(&mut self, level: usize, before: &str, mode: &str, how: &str) {
        let place = |word: &str| MODES.iter().position(|mode| *mode == word);
        let (Some(before), Some(mode)) = (place(before), place(mode)) else { return };
        for name in judged::names(&Judged { level, before, mode, cut: how == "cut" }) {
            self.count(&name);
        }
    }

    /// Counts what stands where a night is cut. Each line has its answer, whose
    /// first letter tells what the line is.
    pub fn seams(&mut self, events: &[u8], answers: &[u8]) {
        if answers.starts_with(b"table\t") {
            return;
        }
        let kinds: Vec<usize> = lines_of(answers).map(|line| kind_of(line[0])).collect();
        for (seam, text) in [(&READ, events), (&WRITTEN, answers)] {
            let mut end = 0;
            for (line, kind) in lines_of(text).zip(&kinds) {
                let start = end;
                end += line.len();
                if end % seam.size == 0 {
                    self.count(seam.counts[3]);
                } else if start / seam.size < end / seam.size {
                    self.count(seam.counts[*kind]);
                }
            }
        }
        for batch in kinds.chunks_exact(BATCH.size) {
            self.count(BATCH.counts[batch[BATCH.size - 1]]);
        }
        if !kinds.is_empty() && kinds.len() % BATCH.size == 0 {
            self.count(BATCH.counts[3]);
        }
    }

    /// Counts the page of a night by its numbers and by what it is a page of.
    pub fn page(&mut self, table: &[u8], events: &[u8], output: &[u8]) {
        if output.starts_with(b"table\t") {
            return;
        }
        let mut tasks_with_discards = 0;
        for line in String::from_utf8_lossy(output).lines() {
            let fields: Vec<&str> = line.split('\t').collect();
            match fields.as_slice() {
                ["server", _, charged, empty, longest] => {
                    self.above_1("page: charged above 1", charged);
                    self.above_1("page: empty above 1", empty);
                    self.above_1("page: longest above 1", longest);
                }
                ["task", _, finished, cut, discarded, waiting] => {
                    self.above_1("page: finished above 1", finished);
                    self.above_1("page: cut above 1", cut);
                    self.above_1("page: discarded above 1", discarded);
                    self.above_1("page: waiting above 1", waiting);
                    tasks_with_discards += usize::from(*discarded != "0");
                }
                ["mode", "N", ticks] => self.above_1("page: ticks in N above 1", ticks),
                ["mode", "D1", ticks] => self.above_1("page: ticks in D1 above 1", ticks),
                ["mode", "D2", ticks] => {
                    self.above_1("page: ticks in D2 above 1", ticks);
                    if *ticks != "0" {
                        self.count("page with ticks in D2");
                    }
                }
                _ => self.count("other answers"),
            }
        }
        if tasks_with_discards >= 2 {
            self.count("page with discards of two tasks");
        }
        for (kind, what) in [("event", "page of event servers"), ("timed", "page of timed servers")]
        {
            if has_server(table, kind) {
                self.count(what);
            }
        }
        if events.len() >= LONG_PAGE_BYTES {
            self.count(LONG_PAGES[0]);
            if tasks_with_discards >= 2 {
                self.count(LONG_PAGES[1]);
            }
        }
    }

    fn above_1(&mut self, what: &str, number: &str) {
        match number.parse::<u64>() {
            Ok(0 | 1) => {}
            Ok(number) => {
                self.count(what);
                if number > u64::from(u16::MAX) {
                    self.count("page: a number above 65535");
                }
            }
            Err(_) => self.count("other answers"),
        }
    }

    /// Counts the verdicts of a table.
    pub fn verdicts(&mut self, output: &[u8]) {
        for line in String::from_utf8_lossy(output).lines() {
            let fields: Vec<&str> = line.split('\t').collect();
            if fields.len() != 4 || fields[0] == "table" {
                continue;
            }
            for verdict in &fields[1..] {
                self.count(match *verdict {
                    "misses" => "verdict misses",
                    "0" => "verdict 0",
                    _ => "verdict response",
                });
            }
        }
    }

    /// Counts whether a table fits, and what is to be seen of that.
    pub fn fits(&mut self, table: &[u8], page: Option<&Page>) {
        let Some(page) = page else { return };
        for name in page.names() {
            self.count(&name);
        }
        phase_seen::see_fits(table, page.told().is_none(), |what| self.count(what));
    }

    /// Counts a table written back, by whether it is the text that was read.
    pub fn rewrite(&mut self, table: &[u8], output: &[u8]) {
        if output == table {
            self.count("rewritten the same");
        } else if !output.starts_with(b"table\t") {
            self.count("rewritten otherwise");
        }
        phase_seen::see_rewritten(table, output, |what| self.count(what));
    }

    /// Prints all counts; gives whether none of the wanted is 0. What stands at
    /// the seams, and long pages, are wanted of long nights only.
    pub fn print(&self, long: bool) -> bool {
        println!("made in the cases and seen in the answers:");
        let mut wanted: Vec<String> = Vec::new();
        for (prefix, all) in [("", &FIELDS[..]), ("frame: ", &FRAME_FIELDS[..])] {
            for (number, word, fields) in all {
                for field in *fields {
                    wanted.push(format!("{prefix}table no {number} at {field} of a {word} line"));
                }
            }
        }
        let seen = [&WANTED[..], &judged::WANTED[..], &PAGES[..], &fit::WANTED[..]].concat();
        let frames = [&FRAME_CAUSES[..], &FRAME_MADE[..], &frame_seen::WANTED[..]].concat();
        let others =
            [&CAUSES[..], &MADE[..], &seen[..], &phase_seen::WANTED[..], &frames[..]].concat();
        wanted.extend(others.into_iter().map(String::from));
        wanted.extend(phase_seen::all_made());
        if long {
            let seams = READ.counts.iter().chain(&WRITTEN.counts).chain(&BATCH.counts[..3]);
            wanted.extend(LONG_PAGES.iter().chain(seams).map(|what| what.to_string()));
            wanted.push(frame_seen::LONG_WANTED.to_string());
        }
        let mut complete = true;
        for what in &wanted {
            let count = self.counts.get(what).copied().unwrap_or(0);
            let remark = if count == 0 { "  (must not be 0)" } else { "" };
            println!("{count:>10}  {what}{remark}");
            complete &= count > 0;
        }
        for (what, count) in &self.counts {
            if !wanted.contains(what) {
                println!("{count:>10}  {what}");
            }
        }
        complete
    }
}

/// Whether a table's text has a server of the kind.
fn has_server(table: &[u8], kind: &str) -> bool {
    lines_of(table).any(|line| {
        let mut fields = line.split(|&byte| byte == b'\t');
        fields.next() == Some(b"server") && fields.nth(1) == Some(kind.as_bytes())
    })
}

/// The levels of the tasks of a good table's text, as places in [`LEVELS`].
fn levels_of(table: &[u8]) -> Vec<usize> {
    lines_of(table)
        .map(|line| line.split(|&byte| byte == b'\t').collect::<Vec<_>>())
        .filter(|fields| fields[0] == b"task")
        .filter_map(|fields| LEVELS.iter().position(|word| Some(&word.as_bytes()) == fields.get(4)))
        .collect()
}

/// The lines of a text.
struct Form {
    /// The kinds of line with the count of their fields.
    kinds: &'static [(&'static str, usize)],
    /// Whether a line may stand after another, or after none.
    may_follow: fn(&str, &str) -> bool,
}

const TABLE: Form = Form {
    kinds: &[("tick", 1), ("server", 7), ("task", 7)],
    may_follow: |before, word| {
        matches!(
            (before, word),
            ("", "tick") | ("tick" | "server", "server") | ("server" | "task", "task")
        )
    },
};
/// A server line has no place in a frame table.
const FRAME: Form = Form {
    kinds: &[("tick", 1), ("server", 7), ("task", 3)],
    may_follow: |before, word| matches!((before, word), ("", "tick") | ("tick" | "task", "task")),
};

impl Form {
    /// Why a line is 1 as a line. The lines before it are good.
    fn cause_of_1(&self, table: &[u8], number: usize) -> String {
        let lines: Vec<&[u8]> = lines_of(table).collect();
        let Some(line) = lines.get(number - 1) else { return "missing line".to_string() };
        let Some(line) = line.strip_suffix(b"\n") else { return "unclosed line".to_string() };
        let word = self.word_of(line);
        let Some(&(_, count)) = self.kinds.iter().find(|(kind, _)| *kind == word) else {
            return "leading word".to_string();
        };
        let before = if number > 1 { self.word_of(lines[number - 2]) } else { "" };
        let fields = line.iter().filter(|&&byte| byte == b'\t').count();
        if !(self.may_follow)(before, word) {
            format!("misplaced {word} line")
        } else if fields < count {
            format!("too few fields of a {word} line")
        } else {
            format!("too many fields of a {word} line")
        }
    }

    /// The leading word of a line if it is one.
    fn word_of(&self, line: &[u8]) -> &'static str {
        let line = line.strip_suffix(b"\n").unwrap_or(line);
        let first = line.split(|&byte| byte == b'\t').next().unwrap_or(b"");
        let mut words = self.kinds.iter().map(|(word, _)| *word);
        words.find(|word| word.as_bytes() == first).unwrap_or("strange")
    }
}

/// What a damage with two faults is after, by its name.
fn made(name: &str) -> Vec<String> {
    let mut all = Vec::new();
    if let Some((left, right)) = pair_of(name, "pair-one-line-") {
        let left_group = if field_of(left) == "0" { "0" } else { group_of(left) };
        all.push(format!("on one line, {left_group} left of {}", group_of(right)));
        if left.starts_with("41-") && right.starts_with("41-") {
            all.push("both rows absent".to_string());
        }
        if left.starts_with("45-") && right.starts_with("45-") {
            all.push("both pairs of limits fall".to_string());
        }
        return all;
    }
    if let Some((upper, lower)) = pair_of(name, "pair-two-lines-") {
        let (upper, lower) = (group_of(upper), group_of(lower));
        let what = match upper.cmp(lower) {
            _ if upper == "5" => "5 and a fault of a line",
            Ordering::Less => "on two lines, the smaller number above",
            Ordering::Equal => "on two lines, one number",
            Ordering::Greater => "on two lines, the greater number above",
        };
        return vec![what.to_string()];
    }
    if let Some((first, fault)) = pair_of(name, "") {
        let group = group_of(fault);
        all.push(match first {
            "2-33rd-server" | "2-65th-task" if group == "5" => "a row too many and 5".to_string(),
            "2-33rd-server" => format!("33rd server with {group}"),
            "2-65th-task" => format!("65th task with {group}"),
            _ if first.starts_with("1-unclosed") => "unclosed line with a fault".to_string(),
            _ if !first.starts_with("1-misplaced") => return all,
            _ if matches!(group, "1" | "2") => format!("misplaced line with {group}"),
            _ => "misplaced line with 3 or 41 to 45".to_string(),
        });
        return all;
    }
    let what = match name {
        "41-task-1-both-absent" => "both rows absent",
        "42-task-2-elsewhere-event" => "42 and 43 at once",
        "42-task-2-elsewhere-not-home" => "42 and 44 at once",
        "42-task-2-elsewhere-event-not-home" => "42, 43 and 44 at once",
        "43-task-2-event-not-home" => "43 and 44 at once",
        "45-task-6-twice" => "both pairs of limits fall",
        "45-task-7-d1-d2-rounded" => "a second pair falls, the first only before rounding",
        _ => return all,
    };
    all.push(what.to_string());
    all
}

/// The two parts of a name after a prefix.
fn pair_of<'a>(name: &'a str, prefix: &str) -> Option<(&'a str, &'a str)> {
    name.strip_prefix(prefix)?.split_once("-and-")
}

/// The number a fault is after, by its name.
fn group_of(fault: &str) -> &'static str {
    match fault.split('-').next() {
        Some("1") => "1",
        Some("2") => "2",
        Some("3") => "3",
        Some("5") => "5",
        _ => "41 to 45",
    }
}

/// The field a fault of a line is after, by its name.
fn field_of(fault: &str) -> &str {
    fault.split('-').nth(2).unwrap_or("")
}

fn lines_of(text: &[u8]) -> impl Iterator<Item = &[u8]> {
    text.split_inclusive(|&byte| byte == b'\n')
}

/// 0 for a release, 1 for a tick, 2 for another line.
fn kind_of(letter: u8) -> usize {
    match letter {
        b'R' => 0,
        b'T' => 1,
        _ => 2,
    }
}

#[cfg(test)]
mod tests {
    use super::{made, Coverage, FRAME, FRAME_MADE, MADE, TABLE};
    use crate::case::Case;
    use crate::phase_seen;

    #[test]
    fn the_default_cases_make_every_pair_of_faults() {
        let mut coverage = Coverage::default();
        for number in 0..2000 {
            let case = Case::make(1, number);
            coverage.case(&case.name, b"");
            if let Some(frame) = &case.frame {
                coverage.frame(frame, b"table\tno\t2\t0\t0\n");
            }
        }
        let made = MADE.iter().chain(&FRAME_MADE).map(|what| what.to_string());
        for what in made.chain(phase_seen::all_made()) {
            assert!(coverage.counts.contains_key(&what), "{what}");
        }
    }

    #[test]
    fn pairs_by_their_names() {
        let one_line = "pair-one-line-2-server-1-partition-and-1-server-5-plus";
        assert_eq!(made(one_line), ["on one line, 2 left of 1"]);
        let line_itself = "pair-one-line-1-task-0-first-word-and-45-task-6-n-d1";
        assert_eq!(made(line_itself), ["on one line, 0 left of 41 to 45"]);
        let two_lines = "pair-two-lines-43-task-2-event-and-1-task-0-tab-at-end";
        assert_eq!(made(two_lines), ["on two lines, the greater number above"]);
        assert_eq!(made("2-65th-task-and-42-task-2-elsewhere"), ["65th task with 41 to 45"]);
        assert_eq!(made("2-65th-task-with-42-task-2-elsewhere").len(), 0);
        assert_eq!(made("3-server-4-period").len(), 0);
    }

    #[test]
    fn refusals_by_number_field_and_line() {
        let table = b"tick\t1\nserver\t0\ttimed\t1\t1\t1\t1\t1\ntask\t0\nservers\n";
        let mut coverage = Coverage::default();
        for answer in ["2\t2\t5", "2\t2\t0", "2\t0\t0", "45\t3\t7", "1\t3\t0", "5\t2\t3"] {
            coverage.night(table, format!("table\tno\t{answer}\n").as_bytes());
        }
        let counted: Vec<&str> = coverage.counts.keys().map(String::as_str).collect();
        let expected = [
            "table no 1 at 0: too few fields of a task line",
            "table no 2 at 0: server row too many",
            "table no 2 at 0: text too long",
            "table no 2 at 5 of a server line",
            "table no 45 at 7 of a task line",
            "table no 5 of server lines",
        ];
        assert_eq!(counted, expected);
    }

    #[test]
    fn what_step_1_did_is_seen_by_level() {
        let table = b"tick\t1\nserver\t0\ttimed\t1\t9\t9\t9\t9\n\
            task\t0\t0\t3\tLO\t1\t1\t1\ntask\t0\t0\t2\tMI\t1\t1\t2\n\
            task\t0\t0\t1\tHI\t1\t2\t3\n";
        // The answers of R0 R1 R2 and four ticks with mark 0, one with mark 1.
        let answers = b"R\t0\tok\nR\t1\tok\nR\t2\tok\n\
            T\t0\tN\trun\t0\t0\t-\t-\t0\nT\t1\tN\trun\t0\t1\tcut\t0\t0\n\
            T\t2\tD1\trun\t0\t2\tcut\t1\t0\nT\t3\tD1\trun\t0\t2\t-\t-\t0\n\
            T\tno\t9\nT\t4\tD2\trun\t0\t2\t-\t-\t0\nT\t5\tN\tempty\t0\t-\tdone\t2\t0\n\
            T\t6\tN\tempty\t0\t-\t-\t-\t0\n";
        let mut coverage = Coverage::default();
        coverage.night(table, answers);
        let counted = |what: &str| coverage.counts.get(what).copied().unwrap_or(0);
        let seen = [
            "LO job cut in N",
            "MI job risen from N and cut, tick in D1",
            "N to D1 after a MI job",
            "D1 to D2 after a HI job",
            "fall to N from D2",
        ];
        for what in crate::judged::WANTED {
            assert_eq!(counted(what), u64::from(seen.contains(&what)), "{what}");
        }
    }

    #[test]
    fn causes_of_1() {
        let server = "server\t0\ttimed\t1\t1\t1\t1\t1\n";
        let causes = [
            ("".to_string(), 1, "missing line"),
            ("tick\t1\n".to_string(), 2, "missing line"),
            ("tick\t1".to_string(), 1, "unclosed line"),
            ("tick\t1\nserver".to_string(), 2, "unclosed line"),
            ("ticks\t1\n".to_string(), 1, "leading word"),
            ("\n".to_string(), 1, "leading word"),
            ("tick\n".to_string(), 1, "too few fields of a tick line"),
            ("tick\t1\t\n".to_string(), 1, "too many fields of a tick line"),
            ("tick\t1\ntask\t0\n".to_string(), 2, "misplaced task line"),
            (format!("tick\t1\n{server}tick\n"), 3, "misplaced tick line"),
            (server.to_string(), 1, "misplaced server line"),
            (format!("tick\t1\n{server}task\t0\n"), 3, "too few fields of a task line"),
        ];
        for (text, line, cause) in causes {
            assert_eq!(TABLE.cause_of_1(text.as_bytes(), line), cause, "{text:?}");
        }
        let causes = [
            ("tick\t1\n", 2, "missing line"),
            ("tick\t1\ntask\t0\t1\n", 2, "too few fields of a task line"),
            ("tick\t1\nserver\t0\t1\t1\n", 2, "misplaced server line"),
            ("task\t0\t1\t1\n", 1, "misplaced task line"),
            ("tick\t1\ntick\t1\n", 2, "misplaced tick line"),
        ];
        for (text, line, cause) in causes {
            assert_eq!(FRAME.cause_of_1(text.as_bytes(), line), cause, "{text:?}");
        }
    }
}
