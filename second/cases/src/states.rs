//! Runs two `states` programs over the same blocks and compares what they print.

use std::cmp::Ordering;
use std::collections::BTreeMap;
use std::fs;
use std::path::{Path, PathBuf};
use std::process::{Command, Output, Stdio};

use crate::block::{Block, Budget, Operation};
use crate::fit::{self, Page};
use crate::frame_block::{self, FrameBlock};
use crate::judged::{self, Judged, LEVELS, MODES};
use crate::phase;
use crate::phase_block;
use crate::random::Random;
use crate::table;
use crate::unsound;

/// Few files, so that few programs are started.
const BLOCKS_IN_FILE: u64 = 200;

/// The last of so many blocks asks whether a table fits, with a clause broken, by
/// turns.
const IN_TURN_EVERY: u64 = 20;

/// One of so many blocks is a frame block, which is the third of them.
const FRAME_EVERY: u64 = 5;

/// One of so many blocks is about phases, which is the sixth of them.
const PHASE_EVERY: u64 = 10;

/// The counts that must not be 0, beside those of step 1, those of tables that fit
/// or miss, those of phases, and those for each clause broken.
const WANTED: [&str; 45] = [
    "fresh taken",
    "release taken",
    "tick taken",
    "verdict response",
    "verdict misses",
    "write taken",
    "fresh no 13",
    "release no 6",
    "release no 7",
    "release no 8",
    "release no 10",
    "release no 13",
    "tick no 9",
    "tick no 10",
    "tick no 13",
    "verdict no 11",
    "verdict no 13",
    "write no 12",
    "write no 13",
    "fits yes",
    "fits no",
    "fits no 13",
    "fits_state yes",
    "fits_state no",
    "fits_state no 13",
    "fits_state, miss told in a lesser mode than the state's",
    "fits_state, miss told in the state's mode",
    "fits_state, miss told in a greater mode than the state's",
    "tick run",
    "tick empty",
    "tick idle",
    "tick in which a job left done",
    "tick in which a job left cut",
    "tick with discards",
    "tick with a rise",
    "tick with a rise taken back with discards",
    "tick 3999999999",
    "LO job at its limit in N",
    "MI job at its limit in N",
    "HI job at its limit in N",
    "LO job at its limit in D1",
    "MI job at its limit in D1",
    "HI job at its limit in D1",
    "MI job at its limit in D2",
    "HI job at its limit in D2",
];

pub struct Options {
    /// The folder with the executable `states`.
    pub first: PathBuf,
    /// The `second` binary.
    pub second: PathBuf,
    pub seed: u64,
    pub count: u64,
    /// Where files with differing blocks are kept.
    pub keep: Option<PathBuf>,
}

/// A block of either kind.
enum Asked {
    Table(Block),
    Frame(FrameBlock),
}

impl Asked {
    fn name(&self) -> &str {
        match self {
            Asked::Table(block) => &block.name,
            Asked::Frame(block) => &block.name,
        }
    }

    fn must_be_13(&self) -> bool {
        match self {
            Asked::Table(block) => block.must_be_13(),
            Asked::Frame(block) => block.must_be_13(),
        }
    }
}

/// A block of a file, as it was made.
struct Made {
    number: u64,
    block: Asked,
    text: String,
    /// The page of verdicts, where it is asked whether the table fits.
    page: Option<Page>,
}

#[derive(Default)]
struct Totals {
    seen: BTreeMap<String, u64>,
    passed: u64,
    failed: u64,
}

/// Compares all blocks; gives whether all passed and nothing was left unseen.
pub fn compare(options: &Options) -> Result<bool, String> {
    println!("seed {}, {} blocks", options.seed, options.count);
    let folder = std::env::temp_dir().join(format!("states-{}", std::process::id()));
    fs::create_dir_all(&folder).map_err(|error| failed("make", &folder, &error))?;
    let mut totals = Totals::default();
    let mut outcome = Ok(());
    let mut from = 0;
    while from < options.count && outcome.is_ok() {
        let to = options.count.min(from + BLOCKS_IN_FILE);
        outcome = compare_file(options, &folder, from, to, &mut totals);
        from = to;
    }
    let _ = fs::remove_dir_all(&folder);
    outcome?;

    let complete = totals.print();
    println!("{} passed, {} failed", totals.passed, totals.failed);
    Ok(totals.failed == 0 && complete)
}

/// The block of a seed with a number, always the same one.
fn make(seed: u64, number: u64) -> Made {
    let mut random = Random::for_case(seed, number);
    let random = &mut random;
    if number % FRAME_EVERY == 2 {
        let block = frame_block::in_turn((number / FRAME_EVERY) as usize, random);
        let text = block.text(random);
        return Made { number, block: Asked::Frame(block), text, page: None };
    }
    // Phases are drawn apart, so that a block is otherwise what it was.
    let phases = &mut Random::for_case(seed ^ phase::SEED, number);
    let mut block = if number % PHASE_EVERY == 5 {
        phase_block::in_turn((number / PHASE_EVERY) as usize, phases)
    } else if number % IN_TURN_EVERY == IN_TURN_EVERY - 1 {
        unsound::in_turn((number / IN_TURN_EVERY) as usize, random)
    } else {
        any_block(random)
    };
    block.pad(random);
    phase_block::give(&mut block, phases);
    let text = block.text(random);
    Made { number, block: Asked::Table(block), text, page: None }
}

fn any_block(random: &mut Random) -> Block {
    match random.below(20) {
        0..=3 => Block::sound(&table::small(random), "sound-small", random),
        4..=6 => Block::at_limit(table::small(random), random),
        7 => Block::sound(&table::middle(random), "sound-middle", random),
        8 | 9 => {
            let (table, bound) = table::at_bound(random);
            Block::sound(&table, &format!("sound-{bound}"), random)
        }
        10 | 11 => {
            let (table, misses) = table::fit_or_miss(random);
            let mut block = Block::sound(&table, &format!("sound-{misses}"), random);
            block.operation = random.pick(&[Operation::Fits, Operation::FitsState]);
            block
        }
        12..=17 => unsound::one_fault(random),
        _ => unsound::two_faults(random),
    }
}

fn compare_file(
    options: &Options,
    folder: &Path,
    from: u64,
    to: u64,
    totals: &mut Totals,
) -> Result<(), String> {
    let mut made: Vec<Made> = (from..to).map(|number| make(options.seed, number)).collect();
    let mut text = String::new();
    for Made { number, block, text: lines, page } in &mut made {
        text += &format!("# block {number} {}\n{lines}\n", block.name());
        match block {
            Asked::Table(block) if block.operation.is_fits() && !block.must_be_13() => {
                *page = page_of(options, folder, block)?;
            }
            _ => {}
        }
    }
    let file = folder.join("blocks");
    fs::write(&file, &text).map_err(|error| failed("write", &file, &error))?;

    let first = run(Command::new(options.first.join("states")).arg(&file))?;
    let second = run(Command::new(&options.second).arg("states").arg(&file))?;
    let failed_before = totals.failed;
    for (who, output) in [("first", &first), ("second", &second)] {
        if let Some(words) = broke_off(output) {
            totals.failed += 1;
            println!("seed {} blocks {from} to {}: the {who} {words}", options.seed, to - 1);
        }
    }
    compare_answers(options.seed, &made, &first.stdout, &second.stdout, totals);
    if let (Some(keep), true) = (&options.keep, totals.failed > failed_before) {
        let folder = keep.join(format!("states-{}-{from}", options.seed));
        keep_file(&folder, &text, &first.stdout, &second.stdout)
            .map_err(|error| failed("write to", &folder, &error))?;
    }
    Ok(())
}

/// The page that `second` prints for the table of a block.
fn page_of(options: &Options, folder: &Path, block: &Block) -> Result<Option<Page>, String> {
    let file = folder.join("table");
    let table = block.table_text();
    fs::write(&file, &table).map_err(|error| failed("write", &file, &error))?;
    let verdicts = run(Command::new(&options.second).arg("verdicts").arg(&file))?;
    Ok(Page::of(table.as_bytes(), &verdicts.stdout))
}

/// Compares the two outputs answer by answer, a block each.
fn compare_answers(seed: u64, made: &[Made], first: &[u8], second: &[u8], totals: &mut Totals) {
    let (mut ones, mut others) = (answers(first).into_iter(), answers(second).into_iter());
    for Made { number, block, page, .. } in made {
        let (one, other) = (ones.next(), others.next());
        match block {
            Asked::Table(block) => {
                totals.see(block, other);
                totals.see_phases(block, other);
                totals.see_page(block, page.as_ref());
            }
            Asked::Frame(block) => totals.see_frame(block, other),
        }
        match difference(block, page.as_ref(), one, other) {
            None => totals.passed += 1,
            Some(words) => {
                totals.failed += 1;
                println!("seed {seed} block {number} {} differs\n  {words}", block.name());
            }
        }
    }
    if ones.next().is_some() || others.next().is_some() {
        totals.failed += 1;
        println!("seed {seed}: more is said than asked");
    }
}

/// Whether a program ended otherwise than it should, in words.
fn broke_off(output: &Output) -> Option<String> {
    if output.status.success() && output.stderr.is_empty() {
        return None;
    }
    let words = String::from_utf8_lossy(&output.stderr);
    Some(format!("broke off ({}) {}", output.status, words.lines().next().unwrap_or("")))
}

fn run(command: &mut Command) -> Result<Output, String> {
    command
        .stdin(Stdio::null())
        .output()
        .map_err(|error| failed("run", Path::new(command.get_program()), &error))
}

fn keep_file(folder: &Path, text: &str, first: &[u8], second: &[u8]) -> std::io::Result<()> {
    fs::create_dir_all(folder)?;
    fs::write(folder.join("blocks"), text)?;
    fs::write(folder.join("first"), first)?;
    fs::write(folder.join("second"), second)
}

/// The answers one by one. The state's lines belong to the answer before them,
/// and so do as many bytes as a `write` line says.
fn answers(output: &[u8]) -> Vec<&[u8]> {
    let mut answers = Vec::new();
    let mut rest = output;
    while !rest.is_empty() {
        let line = first_line(rest);
        let mut length = line.len();
        if let Some(bytes) = numbers_of(line, b"write").and_then(|numbers| numbers.first().copied())
        {
            length += (bytes as usize).min(rest.len() - length);
        } else {
            while is_state_line(first_line(&rest[length..])) {
                length += first_line(&rest[length..]).len();
            }
        }
        let (answer, after) = rest.split_at(length);
        answers.push(answer);
        rest = after;
    }
    answers
}

/// The first line, with its line feed.
fn first_line(text: &[u8]) -> &[u8] {
    match text.iter().position(|&byte| byte == b'\n') {
        Some(end) => &text[..=end],
        None => text,
    }
}

fn is_state_line(line: &[u8]) -> bool {
    [&b"state\t"[..], b"box\t", b"budget\t", b"queue\t"].iter().any(|word| line.starts_with(word))
}

/// The numbers of a line that begins with the word.
fn numbers_of(line: &[u8], word: &[u8]) -> Option<Vec<u64>> {
    let line = std::str::from_utf8(line).ok()?.strip_suffix('\n')?;
    let mut fields = line.split('\t');
    if fields.next()?.as_bytes() != word {
        return None;
    }
    fields.map(|field| field.parse().ok()).collect()
}

/// The first difference in words: between the two, or from the 13 that a broken
/// block must bring and no other may, or from the page of verdicts.
fn difference(
    block: &Asked,
    page: Option<&Page>,
    first: Option<&[u8]>,
    second: Option<&[u8]>,
) -> Option<String> {
    if first != second {
        let mut ones = first.unwrap_or_default().split_inclusive(|&byte| byte == b'\n');
        let mut others = second.unwrap_or_default().split_inclusive(|&byte| byte == b'\n');
        for line in 1.. {
            let (one, other) = (ones.next(), others.next());
            if one != other {
                return Some(format!("line {line}: first {}, second {}", show(one), show(other)));
            }
        }
    }
    match (block.must_be_13(), second == Some(b"no\t13\n")) {
        (true, false) => Some(format!("must be 13, both say {}", show(second))),
        (false, true) => Some("is sound, both say 13".to_string()),
        _ => unlike_the_page(page, second).or_else(|| unlike_the_phases(block, second)),
    }
}

/// How the budgets after a tick differ from what the phases say, if they do.
fn unlike_the_phases(block: &Asked, answer: Option<&[u8]>) -> Option<String> {
    let Asked::Table(block) = block else { return None };
    with_budgets(answer, |answer| phase_block::wrong_budget(block, answer))
}

/// Takes an answer apart for what is about phases.
fn with_budgets<T>(answer: Option<&[u8]>, look: impl Fn(&phase_block::Answer) -> T) -> T {
    let answer = answer.unwrap_or_default();
    let line = first_line(answer);
    let (no, tick) = (numbers_of(line, b"no"), numbers_of(line, b"tick"));
    let budgets: Vec<Budget> = answer
        .split_inclusive(|&byte| byte == b'\n')
        .filter_map(|line| numbers_of(line, b"budget"))
        .filter_map(|numbers| match numbers.as_slice() {
            &[used, elapsed] => Some(Budget { used, elapsed }),
            _ => None,
        })
        .collect();
    look(&phase_block::Answer { no: no.as_deref(), tick: tick.as_deref(), budgets: &budgets })
}

/// How the answer differs from what the page of verdicts says, if it does.
fn unlike_the_page(page: Option<&Page>, answer: Option<&[u8]>) -> Option<String> {
    let line = page?.states_line();
    let line = Some(line.as_bytes());
    (line != answer).then(|| format!("by the verdicts {}, both say {}", show(line), show(answer)))
}

fn show(line: Option<&[u8]>) -> String {
    match line {
        None => "has no such line".to_string(),
        Some(line) => {
            let shown: String = line.escape_ascii().to_string().chars().take(200).collect();
            format!("\"{shown}\"")
        }
    }
}

fn failed(what: &str, path: &Path, error: &std::io::Error) -> String {
    format!("cannot {what} {}: {error}", path.display())
}

impl Totals {
    fn count(&mut self, what: &str) {
        *self.seen.entry(what.to_string()).or_insert(0) += 1;
    }

    /// Counts what was answered to a block.
    fn see(&mut self, block: &Block, answer: Option<&[u8]>) {
        let line = first_line(answer.unwrap_or_default());
        let asked = block.operation.word();
        if let Some(numbers) = numbers_of(line, b"no") {
            self.count(&format!("{asked} no {}", numbers[0]));
            if numbers == [13] {
                self.count(&broken(&block.name));
                if block.operation.is_fits() {
                    self.count(&format!("{asked}, {}", broken(&block.name)));
                }
            }
        } else if let Some(numbers) = numbers_of(line, b"verdict") {
            let is_met = numbers.first() == Some(&1);
            self.count(if is_met { "verdict response" } else { "verdict misses" });
        } else if let Some(numbers) = numbers_of(line, b"fits") {
            let word = if numbers.first() == Some(&1) { "yes" } else { "no" };
            self.count(&format!("{asked} {word}"));
            if block.broken_state {
                self.count(&beside(&block.name));
            }
        } else {
            self.count(&format!("{asked} taken"));
        }
        if let Some([tick, mode, what, _, _, how, _, discarded]) =
            numbers_of(line, b"tick").as_deref()
        {
            self.count(["tick idle", "tick empty", "tick run"][(*what as usize).min(2)]);
            self.see_modes(block.mode, *mode as usize, *how, *discarded);
            self.see_job(block, *mode as usize, *how == 2);
            if *tick == 3_999_999_999 {
                self.count("tick 3999999999");
            }
        }
    }

    /// Counts what is to be seen of phases.
    fn see_phases(&mut self, block: &Block, answer: Option<&[u8]>) {
        for name in with_budgets(answer, |answer| phase_block::names(block, answer)) {
            self.count(&name);
        }
    }

    /// Counts what was answered to a frame block.
    fn see_frame(&mut self, block: &FrameBlock, answer: Option<&[u8]>) {
        let line = first_line(answer.unwrap_or_default());
        let (no, tick) = (numbers_of(line, b"no"), numbers_of(line, b"tick"));
        for name in block.names(no.as_deref(), tick.as_deref()) {
            self.count(&name);
        }
    }

    /// Counts what is to be seen of tables that fit or miss, and how the mode of
    /// the state lies to the one told.
    fn see_page(&mut self, block: &Block, page: Option<&Page>) {
        let Some(page) = page else { return };
        for name in page.names() {
            self.count(&name);
        }
        if let (Operation::FitsState, Some((mode, _))) = (block.operation, page.told()) {
            self.count(match mode.cmp(&block.mode) {
                Ordering::Less => "fits_state, miss told in a lesser mode than the state's",
                Ordering::Equal => "fits_state, miss told in the state's mode",
                Ordering::Greater => "fits_state, miss told in a greater mode than the state's",
            });
        }
    }

    fn see_modes(&mut self, before: usize, mode: usize, how: u64, discarded: u64) {
        match how {
            0 => {}
            1 => self.count("tick in which a job left done"),
            _ => self.count("tick in which a job left cut"),
        }
        if discarded > 0 {
            self.count("tick with discards");
        }
        if before < mode {
            self.count("tick with a rise");
        }
        // Only on entering D2 jobs are discarded.
        if discarded > 0 && mode == 0 {
            self.count("tick with a rise taken back with discards");
        }
    }

    /// Counts what step 1 found and did with the job run last, if there is one.
    fn see_job(&mut self, block: &Block, mode: usize, cut: bool) {
        let Some(row) = block.last.map(|row| row as usize) else { return };
        let (Some(task), Some(queue)) = (block.tasks.get(row), block.queues.get(row)) else {
            return;
        };
        let (level, before) = (task.level as usize, block.mode);
        if matches!(block.operation, Operation::Tick(0)) && queue.run == task.limit[before] {
            self.count(&format!("{} job at its limit in {}", LEVELS[level], MODES[before]));
        }
        for name in judged::names(&Judged { level, before, mode: mode.min(2), cut }) {
            self.count(&name);
        }
    }

    /// Prints all counts; gives whether none of the wanted is 0.
    fn print(&self) -> bool {
        println!("seen in the answers:");
        let seen = [&WANTED[..], &judged::WANTED[..], &fit::WANTED[..], &frame_block::WANTED[..]];
        let mut wanted: Vec<String> = seen.concat().into_iter().map(String::from).collect();
        wanted.extend(unsound::names().map(broken));
        wanted.extend(unsound::table_names().map(|name| format!("fits, {}", broken(name))));
        wanted.extend(unsound::state_names().map(beside));
        wanted.extend(unsound::names().map(|name| format!("fits_state, {}", broken(name))));
        wanted.extend(frame_block::broken_names());
        wanted.extend(phase_block::wanted());
        let mut complete = true;
        for what in &wanted {
            let count = self.seen.get(what).copied().unwrap_or(0);
            let remark = if count == 0 { "  (must not be 0)" } else { "" };
            println!("{count:>10}  {what}{remark}");
            complete &= count > 0;
        }
        let two: u64 = self
            .seen
            .iter()
            .filter(|(what, _)| !wanted.contains(what))
            .map(|(_, count)| count)
            .sum();
        println!("{two:>10}  13 for two clauses, and other answers");
        complete
    }
}

/// What is counted where a broken clause is refused.
fn broken(name: &str) -> String {
    format!("13 for {name}")
}

/// What is counted where `fits` is answered beside a broken state.
fn beside(name: &str) -> String {
    format!("fits, answered beside {name}")
}

#[cfg(test)]
mod tests {
    use super::{answers, make};

    #[test]
    fn a_block_is_the_same_every_time() {
        for number in 0..500 {
            let (one, other) = (make(5, number), make(5, number));
            assert_eq!(one.block.name(), other.block.name());
            assert_eq!(one.text, other.text);
        }
    }

    #[test]
    fn answers_are_told_apart() {
        let output = b"no\t13\nwrite\t9\ntick\t100\nfresh\nstate\t0\nqueue\t0\t0\nno\t6\n";
        let wanted: [&[u8]; 4] =
            [b"no\t13\n", b"write\t9\ntick\t100\n", b"fresh\nstate\t0\nqueue\t0\t0\n", b"no\t6\n"];
        assert_eq!(answers(output), wanted);
    }
}
