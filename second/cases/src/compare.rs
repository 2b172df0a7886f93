//! Runs two sets of programs over the same cases and compares what they print.

use std::collections::BTreeMap;
use std::fs;
use std::path::{Path, PathBuf};
use std::process::{Command, Output, Stdio};
use std::sync::atomic::{AtomicBool, AtomicU64, Ordering};
use std::sync::Mutex;
use std::thread;

use crate::case::{Case, LONG};
use crate::coverage::Coverage;
use crate::fit::Page;

/// The programs; `frame` has files of its own, and runs where a case has them.
const PROGRAMS: [&str; 6] = ["night", "report", "verdicts", "fits", "rewrite", "frame"];

pub struct Options {
    /// The folder with the executables `night`, `report`, `verdicts`, `fits`,
    /// `rewrite` and `frame`.
    pub first: PathBuf,
    /// The `second` binary.
    pub second: PathBuf,
    pub seed: u64,
    pub count: u64,
    /// How many long nights there are after the others.
    pub long: u64,
    /// Where the files of differing cases are kept.
    pub keep: Option<PathBuf>,
    /// The one program that is run, if not all are.
    pub only: Option<String>,
    pub threads: u64,
}

/// What all workers add to.
#[derive(Default)]
struct Totals {
    coverage: Coverage,
    names: BTreeMap<String, u64>,
    passed: u64,
    failed: u64,
}

/// Compares all cases; gives whether all passed and nothing was left unseen.
pub fn compare(options: &Options) -> Result<bool, String> {
    if let Some(only) = &options.only {
        if !PROGRAMS.contains(&only.as_str()) {
            return Err(format!("no such program: {only}"));
        }
    }
    println!("seed {}, {} cases, {} long nights", options.seed, options.count, options.long);
    let folder = std::env::temp_dir().join(format!("cases-{}", std::process::id()));
    let totals = Mutex::new(Totals::default());
    let next = AtomicU64::new(0);
    let stop = AtomicBool::new(false);

    let outcome = thread::scope(|scope| {
        let mut workers = Vec::new();
        for worker in 0..options.threads {
            let folder = folder.join(worker.to_string());
            let (totals, next, stop) = (&totals, &next, &stop);
            workers.push(scope.spawn(move || {
                let outcome = work(options, &folder, totals, next, stop);
                if outcome.is_err() {
                    stop.store(true, Ordering::Relaxed);
                }
                outcome
            }));
        }
        let mut outcome = Ok(());
        for worker in workers {
            outcome = outcome.and(worker.join().expect("a worker does not panic"));
        }
        outcome
    });
    let _ = fs::remove_dir_all(&folder);
    outcome?;

    let totals = totals.into_inner().expect("no worker panicked");
    println!("cases by kind:");
    for (name, count) in &totals.names {
        println!("{count:>10}  {name}");
    }
    let complete = totals.coverage.print(options.long > 0);
    println!("{} passed, {} failed", totals.passed, totals.failed);
    // One program alone does not show all that is wanted.
    Ok(totals.failed == 0 && (complete || options.only.is_some()))
}

/// Takes cases until none is left.
fn work(
    options: &Options,
    folder: &Path,
    totals: &Mutex<Totals>,
    next: &AtomicU64,
    stop: &AtomicBool,
) -> Result<(), String> {
    fs::create_dir_all(folder).map_err(|error| failed("make", folder, &error))?;
    while !stop.load(Ordering::Relaxed) {
        let taken = next.fetch_add(1, Ordering::Relaxed);
        if taken >= options.count + options.long {
            break;
        }
        let number = if taken < options.count { taken } else { LONG + taken - options.count };
        let case = Case::make(options.seed, number);
        let runs = run_all(options, &case, folder)?;

        let verdicts = output_of(&runs, "verdicts").unwrap_or_default();
        let page = Page::of(&case.table, verdicts);
        let coverage = seen_in(&case, &runs, page.as_ref());

        let differing: Vec<(&str, String)> =
            runs.iter().filter_map(|run| Some((run.program, run.difference()?))).collect();
        let mut differences: Vec<String> =
            differing.iter().map(|(program, words)| format!("  {program}: {words}")).collect();
        let fits = output_of(&runs, "fits");
        differences.extend(fits.and_then(|answer| unlike_the_page(page.as_ref(), answer)));
        let frame_only = differing.iter().all(|(program, _)| *program == "frame")
            && differing.len() == differences.len();

        let mut totals = totals.lock().expect("no worker panicked");
        totals.coverage.add(&coverage);
        *totals.names.entry(kind_of(&case.name).to_string()).or_insert(0) += 1;
        if let Some(frame) = &case.frame {
            let kind = format!("frame {}", kind_of(&frame.name));
            *totals.names.entry(kind).or_insert(0) += 1;
        }
        if differences.is_empty() {
            totals.passed += 1;
            continue;
        }
        totals.failed += 1;
        let name = match &case.frame {
            Some(frame) if frame_only => format!("frame-{}", frame.name),
            _ => case.name.clone(),
        };
        println!("seed {} case {number} {name} differs", options.seed);
        for difference in differences {
            println!("{difference}");
        }
        if let Some(keep) = &options.keep {
            keep_case(keep, options.seed, number, &case, &runs)?;
        }
    }
    Ok(())
}

/// What was made in a case and seen in the answers of the second.
fn seen_in(case: &Case, runs: &[Run], page: Option<&Page>) -> Coverage {
    let mut coverage = Coverage::default();
    for run in runs {
        let output = &run.second.stdout;
        match (run.program, &case.frame) {
            ("night", _) => {
                coverage.case(&case.name, output);
                coverage.night(&case.table, output);
                coverage.seams(&case.events, output);
            }
            ("report", _) => coverage.page(&case.table, &case.events, output),
            ("verdicts", _) => coverage.verdicts(output),
            ("fits", _) => coverage.fits(&case.table, page),
            ("rewrite", _) => coverage.rewrite(&case.table, output),
            (_, Some(frame)) => coverage.frame(frame, output),
            _ => {}
        }
    }
    coverage
}

/// The first part of a case's name: `good`, `pair` or the number it is after.
fn kind_of(name: &str) -> &str {
    name.split('-').next().unwrap_or(name)
}

/// How the answer of `fits` differs from what the page of verdicts says, if it
/// does.
fn unlike_the_page(page: Option<&Page>, answer: &[u8]) -> Option<String> {
    let line = page?.line();
    (line.as_bytes() != answer).then(|| {
        let (one, other) = (show(Some(line.as_bytes())), show(Some(answer)));
        format!("  fits: by the verdicts of second {one}, by its fits {other}")
    })
}

/// What the two programs of one name made of a case.
struct Run {
    program: &'static str,
    first: Output,
    second: Output,
}

impl Run {
    /// The first difference, in words.
    fn difference(&self) -> Option<String> {
        for (who, output) in [("first", &self.first), ("second", &self.second)] {
            // No status code: ended by a signal. 101: ended by a panic.
            if matches!(output.status.code(), None | Some(101)) {
                let errors = String::from_utf8_lossy(&output.stderr);
                let words = errors.lines().next().unwrap_or("").to_string();
                return Some(format!("the {who} broke off ({}) {words}", output.status));
            }
        }
        if self.first.stdout == self.second.stdout {
            let (one, other) = (self.first.status, self.second.status);
            return (one != other).then(|| format!("first ended with {one}, second with {other}"));
        }
        let mut first = self.first.stdout.split_inclusive(|&byte| byte == b'\n');
        let mut second = self.second.stdout.split_inclusive(|&byte| byte == b'\n');
        let mut line = 1;
        loop {
            let (one, other) = (first.next(), second.next());
            if one != other {
                return Some(format!("line {line}: first {}, second {}", show(one), show(other)));
            }
            line += 1;
        }
    }
}

fn show(line: Option<&[u8]>) -> String {
    match line {
        None => "has no such line".to_string(),
        Some(line) => {
            let shown: String = line.escape_ascii().to_string().chars().take(200).collect();
            format!("\"{shown}\"")
        }
    }
}

/// What the second program of the name printed, if it was run.
fn output_of<'a>(runs: &'a [Run], program: &str) -> Option<&'a [u8]> {
    let run = runs.iter().find(|run| run.program == program)?;
    Some(&run.second.stdout)
}

/// The programs that are run on a case.
fn programs_for(options: &Options, case: &Case) -> Vec<&'static str> {
    let is_asked = |program: &&str| options.only.as_ref().is_none_or(|only| only == program);
    let has_files = |program: &&str| *program != "frame" || case.frame.is_some();
    PROGRAMS.into_iter().filter(is_asked).filter(has_files).collect()
}

/// Writes a case and runs its programs on it.
fn run_all(options: &Options, case: &Case, folder: &Path) -> Result<Vec<Run>, String> {
    let programs = programs_for(options, case);
    if programs.is_empty() {
        return Ok(Vec::new());
    }
    case.write_to(folder).map_err(|error| failed("write to", folder, &error))?;
    let mut runs = Vec::new();
    for program in programs {
        let mut first = Command::new(options.first.join(program));
        let mut second = Command::new(&options.second);
        second.arg(program);
        runs.push(Run {
            program,
            first: run_one(&mut first, program, folder)?,
            second: run_one(&mut second, program, folder)?,
        });
    }
    Ok(runs)
}

fn run_one(command: &mut Command, program: &str, folder: &Path) -> Result<Output, String> {
    let files: &[&str] = match program {
        "night" | "report" => &["table", "events"],
        "frame" => &["frame-table", "frame-events"],
        _ => &["table"],
    };
    command.args(files.iter().map(|file| folder.join(file)));
    command
        .stdin(Stdio::null())
        .output()
        .map_err(|error| failed("run", Path::new(command.get_program()), &error))
}

fn keep_case(keep: &Path, seed: u64, number: u64, case: &Case, runs: &[Run]) -> Result<(), String> {
    let folder = keep.join(format!("{seed}-{number}"));
    let write = || {
        fs::create_dir_all(&folder)?;
        case.write_to(&folder)?;
        fs::write(folder.join("name"), format!("{}\n", case.name))?;
        if let Some(frame) = &case.frame {
            fs::write(folder.join("frame-name"), format!("{}\n", frame.name))?;
        }
        for Run { program, first, second } in runs {
            fs::write(folder.join(format!("{program}.first")), &first.stdout)?;
            fs::write(folder.join(format!("{program}.second")), &second.stdout)?;
        }
        Ok(())
    };
    write().map_err(|error: std::io::Error| failed("write to", &folder, &error))
}

fn failed(what: &str, path: &Path, error: &std::io::Error) -> String {
    format!("cannot {what} {}: {error}", path.display())
}
