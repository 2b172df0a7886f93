//! `cases compare`, `cases states`, `cases make` and `cases big`: see USAGE.

mod big;
mod block;
mod case;
mod compare;
mod coverage;
mod damage;
mod events;
mod fit;
mod frame;
mod frame_block;
mod frame_damage;
mod frame_seen;
mod judged;
mod phase;
mod phase_block;
mod phase_damage;
mod phase_seen;
mod random;
mod states;
mod table;
mod unsound;

use std::collections::BTreeMap;
use std::fs;
use std::io;
use std::path::{Path, PathBuf};
use std::process::ExitCode;

use case::Case;
use frame::FrameCase;
use random::Random;

const USAGE: &str = "usage:
  cases compare FIRST SECOND [--seed S] [--count N] [--long L] [--keep DIR] [--threads T]
                [--only PROGRAM]
  cases states FIRST SECOND [--seed S] [--count N] [--keep DIR]
  cases make --seed S --number K --out DIR
  cases big --lines N --servers A --tasks B [--seed S] --out DIR
  cases big frame --lines N --tasks B [--seed S] --out DIR
FIRST is a folder with executables night, report, verdicts, fits, rewrite and frame,
and for states one states; SECOND is the binary second. Without --seed and --count:
seed 1, 2000 cases or blocks. L long nights follow the N cases, their numbers K
from 1000000000 on, one in 20 of them of 80000 to 120000 lines or some more, the
others of up to 20000; without --long none does. With --only one program is run, and
nothing has to be seen.";

fn main() -> ExitCode {
    match choose(std::env::args().skip(1).collect()) {
        Ok(true) => ExitCode::SUCCESS,
        Ok(false) => ExitCode::FAILURE,
        Err(message) => {
            eprintln!("cases: {message}");
            ExitCode::FAILURE
        }
    }
}

fn choose(arguments: Vec<String>) -> Result<bool, String> {
    let mut arguments = Arguments::parse(arguments)?;
    let plain = std::mem::take(&mut arguments.plain);
    let plain: Vec<&str> = plain.iter().map(String::as_str).collect();
    match plain.as_slice() {
        ["compare", first, second] => {
            let options = compare::Options {
                first: PathBuf::from(first),
                second: PathBuf::from(second),
                seed: arguments.number("--seed", Some(1))?,
                count: arguments.number("--count", Some(2000))?,
                long: arguments.number("--long", Some(0))?,
                keep: arguments.options.remove("--keep").map(PathBuf::from),
                only: arguments.options.remove("--only"),
                threads: arguments.number("--threads", Some(2))?.clamp(1, 16),
            };
            arguments.finish()?;
            compare::compare(&options)
        }
        ["states", first, second] => {
            let options = states::Options {
                first: PathBuf::from(first),
                second: PathBuf::from(second),
                seed: arguments.number("--seed", Some(1))?,
                count: arguments.number("--count", Some(2000))?,
                keep: arguments.options.remove("--keep").map(PathBuf::from),
            };
            arguments.finish()?;
            states::compare(&options)
        }
        ["make"] => {
            let seed = arguments.number("--seed", None)?;
            let number = arguments.number("--number", None)?;
            let out = arguments.path("--out")?;
            arguments.finish()?;
            let case = Case::make(seed, number);
            println!("{}", case.name);
            if let Some(frame) = &case.frame {
                println!("frame-{}", frame.name);
            }
            write_to(&out, |folder| case.write_to(folder))
        }
        ["big"] => {
            let lines = arguments.number("--lines", None)?;
            let servers = arguments.number("--servers", None)?;
            let tasks = arguments.number("--tasks", None)?;
            let seed = arguments.number("--seed", Some(1))?;
            let out = arguments.path("--out")?;
            arguments.finish()?;
            if !(1..=32).contains(&servers) || !(1..=64).contains(&tasks) {
                return Err("1 to 32 servers and 1 to 64 tasks".to_string());
            }
            let (servers, tasks) = (servers as usize, tasks as usize);
            let case = Case {
                name: "big".to_string(),
                table: big::table_text(servers, tasks),
                events: big::events(lines, tasks, &mut Random::new(seed)),
                frame: None,
            };
            write_to(&out, |folder| case.write_to(folder))
        }
        ["big", "frame"] => {
            let lines = arguments.number("--lines", None)?;
            let tasks = arguments.number("--tasks", None)?;
            let seed = arguments.number("--seed", Some(1))?;
            let out = arguments.path("--out")?;
            arguments.finish()?;
            if !(1..=64).contains(&tasks) {
                return Err("1 to 64 tasks".to_string());
            }
            let tasks = tasks as usize;
            let frame = FrameCase {
                name: "big".to_string(),
                table: big::frame_table_text(tasks),
                events: big::events(lines, tasks, &mut Random::new(seed)),
            };
            write_to(&out, |folder| frame.write_to(folder))
        }
        _ => Err(USAGE.to_string()),
    }
}

/// Makes the folder and writes files into it.
fn write_to(out: &Path, write: impl Fn(&Path) -> io::Result<()>) -> Result<bool, String> {
    fs::create_dir_all(out)
        .and_then(|()| write(out))
        .map_err(|error| format!("cannot write to {}: {error}", out.display()))?;
    Ok(true)
}

/// The command line: plain words, and options with a value each.
struct Arguments {
    plain: Vec<String>,
    options: BTreeMap<String, String>,
}

impl Arguments {
    fn parse(arguments: Vec<String>) -> Result<Arguments, String> {
        let mut parsed = Arguments { plain: Vec::new(), options: BTreeMap::new() };
        let mut rest = arguments.into_iter();
        while let Some(argument) = rest.next() {
            if argument.starts_with("--") {
                let value = rest.next().ok_or_else(|| format!("{argument} needs a value"))?;
                parsed.options.insert(argument, value);
            } else {
                parsed.plain.push(argument);
            }
        }
        Ok(parsed)
    }

    fn number(&mut self, name: &str, default: Option<u64>) -> Result<u64, String> {
        match (self.options.remove(name), default) {
            (Some(value), _) => {
                value.parse().map_err(|_| format!("{name} needs a number, not {value}"))
            }
            (None, Some(number)) => Ok(number),
            (None, None) => Err(format!("{name} is missing\n{USAGE}")),
        }
    }

    fn path(&mut self, name: &str) -> Result<PathBuf, String> {
        let value =
            self.options.remove(name).ok_or_else(|| format!("{name} is missing\n{USAGE}"))?;
        Ok(PathBuf::from(value))
    }

    /// No option may be left over.
    fn finish(&self) -> Result<(), String> {
        match self.options.keys().next() {
            None => Ok(()),
            Some(name) => Err(format!("no such option here: {name}")),
        }
    }
}
