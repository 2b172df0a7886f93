//! `second night TABLE EVENTS`, `second report TABLE EVENTS`, `second verdicts
//! TABLE`, `second fits TABLE`, `second rewrite TABLE`, `second states FILE` and
//! `second frame TABLE EVENTS`; `-` stands for standard input.

use std::ffi::{OsStr, OsString};
use std::fs::File;
use std::io::{self, BufRead, BufReader, BufWriter, Read, StdoutLock, Write};
use std::process::ExitCode;

use second::fits;
use second::frame::FrameRun;
use second::frame_text;
use second::night;
use second::report;
use second::run::Run;
use second::states;
use second::table::Table;
use second::text::{self, Refusal};
use second::verdict;

const USAGE: &str = "usage: second night TABLE EVENTS | second report TABLE EVENTS | \
                     second verdicts TABLE | second fits TABLE | second rewrite TABLE | \
                     second states FILE | second frame TABLE EVENTS";
const BUFFER_SIZE: usize = 64 * 1024;

type Events = BufReader<Box<dyn Read>>;
type Out = BufWriter<StdoutLock<'static>>;

fn main() -> ExitCode {
    let arguments: Vec<OsString> = std::env::args_os().skip(1).collect();
    match choose_program(&arguments) {
        Ok(()) => ExitCode::SUCCESS,
        Err(message) => {
            eprintln!("second: {message}");
            ExitCode::FAILURE
        }
    }
}

fn choose_program(arguments: &[OsString]) -> Result<(), String> {
    let arguments: Vec<&OsStr> = arguments.iter().map(OsString::as_os_str).collect();
    let Some((program, files)) = arguments.split_first() else {
        return Err(USAGE.to_string());
    };
    match (program.to_str(), files) {
        (Some("night"), &[table, events]) => {
            run_events(table, events, text::read, |table, events, out| {
                night::answer_events(&mut Run::fresh(table), events, out)
            })
        }
        (Some("report"), &[table, events]) => {
            run_events(table, events, text::read, |table, events, out| {
                report::report_events(&mut Run::fresh(table), events, out)
            })
        }
        (Some("frame"), &[table, events]) => {
            run_events(table, events, frame_text::read, |table, events, out| {
                night::answer_events(&mut FrameRun::fresh(table), events, out)
            })
        }
        (Some("verdicts"), &[table]) => print_table(table, verdict::lines),
        (Some("fits"), &[table]) => print_table(table, fits::line),
        (Some("rewrite"), &[table]) => print_table(table, text::write),
        (Some("states"), &[file]) => run_states(file),
        _ => Err(USAGE.to_string()),
    }
}

/// Prints what a program makes of a night, or the refusal of its table, which is
/// read in its own way.
fn run_events<T>(
    table_name: &OsStr,
    events_name: &OsStr,
    read: fn(&[u8]) -> Result<T, Refusal>,
    program: fn(T, &mut Events, &mut Out) -> io::Result<()>,
) -> Result<(), String> {
    if table_name == "-" && events_name == "-" {
        return Err("standard input cannot be both the table and the events".to_string());
    }
    let table = read_table(table_name, read)?;
    let mut events = BufReader::with_capacity(BUFFER_SIZE, open(events_name)?);
    // Nothing is printed if the events cannot be read, a refusal neither.
    events.fill_buf().map_err(|error| cannot_read(events_name, &error))?;

    let mut out = BufWriter::with_capacity(BUFFER_SIZE, io::stdout().lock());
    match table {
        Err(refusal) => writeln!(out, "{refusal}"),
        Ok(table) => program(table, &mut events, &mut out),
    }
    .and_then(|()| out.flush())
    .map_err(|error| format!("cannot answer the events: {error}"))
}

/// Prints what a program makes of the table, or the table's refusal.
fn print_table(name: &OsStr, program: fn(&Table) -> String) -> Result<(), String> {
    match read_table(name, text::read)? {
        Err(refusal) => print(&format!("{refusal}\n")),
        Ok(table) => print(&program(&table)),
    }
}

fn run_states(name: &OsStr) -> Result<(), String> {
    let mut text = String::new();
    open(name)?.read_to_string(&mut text).map_err(|error| cannot_read(name, &error))?;
    print(&states::answer_blocks(&text)?)
}

/// Reads a table file. No more of it is read than shows that it is too long.
fn read_table<T>(
    name: &OsStr,
    read: fn(&[u8]) -> Result<T, Refusal>,
) -> Result<Result<T, Refusal>, String> {
    let mut bytes = Vec::new();
    open(name)?
        .take(text::MAX_TEXT as u64 + 1)
        .read_to_end(&mut bytes)
        .map_err(|error| cannot_read(name, &error))?;
    Ok(read(&bytes))
}

fn open(name: &OsStr) -> Result<Box<dyn Read>, String> {
    if name == "-" {
        return Ok(Box::new(io::stdin().lock()));
    }
    match File::open(name) {
        Ok(file) => Ok(Box::new(file)),
        Err(error) => Err(format!("cannot open {}: {error}", name.to_string_lossy())),
    }
}

fn cannot_read(name: &OsStr, error: &io::Error) -> String {
    format!("cannot read {}: {error}", name.to_string_lossy())
}

fn print(text: &str) -> Result<(), String> {
    let mut out = io::stdout().lock();
    out.write_all(text.as_bytes())
        .and_then(|()| out.flush())
        .map_err(|error| format!("cannot write: {error}"))
}
