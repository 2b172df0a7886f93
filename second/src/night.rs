//! The `night` program: event lines in, answer lines out. The `frame` program
//! answers with the same lines.

use std::io::{self, BufRead, ErrorKind, Write};

use crate::number;
use crate::run::{Answer, How, TakeEvents, What};

/// The longest line that is an event, its line feed included: a release with a
/// number of 11 digits.
const LONGEST_EVENT: usize = 14;

/// An event line that is well formed.
#[derive(Clone, Copy, Debug, PartialEq, Eq)]
pub enum Event {
    Release(u64),
    Tick(bool),
}

/// The event of a line without its line feed, if it is one.
pub fn parse_event(line: &[u8]) -> Option<Event> {
    if let Some(task) = line.strip_prefix(b"R\t") {
        return Some(Event::Release(number::parse(task)?));
    }
    match line {
        b"T\t0" => Some(Event::Tick(false)),
        b"T\t1" => Some(Event::Tick(true)),
        _ => None,
    }
}

/// Reads a line with its line feed, if it has one; false at the end of the
/// file. Of a line longer than any event only the start is kept, which without
/// its line feed is no event either.
pub(crate) fn read_line(events: &mut impl BufRead, line: &mut Vec<u8>) -> io::Result<bool> {
    line.clear();
    loop {
        let read = match events.fill_buf() {
            Err(error) if error.kind() == ErrorKind::Interrupted => continue,
            read => read?,
        };
        if read.is_empty() {
            return Ok(!line.is_empty());
        }
        let end = read.iter().position(|&byte| byte == b'\n');
        let length = end.map_or(read.len(), |at| at + 1);
        let kept = length.min(LONGEST_EVENT - line.len());
        line.extend_from_slice(&read[..kept]);
        events.consume(length);
        if end.is_some() {
            return Ok(true);
        }
    }
}

/// Answers every event line, each with one line.
pub fn answer_events(
    run: &mut impl TakeEvents,
    events: &mut impl BufRead,
    out: &mut impl Write,
) -> io::Result<()> {
    let mut line = Vec::new();
    loop {
        if !read_line(events, &mut line)? {
            return Ok(());
        }
        // An unclosed last line is no event.
        let event = line.strip_suffix(b"\n").and_then(parse_event);
        match event {
            None => writeln!(out, "?\tno\t1")?,
            Some(Event::Release(task)) => match run.release(task) {
                Ok(()) => writeln!(out, "R\t{task}\tok")?,
                Err(no) => writeln!(out, "R\t{task}\tno\t{}", no.number())?,
            },
            Some(Event::Tick(mark)) => match run.tick(mark) {
                Ok(answer) => write_answer(&answer, out)?,
                Err(no) => writeln!(out, "T\tno\t{}", no.number())?,
            },
        }
    }
}

fn write_answer(answer: &Answer, out: &mut impl Write) -> io::Result<()> {
    write!(out, "T\t{}\t{}\t", answer.tick, answer.mode.word())?;
    match answer.what {
        What::Run { server, task } => write!(out, "run\t{server}\t{task}")?,
        What::Empty { server } => write!(out, "empty\t{server}\t-")?,
        What::Idle => write!(out, "idle\t-\t-")?,
    }
    match answer.left {
        None => write!(out, "\t-\t-")?,
        Some(left) => {
            let how = match left.how {
                How::Done => "done",
                How::Cut => "cut",
            };
            write!(out, "\t{how}\t{}", left.task)?;
        }
    }
    writeln!(out, "\t{}", answer.discarded)
}
