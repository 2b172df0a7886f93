//! The binary: arguments, files that cannot be read, and what is printed.

mod common;

use std::fs;
use std::io::Write;
use std::path::PathBuf;
use std::process::{Command, Output, Stdio};

use common::EXAMPLE;

/// A small frame table.
const FRAME: &str = "tick\t1\ntask\t0\t1\t1\n";

fn second(arguments: &[&str], input: &[u8]) -> Output {
    let mut child = Command::new(env!("CARGO_BIN_EXE_second"))
        .args(arguments)
        .stdin(Stdio::piped())
        .stdout(Stdio::piped())
        .stderr(Stdio::piped())
        .spawn()
        .unwrap();
    // The program may end without reading its input.
    let _ = child.stdin.take().unwrap().write_all(input);
    child.wait_with_output().unwrap()
}

/// A file of the name in the build's folder for such, with the contents.
fn file(name: &str, contents: &[u8]) -> String {
    let path = PathBuf::from(env!("CARGO_TARGET_TMPDIR")).join(name);
    fs::write(&path, contents).unwrap();
    path.to_str().unwrap().to_string()
}

fn prints(arguments: &[&str], input: &[u8], expected: &str) {
    let output = second(arguments, input);
    assert_eq!(String::from_utf8_lossy(&output.stdout), expected, "{arguments:?}");
    assert!(output.status.success() && output.stderr.is_empty(), "{arguments:?}");
}

fn fails(arguments: &[&str]) {
    let output = second(arguments, b"");
    assert_eq!(output.status.code(), Some(1), "{arguments:?}");
    assert!(output.stdout.is_empty() && !output.stderr.is_empty(), "{arguments:?}");
}

#[test]
fn mistakes_in_the_arguments_and_files() {
    let table = file("table-for-mistakes", EXAMPLE.as_bytes());
    let folder = env!("CARGO_TARGET_TMPDIR");
    fails(&[]);
    fails(&["night"]);
    fails(&["night", &table]);
    fails(&["night", &table, "-", "-"]);
    fails(&["night", "-", "-"]);
    fails(&["verdicts"]);
    fails(&["verdicts", &table, &table]);
    fails(&["other", &table]);
    fails(&["verdicts", "no such file"]);
    fails(&["rewrite", folder]);
    fails(&["night", &table, "no such file"]);
    fails(&["night", &table, folder]);
    // A refused table prints nothing either if the events cannot be read.
    let empty = file("empty-for-mistakes", b"");
    fails(&["night", &empty, folder]);
    fails(&["report"]);
    fails(&["report", &table]);
    fails(&["report", &table, "-", "-"]);
    fails(&["report", "-", "-"]);
    fails(&["report", "no such file", "-"]);
    fails(&["report", &table, "no such file"]);
    fails(&["report", &table, folder]);
    fails(&["report", &empty, folder]);
    fails(&["report", &empty, "no such file"]);
    fails(&["states", &table]);
    fails(&["fits"]);
    fails(&["fits", &table, &table]);
    fails(&["fits", "no such file"]);
    fails(&["fits", folder]);
    let frame = file("frame-for-mistakes", FRAME.as_bytes());
    fails(&["frame"]);
    fails(&["frame", &frame]);
    fails(&["frame", &frame, "-", "-"]);
    fails(&["frame", "-", "-"]);
    fails(&["frame", "no such file", "-"]);
    fails(&["frame", &frame, "no such file"]);
    fails(&["frame", &frame, folder]);
    fails(&["frame", &empty, folder]);
}

#[test]
fn frame_nights_are_printed() {
    let table = file("frame-for-answers", FRAME.as_bytes());
    let events = file("events-for-frames", b"R\t0\nT\t0\nT\t1\n\nT\t1");
    let answers = "R\t0\tok\nT\t0\tN\trun\t0\t0\t-\t-\t0\nT\t1\tN\tempty\t1\t-\tdone\t0\t0\n\
         ?\tno\t1\n?\tno\t1\n";
    prints(&["frame", &table, &events], b"", answers);
    prints(&["frame", "-", &events], FRAME.as_bytes(), answers);
    prints(&["frame", &table, "-"], b"R\t0\nT\t0\nT\t1\n\nT\t1", answers);
    prints(&["frame", &table, "-"], b"", "");
    prints(&["frame", "-", &events], b"", "table\tno\t1\t1\t0\n");
    prints(&["frame", "-", &events], &[b'\n'; 16_385], "table\tno\t2\t0\t0\n");
    prints(&["frame", "-", &events], b"tick\t0\n", "table\tno\t2\t1\t1\n");
    let equal = format!("{FRAME}task\t2\t1\t1\n");
    prints(&["frame", "-", &events], equal.as_bytes(), "table\tno\t5\t2\t3\n");
    // The tables of the other programs are no frame tables.
    prints(&["frame", "-", &events], EXAMPLE.as_bytes(), "table\tno\t1\t2\t0\n");

    let mut long = b"T\t0".to_vec();
    long.resize(3_000_000, b'0');
    long.extend_from_slice(b"\nT\t0\n");
    let long = file("long-lines-for-frames", &long);
    prints(&["frame", &table, &long], b"", "?\tno\t1\nT\t0\tN\tempty\t0\t-\t-\t-\t0\n");
}

#[test]
fn answers_are_printed() {
    let table = file("table-for-answers", EXAMPLE.as_bytes());
    let verdicts = "0\t2\t0\t0\n1\t9\t7\t7\n2\t19\t15\t11\n";
    prints(&["verdicts", &table], b"", verdicts);
    prints(&["verdicts", "-"], EXAMPLE.as_bytes(), verdicts);
    prints(&["rewrite", &table], b"", EXAMPLE);
    prints(&["night", &table, "-"], b"R\t0\nT\t0", "R\t0\tok\n?\tno\t1\n");
    prints(&["night", &table, "-"], b"", "");
    prints(&["fits", &table], b"", "yes\n");
    prints(&["fits", "-"], EXAMPLE.as_bytes(), "yes\n");
    for (from, to, miss) in [
        ("8000\t8000\t4000", "21000\t27000\t4000", "no\tN\t2\n"),
        ("8000\t8000\t4000", "8000\t27000\t4000", "no\tD1\t2\n"),
        ("2000\t0\t0\n", "2000\t0\t10000\n", "no\tD2\t1\n"),
    ] {
        prints(&["fits", "-"], EXAMPLE.replace(from, to).as_bytes(), miss);
    }
    for program in ["verdicts", "fits", "rewrite"] {
        prints(&[program, "-"], b"", "table\tno\t1\t1\t0\n");
        prints(&[program, "-"], &[b'\n'; 16_385], "table\tno\t2\t0\t0\n");
    }
    prints(&["night", "-", &table], b"tick\t0\n", "table\tno\t2\t1\t1\n");
}

#[test]
fn every_program_tells_the_field() {
    let events = file("events-for-fields", b"T\t0\n");
    let refusals = [
        (("timed\t10\t40000", "timed\t10\t040000"), "1\t4\t4"),
        (("task\t0\t1", "task\t0\t1\t1"), "1\t5\t0"),
        (("8000\t8000\t4000", "8000\t8000\t40001"), "2\t4\t7"),
        (("8000\t8000\t4000", "8000\t8001\t4000"), "3\t4\t6"),
        (("task\t0\t1", "task\t0\t3"), "41\t5\t2"),
        (("task\t0\t1", "task\t0\t2"), "42\t5\t2"),
        (("task\t0\t1", "task\t0\t0"), "43\t5\t2"),
        (("0\tevent", "0\ttimed"), "44\t5\t2"),
        (("1000\t2000\t3000", "3000\t2000\t3000"), "45\t5\t6"),
        // Both lines, and no field.
        (("timed\t10", "timed\t20"), "5\t3\t4"),
    ];
    for ((from, to), refusal) in refusals {
        let table = EXAMPLE.replace(from, to).into_bytes();
        let line = format!("table\tno\t{refusal}\n");
        for program in ["night", "report"] {
            prints(&[program, "-", &events], &table, &line);
        }
        for program in ["verdicts", "fits", "rewrite"] {
            prints(&[program, "-"], &table, &line);
        }
    }
}

#[test]
fn pages_are_printed() {
    let one = "tick\t1\nserver\t0\ttimed\t1\t2\t1\t1\t1\ntask\t0\t0\t1\tLO\t1\t1\t1\n";
    let table = file("table-for-pages", one.as_bytes());
    let events = file("events-for-pages", b"T\t0\nR\t0\nT\t0\nT\t0");
    let page = "server\t0\t1\t1\t1\ntask\t0\t0\t0\t0\t1\nmode\tN\t2\nmode\tD1\t0\nmode\tD2\t0\n";
    let zeros = "server\t0\t0\t0\t0\ntask\t0\t0\t0\t0\t0\nmode\tN\t0\nmode\tD1\t0\nmode\tD2\t0\n";
    prints(&["report", &table, &events], b"", page);
    prints(&["report", "-", &events], one.as_bytes(), page);
    prints(&["report", &table, "-"], b"T\t0\nR\t0\nT\t0\nT\t0", page);
    prints(&["report", &table, "-"], b"", zeros);
    // A refused table prints its line only, whatever the events are.
    for events in ["-", &events] {
        let empty = file("empty-for-pages", b"");
        prints(&["report", &empty, events], b"T\t0\n", "table\tno\t1\t1\t0\n");
    }
    prints(&["report", "-", &events], b"tick\t0\n", "table\tno\t2\t1\t1\n");
    let equal = format!("{one}task\t0\t0\t1\tLO\t1\t1\t1\n");
    prints(&["report", "-", &events], equal.as_bytes(), "table\tno\t5\t3\t4\n");
}

#[test]
fn long_lines_and_many_lines() {
    let table = file("table-for-long-lines", EXAMPLE.as_bytes());
    let mut events = b"R\t0".to_vec();
    events.resize(3_000_000, b'\0');
    events.extend_from_slice(b"\nR\t0\n");
    let long = file("long-lines", &events);
    prints(&["night", &table, &long], b"", "?\tno\t1\nR\t0\tok\n");
    let output = second(&["report", &table, &long], b"");
    let page = String::from_utf8(output.stdout).unwrap();
    assert_eq!(page.lines().nth(3), Some("task\t0\t0\t0\t0\t1"));

    let many = file("many-lines", &b"T\t0\n".repeat(100_000));
    let output = second(&["night", &table, &many], b"");
    let answers = String::from_utf8(output.stdout).unwrap();
    assert_eq!(answers.lines().count(), 100_000);
    assert_eq!(answers.lines().last(), Some("T\t99999\tN\tidle\t-\t-\t-\t-\t0"));
    // Of 20 ticks server 1 has 5, of 40 server 2 has 8, all of them empty.
    let output = second(&["report", &table, &many], b"");
    let page = String::from_utf8(output.stdout).unwrap();
    let lines: Vec<&str> = page.lines().collect();
    assert_eq!(lines[1], "server\t1\t25000\t25000\t0");
    assert_eq!(lines[2], "server\t2\t20000\t20000\t0");
    assert_eq!(lines[6], "mode\tN\t100000");
}
