//! The refusals of the reader, 1 to 3, 41 to 45 and 5, on the example table
//! with changes. Answers are number, line and field, for 5 both lines.

mod common;

use common::{example, EXAMPLE};
use second::text::{self, MAX_TEXT};

/// The answer to a text: `ok`, or the refusal without its first two words.
fn answer(text: &str) -> String {
    match text::read(text.as_bytes()) {
        Ok(_) => "ok".to_string(),
        Err(refusal) => refusal.to_string().replace("table\tno\t", "").replace('\t', " "),
    }
}

/// The answer to the example with one piece of text exchanged.
fn changed(from: &str, to: &str) -> String {
    assert_eq!(EXAMPLE.matches(from).count(), 1, "{from:?} is in the example once");
    answer(&EXAMPLE.replace(from, to))
}

/// The example's lines, closed, with changes made to the list.
fn lines(change: impl Fn(&mut Vec<String>)) -> String {
    let mut lines: Vec<String> = EXAMPLE.lines().map(str::to_string).collect();
    change(&mut lines);
    let text: String = lines.iter().map(|line| format!("{line}\n")).collect();
    answer(&text)
}

const SERVER_0: &str = "server\t0\tevent\t30\t10000\t2000\t0\t0";
const SERVER_1: &str = "server\t0\ttimed\t20\t20000\t5000\t7000\t7000";
const TASK_0: &str = "task\t0\t1\t50\tHI\t1000\t2000\t3000";
const TASK_1: &str = "task\t1\t1\t40\tMI\t3000\t4000\t4000";

#[test]
fn the_example_is_taken_and_written_back() {
    assert_eq!(answer(EXAMPLE), "ok");
    assert_eq!(text::write(&example()), EXAMPLE);
}

#[test]
fn times_of_tasks_are_rounded_up() {
    let rough = EXAMPLE.replace("HI\t1000\t2000\t3000", "HI\t1\t1001\t2999");
    assert_eq!(text::read(rough.as_bytes()), Ok(example()));
    // Falling in microseconds, not in ticks.
    assert_eq!(changed("HI\t1000\t2000\t3000", "HI\t2000\t1001\t2000"), "ok");
}

#[test]
fn malformed_as_a_line() {
    // Missing lines, and unclosed ones whatever they hold.
    assert_eq!(answer(""), "1 1 0");
    assert_eq!(answer("\n"), "1 1 0");
    assert_eq!(answer("tick\t1000"), "1 1 0");
    assert_eq!(answer("tick\t01000"), "1 1 0");
    assert_eq!(answer("tick\t0"), "1 1 0");
    assert_eq!(answer("tick\t1000\n"), "1 2 0");
    assert_eq!(lines(|lines| lines.truncate(4)), "1 5 0");
    assert_eq!(answer(EXAMPLE.trim_end()), "1 7 0");
    assert_eq!(answer(EXAMPLE.trim_end_matches("\t2000\n")), "1 7 0");
    assert_eq!(answer(EXAMPLE.replace("\t10\tLO", "\t010\tLO").trim_end()), "1 7 0");
    assert_eq!(answer(EXAMPLE.replace("\t10\tLO", "\t0\tLO").trim_end()), "1 7 0");
    assert_eq!(answer(EXAMPLE.replace("task\t2\t2", "task\t2\t0").trim_end()), "1 7 0");
    assert_eq!(answer(&format!("{EXAMPLE}x")), "1 8 0");
    // The leading word.
    assert_eq!(answer(&format!("{EXAMPLE}\n")), "1 8 0");
    assert_eq!(changed("tick\t1000", "ticks\t1000"), "1 1 0");
    assert_eq!(changed("tick\t1000", "tick"), "1 1 0");
    assert_eq!(changed("tick\t1000", "tick 1000"), "1 1 0");
    assert_eq!(changed("tick\t1000", "\ttick\t1000"), "1 1 0");
    assert_eq!(changed(SERVER_0, "Server\t0\tevent\t30\t10000\t2000\t0\t0"), "1 2 0");
    assert_eq!(changed(TASK_0, "Task\t0\t1\t50\tHI\t1000\t2000\t3000"), "1 5 0");
    assert_eq!(changed(TASK_0, "job\t0\t1\t50\tHI\t1000\t2000\t3000"), "1 5 0");
    // The count of fields.
    assert_eq!(changed("tick\t1000", "tick\t1000\t"), "1 1 0");
    assert_eq!(changed("tick\t1000", "tick\t1000\t1000"), "1 1 0");
    assert_eq!(changed("\t5000\t7000\t7000", "\t5000\t7000"), "1 3 0");
    assert_eq!(changed("\t5000\t7000\t7000", "\t5000\t7000\t7000\t7000\t7000"), "1 3 0");
    assert_eq!(changed("\t5000\t7000\t7000", "\t5000\t7000\t7000\t7000\t"), "1 3 0");
    assert_eq!(changed("\t5000\t7000\t7000", "\t5000\t7000\t7000\t\t"), "1 3 0");
    assert_eq!(changed(SERVER_1, "server"), "1 3 0");
    assert_eq!(changed(TASK_1, "task\t1\t1\t40\tMI\t3000\t4000"), "1 6 0");
    assert_eq!(changed(TASK_1, "task\t1\t1\t40\tMI\t3000\t4000\t4000\t4000"), "1 6 0");
}

#[test]
fn malformed_fields() {
    assert_eq!(changed("tick\t1000", "tick\t01000"), "1 1 1");
    assert_eq!(changed("tick\t1000", "tick\t"), "1 1 1");
    assert_eq!(changed("tick\t1000\n", "tick\t1000\r\n"), "1 1 1");
    assert_eq!(changed("\t0\tevent", "\t00\tevent"), "1 2 1");
    assert_eq!(changed("\t0\tevent", "\t0\tEvent"), "1 2 2");
    assert_eq!(changed("event\t30", "event\t-30"), "1 2 3");
    assert_eq!(changed("event\t30", "event\t"), "1 2 3");
    assert_eq!(changed("20000", "100000000000"), "1 3 4");
    assert_eq!(changed("\t5000\t7000\t7000", "\t5000 \t7000\t7000"), "1 3 5");
    assert_eq!(changed("\t5000\t7000\t7000", "\t5000\t+7000\t7000"), "1 3 6");
    assert_eq!(changed("\t5000\t7000\t7000", "\t5000\t7000\t7000\r"), "1 3 7");
    assert_eq!(changed("\t5000\t7000\t7000", "\t5000\t7000\t7000\t"), "1 3 8");
    assert_eq!(changed("\t5000\t7000\t7000", "\t5000\t7000\t7000\t01000"), "1 3 8");
    assert_eq!(changed("\t5000\t7000\t7000", "\t5000\t7000\t7000\t000000000000"), "1 3 8");
    assert_eq!(changed("task\t2\t2", "task\t000000000002\t2"), "1 7 1");
    assert_eq!(changed("task\t2\t2", "task\t2\t02"), "1 7 2");
    assert_eq!(changed("\t50\tHI", "\t5O\tHI"), "1 5 3");
    assert_eq!(changed("\tHI\t", "\tHi\t"), "1 5 4");
    assert_eq!(changed("\tMI\t3000", "\tMI \t3000"), "1 6 4");
    assert_eq!(changed("HI\t1000\t2000\t3000", "HI\t1e3\t2000\t3000"), "1 5 5");
    assert_eq!(changed("HI\t1000\t2000\t3000", "HI\t1000\t\t3000"), "1 5 6");
    assert_eq!(changed("HI\t1000\t2000\t3000", "HI\t1000\t2000\t3000\0"), "1 5 7");
}

#[test]
fn misplaced_lines() {
    assert_eq!(lines(|lines| lines.insert(1, "tick\t1000".into())), "1 2 0");
    assert_eq!(lines(|lines| lines.push("tick\t1000".into())), "1 8 0");
    assert_eq!(lines(|lines| lines.swap(0, 1)), "1 1 0");
    assert_eq!(lines(|lines| lines.swap(3, 4)), "1 5 0");
    assert_eq!(lines(|lines| drop(lines.remove(0))), "1 1 0");
    assert_eq!(lines(|lines| drop(lines.drain(1..4))), "1 2 0");
    assert_eq!(lines(|lines| lines.push(SERVER_1.into())), "1 8 0");
    // A task line where the first server should be, malformed or not.
    assert_eq!(lines(|lines| lines.insert(1, TASK_0.into())), "1 2 0");
    assert_eq!(lines(|lines| lines.insert(1, TASK_0.replace("HI", "hi"))), "1 2 0");
    assert_eq!(lines(|lines| lines.push("tick\t00".into())), "1 8 0");
    assert_eq!(lines(|lines| lines.push("tick\t0".into())), "1 8 0");
    assert_eq!(lines(|lines| lines.push(SERVER_1.replace("20", "x"))), "1 8 0");
    assert_eq!(lines(|lines| lines.insert(0, SERVER_1.replace("timed", ""))), "1 1 0");
}

#[test]
fn numbers_out_of_bounds() {
    assert_eq!(changed("tick\t1000", "tick\t0"), "2 1 1");
    assert_eq!(changed("tick\t1000", "tick\t10001"), "2 1 1");
    assert_eq!(changed("\t0\tevent", "\t16\tevent"), "2 2 1");
    assert_eq!(changed("event\t30", "event\t0"), "2 2 3");
    assert_eq!(changed("event\t30", "event\t256"), "2 2 3");
    assert_eq!(changed("\t10000\t2000\t0\t0", "\t0\t0\t0\t0"), "2 2 4");
    assert_eq!(changed("\t10000\t2000\t0\t0", "\t999\t0\t0\t0"), "2 2 4");
    assert_eq!(changed("\t10000\t2000\t0\t0", "\t1000\t1000\t0\t0"), "ok");
    assert_eq!(changed("\t20000\t5000", "\t1000000000\t5000"), "ok");
    assert_eq!(changed("\t20000\t5000", "\t1000000001\t5000"), "2 3 4");
    assert_eq!(changed("\t20000\t5000", "\t99999999999\t5000"), "2 3 4");
    assert_eq!(changed("5000\t7000\t7000", "20001\t7000\t7000"), "2 3 5");
    assert_eq!(changed("5000\t7000\t7000", "5000\t20001\t7000"), "2 3 6");
    assert_eq!(changed("5000\t7000\t7000", "5000\t7000\t20001"), "2 3 7");
    assert_eq!(changed("5000\t7000\t7000", "5000\t7000\t20000"), "ok");
    // The period is too short for a capacity: told at the capacity.
    assert_eq!(changed("\t20000\t5000", "\t6999\t5000"), "2 3 6");
    assert_eq!(changed("\t20000\t5000", "\t1000\t5000"), "2 3 5");
    assert_eq!(changed("\t50\tHI", "\t256\tHI"), "2 5 3");
    assert_eq!(changed("\t50\tHI", "\t0\tHI"), "2 5 3");
    assert_eq!(changed("HI\t1000", "HI\t0"), "2 5 5");
    assert_eq!(changed("HI\t1000\t2000", "HI\t1000\t0"), "2 5 6");
    assert_eq!(changed("\t2000\t3000\n", "\t2000\t0\n"), "2 5 7");
    assert_eq!(changed("HI\t1000", "HI\t100000001"), "2 5 5");
    assert_eq!(changed("HI\t1000\t2000", "HI\t1000\t100000001"), "2 5 6");
    assert_eq!(changed("\t2000\t3000\n", "\t2000\t100000000\n"), "ok");
    assert_eq!(changed("\t2000\t3000\n", "\t2000\t100000001\n"), "2 5 7");
    assert_eq!(changed("\t2000\t3000\n", "\t2000\t99999999999\n"), "2 5 7");
}

#[test]
fn times_not_whole_ticks() {
    assert_eq!(changed("\t10000\t2000", "\t10001\t2000"), "3 2 4");
    assert_eq!(changed("\t20000\t5000", "\t20000\t5001"), "3 3 5");
    assert_eq!(changed("5000\t7000\t7000", "5000\t19999\t7000"), "3 3 6");
    assert_eq!(changed("8000\t8000\t4000", "8000\t8000\t1"), "3 4 7");
    assert_eq!(changed("5000\t7000\t7000", "5001\t7001\t7001"), "3 3 5");
    assert_eq!(changed("5000\t7000\t7000", "5000\t7001\t7001"), "3 3 6");
    assert_eq!(changed("20000\t5000\t7000", "20001\t5001\t7001"), "3 3 4");
}

#[test]
fn absent_rows() {
    assert_eq!(changed("task\t0\t1", "task\t3\t1"), "41 5 1");
    assert_eq!(changed("task\t0\t1", "task\t99999999999\t1"), "41 5 1");
    assert_eq!(changed("task\t0\t1", "task\t0\t3"), "41 5 2");
    assert_eq!(changed("task\t0\t1", "task\t0\t4294967297"), "41 5 2");
    assert_eq!(changed("task\t0\t1", "task\t3\t3"), "41 5 1");
    assert_eq!(changed("task\t0\t1", "task\t9\t3"), "41 5 1");
    assert_eq!(changed("task\t0\t1", "task\t3\t9"), "41 5 1");
    // An absent degraded server of a timed home, too.
    assert_eq!(changed("task\t1\t1", "task\t1\t3"), "41 6 2");
}

#[test]
fn wrong_degraded_servers() {
    // Home 0 is an event server of partition 0, 1 a timed one of it, 2 a timed
    // one of partition 1; 3 and 4 are put in as event servers of 1 and 0.
    let with_events = |home: usize, degraded: usize| {
        lines(|lines| {
            lines.insert(4, "server\t1\tevent\t8\t40000\t0\t0\t0".into());
            lines.insert(5, "server\t0\tevent\t7\t40000\t0\t0\t0".into());
            lines.insert(6, "server\t0\ttimed\t6\t40000\t0\t0\t0".into());
            lines[7] = lines[7].replace("task\t0\t1", &format!("task\t{home}\t{degraded}"));
        })
    };
    assert_eq!(with_events(0, 1), "ok");
    assert_eq!(with_events(0, 5), "ok");
    // Another partition, timed or not.
    assert_eq!(with_events(0, 2), "42 8 2");
    assert_eq!(with_events(0, 3), "42 8 2");
    assert_eq!(with_events(1, 2), "42 8 2");
    assert_eq!(with_events(1, 3), "42 8 2");
    assert_eq!(with_events(2, 1), "42 8 2");
    assert_eq!(with_events(2, 0), "42 8 2");
    // Not timed: the home itself, another event server, beside a timed home.
    assert_eq!(with_events(0, 0), "43 8 2");
    assert_eq!(with_events(0, 4), "43 8 2");
    assert_eq!(with_events(1, 0), "43 8 2");
    assert_eq!(with_events(2, 3), "43 8 2");
    // A timed home's degraded server is the home, not another timed one.
    assert_eq!(with_events(1, 5), "44 8 2");
    assert_eq!(with_events(5, 1), "44 8 2");
    assert_eq!(with_events(5, 5), "ok");
    let two_timed = EXAMPLE.replace(SERVER_0, "server\t0\ttimed\t30\t10000\t2000\t0\t0");
    assert_eq!(answer(&two_timed), "44 5 2");
}

#[test]
fn falling_limits() {
    assert_eq!(changed("HI\t1000\t2000\t3000", "HI\t2001\t2000\t3000"), "45 5 6");
    assert_eq!(changed("HI\t1000\t2000\t3000", "HI\t1000\t3001\t3000"), "45 5 7");
    assert_eq!(changed("LO\t2000\t2000\t2000", "LO\t2000\t2000\t1000"), "45 7 7");
    // Both pairs fall, or the first and N above D2 too, or D2 below N alone.
    assert_eq!(changed("HI\t1000\t2000\t3000", "HI\t3000\t2000\t1000"), "45 5 6");
    assert_eq!(changed("HI\t1000\t2000\t3000", "HI\t4000\t2000\t3000"), "45 5 6");
    assert_eq!(changed("HI\t1000\t2000\t3000", "HI\t3000\t4000\t2000"), "45 5 7");
    // The first pair falls in microseconds only, the second in ticks.
    assert_eq!(changed("HI\t1000\t2000\t3000", "HI\t2000\t1001\t1000"), "45 5 7");
}

#[test]
fn equal_priorities() {
    assert_eq!(changed("timed\t20", "timed\t30"), "5 2 3");
    assert_eq!(changed("timed\t10", "timed\t30"), "5 2 4");
    assert_eq!(changed("timed\t10", "timed\t20"), "5 3 4");
    assert_eq!(changed("\t40\tMI", "\t50\tMI"), "5 5 6");
    assert_eq!(changed("\t10\tLO", "\t50\tLO"), "5 5 7");
    assert_eq!(changed("\t10\tLO", "\t40\tLO"), "5 6 7");
    // Servers before tasks, and pairs ordered by their smaller row.
    let both = EXAMPLE.replace("timed\t10", "timed\t20").replace("\t40\tMI", "\t50\tMI");
    assert_eq!(answer(&both), "5 3 4");
    let crossed = lines(|lines| {
        lines[1] = lines[1].replace("\t30\t", "\t7\t");
        lines[2] = lines[2].replace("\t20\t", "\t8\t");
        lines[3] = lines[3].replace("\t10\t", "\t8\t");
        lines.insert(4, "server\t1\ttimed\t7\t40000\t8000\t8000\t4000".into());
    });
    assert_eq!(crossed, "5 2 5");
}

#[test]
fn the_order_of_refusals() {
    // On one line: 1 before 2 before 3, and 2 before 41 to 45.
    assert_eq!(changed(SERVER_0, "server\t16\tevent\t30\t10000\t2000\t0\t00"), "1 2 7");
    assert_eq!(changed(SERVER_0, "server\t0\tevent\t30\t10500\t10501\t0\t0"), "2 2 5");
    assert_eq!(changed(SERVER_0, "server\t0\tevent\t256\t10001\t2000\t0\t0"), "2 2 3");
    assert_eq!(changed(TASK_0, "task\t9\t1\t0\tHI\t1000\t2000\t3000"), "2 5 3");
    assert_eq!(changed(TASK_0, "task\t0\t1\t50\tHI\t3000\t2000\t100000001"), "2 5 7");
    assert_eq!(changed(TASK_0, "task\t9\t1\t50\tXX\t1000\t2000\t3000"), "1 5 4");
    // 41 to 44 before 45.
    assert_eq!(changed(TASK_0, "task\t0\t9\t50\tHI\t3000\t2000\t1000"), "41 5 2");
    assert_eq!(changed(TASK_0, "task\t0\t2\t50\tHI\t3000\t2000\t1000"), "42 5 2");
    assert_eq!(changed(TASK_0, "task\t0\t0\t50\tHI\t3000\t2000\t1000"), "43 5 2");
    let two_timed = EXAMPLE.replace("\t0\tevent", "\t0\ttimed");
    assert_eq!(answer(&two_timed.replace("HI\t1000\t2000", "HI\t3000\t2000")), "44 5 2");
    // An earlier line before a later one, lines before priorities.
    let text = EXAMPLE.replace(SERVER_0, "server\t0\tevent\t30\t10001\t2000\t0\t0");
    assert_eq!(answer(&text.replace(SERVER_1, "server")), "3 2 4");
    let text = EXAMPLE.replace(TASK_1, "task\t1\t0\t50\tMI\t3000\t4000\t4000");
    assert_eq!(answer(&text), "43 6 2");
    let text = EXAMPLE.replace("timed\t20", "timed\t30");
    assert_eq!(answer(text.trim_end()), "1 7 0");
    // The length before all.
    assert_eq!(answer(&"x".repeat(MAX_TEXT + 1)), "2 0 0");
    assert_eq!(answer(&"x\n".repeat(MAX_TEXT / 2)), "1 1 0");
    let padding = "x".repeat(MAX_TEXT - EXAMPLE.len());
    assert_eq!(answer(&format!("{EXAMPLE}{padding}")), "1 8 0");
    assert_eq!(answer(&format!("{EXAMPLE}x{padding}")), "2 0 0");
}

/// A fault: a field of a line, what is written there, and what it brings, the
/// number and the field told.
type Fault = (usize, &'static str, (u32, usize));

/// Faults of the example's line 3, a timed server.
const SERVER_FAULTS: [Fault; 24] = [
    (1, "x", (1, 1)),
    (1, "16", (2, 1)),
    (2, "Timed", (1, 2)),
    (3, "020", (1, 3)),
    (3, "256", (2, 3)),
    (4, "", (1, 4)),
    (4, "0", (2, 4)),
    (4, "1000000001", (2, 4)),
    (4, "20001", (3, 4)),
    (5, "+1", (1, 5)),
    (5, "99999999999", (2, 5)),
    (5, "5001", (3, 5)),
    (6, "-1", (1, 6)),
    (6, "20000000000", (2, 6)),
    (6, "1", (3, 6)),
    (7, "7000.", (1, 7)),
    (7, "10000000000", (2, 7)),
    (7, "6999", (3, 7)),
    (8, "", (1, 8)),
    (8, "-1000", (1, 8)),
    (8, "19002", (2, 8)),
    (8, "20000", (2, 8)),
    (8, "99999999999", (2, 8)),
    (8, "1", (3, 8)),
];

/// Faults of the example's line 5, a task at home on an event server.
const TASK_FAULTS: [Fault; 21] = [
    (1, "-", (1, 1)),
    (1, "3", (41, 1)),
    (2, "1 ", (1, 2)),
    (2, "9", (41, 2)),
    (2, "2", (42, 2)),
    (2, "0", (43, 2)),
    (3, "00", (1, 3)),
    (3, "0", (2, 3)),
    (4, "hi", (1, 4)),
    (4, "", (1, 4)),
    (5, "x", (1, 5)),
    (5, "0", (2, 5)),
    (5, "2001", (45, 6)),
    (5, "100000001", (2, 5)),
    (6, "02", (1, 6)),
    (6, "0", (2, 6)),
    (6, "100000001", (2, 6)),
    (7, "123456789012", (1, 7)),
    (7, "0", (2, 7)),
    (7, "100000001", (2, 7)),
    (7, "1000", (45, 7)),
];

/// A line of the example with fields exchanged, or a phase added.
fn faulty(line: usize, faults: &[Fault]) -> String {
    let line = EXAMPLE.lines().nth(line - 1).unwrap();
    let mut fields: Vec<&str> = line.split('\t').collect();
    for (field, text, _) in faults {
        if *field == fields.len() {
            fields.push(text);
        } else {
            fields[*field] = text;
        }
    }
    fields.join("\t")
}

#[test]
fn two_faults_on_one_line() {
    for (at, faults) in [(3, &SERVER_FAULTS[..]), (5, &TASK_FAULTS[..])] {
        for one in faults {
            let (number, field) = one.2;
            let alone = lines(|lines| lines[at - 1] = faulty(at, &[*one]));
            assert_eq!(alone, format!("{number} {at} {field}"), "{one:?}");
            for other in faults.iter().filter(|other| other.0 != one.0) {
                let (number, field) = one.2.min(other.2);
                let both = lines(|lines| lines[at - 1] = faulty(at, &[*one, *other]));
                assert_eq!(both, format!("{number} {at} {field}"), "{one:?} {other:?}");
            }
        }
    }
}

#[test]
fn two_faults_on_two_lines() {
    for one in SERVER_FAULTS {
        for other in TASK_FAULTS {
            let (number, field) = one.2;
            let both = lines(|lines| {
                lines[2] = faulty(3, &[one]);
                lines[4] = faulty(5, &[other]);
            });
            assert_eq!(both, format!("{number} 3 {field}"), "{one:?} {other:?}");
        }
    }
}

#[test]
fn a_fault_of_the_line_itself_comes_first() {
    for (at, faults) in [(3, &SERVER_FAULTS[..]), (5, &TASK_FAULTS[..])] {
        for fault in faults {
            let line = faulty(at, &[*fault]);
            let start: Vec<&str> = line.split('\t').take(7).collect();
            let (_, rest) = line.split_once('\t').unwrap();
            let wrong = [
                start.join("\t"),            // a field too few
                format!("{line}\t\t"),       // fields too many
                format!("{line}\t{line}"),   // many too many
                format!("row\t{rest}"),      // another leading word
                format!("\t{line}"),         // none
                format!("tick\t{rest}"),     // one of another place
                line.replacen('\t', " ", 1), // one run into the first field
            ];
            for line in wrong {
                let told = lines(|lines| lines[at - 1] = line.clone());
                assert_eq!(told, format!("1 {at} 0"), "{line:?}");
            }
        }
    }
    for fault in SERVER_FAULTS {
        let line = faulty(3, &[fault]);
        assert_eq!(lines(|lines| lines.insert(0, line.clone())), "1 1 0");
        assert_eq!(lines(|lines| lines.insert(5, line.clone())), "1 6 0");
        assert_eq!(lines(|lines| lines.push(line.clone())), "1 8 0");
    }
    for fault in TASK_FAULTS {
        let line = faulty(5, &[fault]);
        assert_eq!(lines(|lines| lines.insert(0, line.clone())), "1 1 0");
        assert_eq!(lines(|lines| lines.insert(1, line.clone())), "1 2 0");
    }
}

/// A table text of so many servers and tasks.
fn many(servers: usize, tasks: usize) -> String {
    let mut text = "tick\t10\n".to_string();
    for row in 0..servers {
        text.push_str(&format!("server\t15\ttimed\t{}\t10000000\t0\t0\t0\n", 255 - row));
    }
    for row in 0..tasks {
        let home = row % servers;
        text.push_str(&format!("task\t{home}\t{home}\t{}\tLO\t1\t1\t1000000\n", row + 1));
    }
    text
}

#[test]
fn row_counts() {
    assert_eq!(answer(&many(32, 64)), "ok");
    assert_eq!(answer(&many(33, 64)), "2 34 0");
    assert_eq!(answer(&many(32, 65)), "2 98 0");
    // A 33rd server that is malformed besides is 1, one with other faults 2.
    let malformed = many(33, 1).replace("\t223\t", "\t0223\t");
    assert_eq!(answer(&malformed), "1 34 3");
    let one_field_more = many(32, 65).replace("\t65\tLO", "\t65\tLO\t");
    assert_eq!(answer(&one_field_more), "1 98 0");
    let falling = many(32, 65).replace("\t65\tLO\t1", "\t65\tLO\t900000000");
    assert_eq!(answer(&falling), "2 98 0");
    for (at, faults) in [(3, &SERVER_FAULTS[..]), (5, &TASK_FAULTS[..])] {
        let (before, line) = if at == 3 { (many(32, 0), 34) } else { (many(32, 64), 98) };
        for fault in faults {
            let (number, field) = fault.2.min((2, 0));
            let told = answer(&format!("{before}{}\n", faulty(at, &[*fault])));
            assert_eq!(told, format!("{number} {line} {field}"), "{fault:?}");
        }
    }
    // One too many comes after the lines before it, and is 1 if unclosed.
    assert_eq!(answer(&many(33, 64).replace("\t230\t", "\t256\t")), "2 27 3");
    assert_eq!(answer(many(33, 0).trim_end()), "1 34 0");
    assert_eq!(answer(many(32, 65).trim_end()), "1 98 0");
    // A server after the tasks is misplaced, whatever the count.
    let late = format!("{}server\t15\ttimed\t1\t10\t0\t0\t0\n", many(32, 64));
    assert_eq!(answer(&late), "1 98 0");
}
