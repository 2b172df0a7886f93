//! Servers that start late: the text, the run, the report, the verdicts and states
//! handed in.

mod common;

use common::{example, night, random_table, Random, EXAMPLE};
use second::fits;
use second::report::report_events;
use second::run::{Budget, Run, What};
use second::states::answer_blocks;
use second::table::Table;
use second::text;
use second::verdict;

/// The example with phases 3, 5 and 0 ticks, the last one written.
fn late() -> String {
    EXAMPLE
        .replace("2000\t0\t0\n", "2000\t0\t0\t3000\n")
        .replace("5000\t7000\t7000\n", "5000\t7000\t7000\t5000\n")
        .replace("8000\t8000\t4000\n", "8000\t8000\t4000\t0\n")
}

/// The answer to the example with another end of its line 3: `ok` or the refusal
/// without its first two words.
fn with_end(end: &str) -> String {
    let text = EXAMPLE.replace("20000\t5000\t7000\t7000", end);
    assert_ne!(text, EXAMPLE);
    match text::read(text.as_bytes()) {
        Ok(_) => "ok".to_string(),
        Err(refusal) => refusal.to_string().replace("table\tno\t", "").replace('\t', " "),
    }
}

#[test]
fn a_phase_is_read_in_microseconds_and_may_be_absent() {
    let table = text::read(late().as_bytes()).unwrap();
    let phases: Vec<u32> = table.servers.iter().map(|server| server.phase).collect();
    assert_eq!(phases, [3, 5, 0]);
    assert!(example().servers.iter().all(|server| server.phase == 0));
}

#[test]
fn a_phase_of_0_is_not_written() {
    let table = text::read(late().as_bytes()).unwrap();
    let written = late().replace("4000\t0\n", "4000\n");
    assert_eq!(text::write(&table), written);
    assert_eq!(text::read(written.as_bytes()), Ok(table));
    let zeros = EXAMPLE.replace("7000\n", "7000\t0\n");
    assert_ne!(zeros, EXAMPLE);
    assert_eq!(text::write(&text::read(zeros.as_bytes()).unwrap()), EXAMPLE);
}

#[test]
fn a_phase_goes_to_the_period_less_one_tick() {
    assert_eq!(with_end("20000\t5000\t7000\t7000\t19000"), "ok");
    assert_eq!(with_end("20000\t5000\t7000\t7000\t19001"), "2 3 8");
    assert_eq!(with_end("20000\t5000\t7000\t7000\t19999"), "2 3 8");
    assert_eq!(with_end("20000\t5000\t7000\t7000\t20000"), "2 3 8");
    assert_eq!(with_end("20000\t5000\t7000\t7000\t99999999999"), "2 3 8");
    assert_eq!(with_end("20000\t5000\t7000\t7000\t4294967296"), "2 3 8");
    // The shortest period has no other phase than 0.
    assert_eq!(with_end("1000\t0\t0\t0\t0"), "ok");
    assert_eq!(with_end("1000\t0\t0\t0\t1"), "2 3 8");
    assert_eq!(with_end("1000\t0\t0\t0\t1000"), "2 3 8");
    // The longest one.
    assert_eq!(with_end("1000000000\t0\t0\t0\t999999000"), "ok");
    assert_eq!(with_end("1000000000\t0\t0\t0\t999999001"), "2 3 8");
}

#[test]
fn a_phase_is_whole_ticks() {
    assert_eq!(with_end("20000\t5000\t7000\t7000\t1"), "3 3 8");
    assert_eq!(with_end("20000\t5000\t7000\t7000\t18999"), "3 3 8");
    // Fields 4 to 7 are told first.
    assert_eq!(with_end("20000\t5000\t7000\t6999\t18999"), "3 3 7");
    assert_eq!(with_end("20500\t5000\t7000\t7000\t18999"), "3 3 4");
}

#[test]
fn the_bound_is_compared_in_microseconds() {
    // The period is not whole ticks; all of 2 comes first.
    assert_eq!(with_end("20500\t5000\t7000\t7000\t19501"), "2 3 8");
    assert_eq!(with_end("20500\t5000\t7000\t7000\t19500"), "3 3 4");
    assert_eq!(with_end("20500\t5001\t7000\t7000\t20000"), "2 3 8");
    // Fields left of it are told first.
    assert_eq!(with_end("20000\t5000\t7000\t20001\t20000"), "2 3 7");
    assert_eq!(with_end("999\t0\t0\t0\t20000"), "2 3 4");
}

#[test]
fn a_late_night() {
    // The night of the page, three ticks later: the first ones go to row 2.
    let events = b"R\t0\nR\t0\nT\t0\nT\t0\nT\t0\nT\t0\nT\t1\nT\t0\nT\t0\nT\t0\nT\t1\nR\t9\n";
    let answers = "\
R\t0\tok
R\t0\tok
T\t0\tN\tempty\t2\t-\t-\t-\t0
T\t1\tN\tempty\t2\t-\t-\t-\t0
T\t2\tN\tempty\t2\t-\t-\t-\t0
T\t3\tN\trun\t0\t0\t-\t-\t0
T\t4\tN\trun\t0\t0\tdone\t0\t0
T\t5\tD1\trun\t1\t0\t-\t-\t0
T\t6\tD2\trun\t1\t0\t-\t-\t0
T\t7\tN\tempty\t1\t-\tcut\t0\t0
T\tno\t9
R\t9\tno\t6
";
    assert_eq!(night(&late(), events), answers);
}

/// One server of one task, its times in ticks of 1 microsecond.
fn single(kind: &str, period: u32, capacity: u32, phase: u32) -> String {
    // A task of an event server needs a timed one beside it; it has no time.
    let (home, degraded) = if kind == "event" { (0, 1) } else { (0, 0) };
    format!(
        "tick\t1\nserver\t0\t{kind}\t9\t{period}\t{capacity}\t{capacity}\t{capacity}\t{phase}\n\
         server\t0\ttimed\t1\t1\t0\t0\t0\n\
         task\t{home}\t{degraded}\t1\tLO\t50\t50\t50\n"
    )
}

/// The ticks at which server 0 is charged, with a job waiting from the start.
fn charged_at(table: &str, ticks: u32) -> Vec<u32> {
    let mut run = Run::fresh(text::read(table.as_bytes()).unwrap());
    run.release(0).unwrap();
    let mut charged = Vec::new();
    for tick in 0..ticks {
        match run.tick(false).unwrap().what {
            What::Run { server: 0, .. } | What::Empty { server: 0 } => charged.push(tick),
            What::Idle => {}
            other => panic!("{other:?}"),
        }
    }
    charged
}

#[test]
fn a_server_starts_at_its_phase_and_is_refilled_from_there() {
    for kind in ["event", "timed"] {
        assert_eq!(charged_at(&single(kind, 5, 2, 0), 12), [0, 1, 5, 6, 10, 11]);
        assert_eq!(charged_at(&single(kind, 5, 2, 1), 12), [1, 2, 6, 7, 11]);
        assert_eq!(charged_at(&single(kind, 5, 2, 4), 16), [4, 5, 9, 10, 14, 15]);
        assert_eq!(charged_at(&single(kind, 5, 5, 3), 6), [3, 4, 5]);
        assert_eq!(charged_at(&single(kind, 20, 2, 19), 19), []);
    }
}

#[test]
fn before_its_phase_a_server_has_no_budget_and_nothing_elapses() {
    let table = text::read(single("timed", 6, 3, 4).as_bytes()).unwrap();
    let mut run = Run::fresh(table);
    let elapsed: Vec<u32> = (0..12)
        .map(|_| {
            run.tick(false).unwrap();
            assert!(run.is_sound());
            run.budgets[0].elapsed
        })
        .collect();
    assert_eq!(elapsed, [0, 0, 0, 0, 1, 2, 3, 4, 5, 6, 1, 2]);
}

/// Gives every server the same phase.
fn all_at(table: &Table, phase: u32) -> Table {
    let mut table = table.clone();
    for server in &mut table.servers {
        server.phase = phase;
    }
    table
}

#[test]
fn a_common_phase_moves_the_night() {
    let mut random = Random(23);
    let mut moved = 0;
    for _ in 0..600 {
        let table = random_table(&mut random);
        let most = table.servers.iter().map(|server| server.period).min().unwrap() - 1;
        let phase = random.within(0, most);
        let mut plain = Run::fresh(all_at(&table, 0));
        let mut late = Run::fresh(all_at(&table, phase));
        for _ in 0..phase {
            assert_eq!(late.tick(false).unwrap().what, What::Idle);
        }
        moved += u32::from(phase > 0);
        for _ in 0..150 {
            if random.chance(40) {
                let task = u64::from(random.within(0, table.tasks.len() as u32));
                assert_eq!(plain.release(task), late.release(task));
                continue;
            }
            let mark = random.chance(30);
            let mut one = plain.tick(mark);
            if let Ok(answer) = &mut one {
                answer.tick += phase;
            }
            assert_eq!(one, late.tick(mark));
            assert_eq!(plain.budgets, late.budgets);
            assert_eq!(plain.queues, late.queues);
        }
    }
    assert!(moved > 200, "{moved}");
}

#[test]
fn charges_are_bounded_by_the_largest_capacity_in_every_period_from_the_phase() {
    let mut random = Random(31);
    for _ in 0..200 {
        let table = random_table(&mut random);
        let mut charges = vec![vec![0; 400]; table.servers.len()];
        let mut run = Run::fresh(table);
        for tick in 0..300_u32 {
            let task = random.within(0, run.table.tasks.len() as u32 - 1);
            let _ = run.release(u64::from(task));
            let answer = run.tick(false).unwrap();
            let (What::Run { server, .. } | What::Empty { server }) = answer.what else { continue };
            let row = &run.table.servers[server];
            assert!(tick >= row.phase);
            charges[server][((tick - row.phase) / row.period) as usize] += 1;
        }
        for (server, charges) in run.table.servers.iter().zip(charges) {
            assert!(charges.iter().all(|&count| count <= server.largest_capacity()));
        }
    }
}

#[test]
fn modes_do_not_look_at_phases() {
    // Task 0 overruns on server 0; then its job waits for server 1, which starts at
    // tick 9, and holds the mode meanwhile.
    let table = "tick\t1\nserver\t0\tevent\t9\t20\t20\t20\t20\n\
                 server\t0\ttimed\t1\t20\t20\t20\t20\t9\n\
                 task\t0\t1\t1\tHI\t2\t3\t4\ntask\t0\t1\t2\tLO\t9\t9\t9\n";
    let mut events = "R\t0\nT\t0\nT\t0\nT\t0\nT\t0\nR\t1\n".to_string();
    events += &"T\t0\n".repeat(7);
    let answers = night(table, events.as_bytes());
    let modes: Vec<&str> = answers
        .lines()
        .filter(|line| line.starts_with('T'))
        .map(|line| line.split('\t').nth(2).unwrap())
        .collect();
    assert_eq!(modes, ["N", "N", "D1", "D1", "D1", "D1", "D1", "D1", "D1", "D1", "D1"]);
    assert!(answers.contains("T\t8\tD1\tidle\t-\t-\t-\t-\t0\nT\t9\tD1\trun\t1\t1\t-\t-\t0\n"));
}

#[test]
fn in_the_report_a_server_before_its_phase_waits() {
    let page = |table: &str, events: &str| {
        let mut run = Run::fresh(text::read(table.as_bytes()).unwrap());
        let mut out = Vec::new();
        report_events(&mut run, &mut events.as_bytes(), &mut out).unwrap();
        String::from_utf8(out).unwrap()
    };
    let events = "R\t0\n".to_string() + &"T\t0\n".repeat(6);
    assert!(page(&single("event", 9, 1, 4), &events).starts_with("server\t0\t1\t0\t4\n"));
    // Charged at ticks 1 and 2, then passed over.
    assert!(page(&single("timed", 9, 2, 1), &events).starts_with("server\t0\t2\t0\t3\n"));
    // The row of ticks goes on over the phase where the server has no time then.
    assert!(page(&single("event", 9, 0, 4), &events).starts_with("server\t0\t0\t0\t6\n"));
}

#[test]
fn verdicts_do_not_look_at_phases() {
    let mut random = Random(41);
    for _ in 0..300 {
        let table = random_table(&mut random);
        let plain = all_at(&table, 0);
        assert_eq!(verdict::lines(&table), verdict::lines(&plain));
        assert_eq!(fits::line(&table), fits::line(&plain));
    }
}

#[test]
fn a_table_is_sound_if_each_phase_is_below_its_period() {
    let mut table = example();
    for (phase, sound) in [(0, true), (19, true), (20, false), (21, false), (u32::MAX, false)] {
        table.servers[1].phase = phase;
        assert_eq!(table.keeps_the_rules(), sound, "{phase}");
    }
}

#[test]
fn a_state_is_sound_if_servers_before_their_phase_have_no_budget() {
    let mut table = example();
    table.servers[1].phase = 7;
    for (used, elapsed) in [(0, 0), (0, 1), (1, 1), (5, 20)] {
        for ticks in [0, 6, 7, 8, 4_000_000_000] {
            let mut run = Run::fresh(table.clone());
            run.ticks = ticks;
            run.budgets[1] = Budget { used, elapsed };
            assert_eq!(run.is_sound(), ticks >= 7 || elapsed == 0, "{used} {elapsed} {ticks}");
        }
    }
}

#[test]
fn the_phase_is_an_eighth_number_of_states() {
    let block = |phase: &str, ticks: u32, budget: &str, operation: &str| {
        answer_blocks(&format!(
            "table\t10\t1\t1\nserver\t0\t1\t1\t4\t2\t2\t2{phase}\ntask\t0\t0\t1\t0\t1\t1\t1\n\
             state\t0\t{ticks}\t0\t0\t0\nbudget\t{budget}\n{operation}\n"
        ))
    };
    let text = "write\t60\ntick\t10\nserver\t0\ttimed\t1\t40\t20\t20\t20";
    let task = "\ntask\t0\t0\t1\tLO\t10\t10\t10\n";
    assert_eq!(block("\t0", 0, "0\t0", "write\t60"), Ok(format!("{text}{task}")));
    assert_eq!(block("", 0, "0\t0", "write\t60"), Ok(format!("{text}{task}")));
    assert_eq!(block("\t3", 0, "0\t0", "write\t62"), Ok("no\t12\n".to_string()));
    let late = format!("{}\t30{task}", text.replace("60", "63"));
    assert_eq!(block("\t3", 0, "0\t0", "write\t63"), Ok(late));

    let idle = "tick\t2\t0\t0\t0\t0\t0\t0\t0\nstate\t0\t3\t0\t0\t0\nbudget\t0\t0\nqueue\t0\t0\n";
    assert_eq!(block("\t3", 2, "0\t0", "tick\t0"), Ok(idle.to_string()));
    let empty = "tick\t3\t0\t1\t0\t0\t0\t0\t0\nstate\t0\t4\t0\t0\t0\nbudget\t1\t1\nqueue\t0\t0\n";
    assert_eq!(block("\t3", 3, "0\t0", "tick\t0"), Ok(empty.to_string()));
    let refilled = empty.replace("tick\t3", "tick\t7").replace("0\t4\t0", "0\t8\t0");
    assert_eq!(block("\t3", 7, "2\t4", "tick\t0"), Ok(refilled));

    for operation in ["tick\t0", "release\t0", "fits_state"] {
        assert_eq!(block("\t3", 2, "0\t1", operation), Ok("no\t13\n".to_string()));
        assert_ne!(block("\t3", 3, "0\t1", operation), Ok("no\t13\n".to_string()));
    }
    for operation in ["fresh", "fits", "verdict\t0\t0", "write\t99"] {
        assert_ne!(block("\t3", 2, "0\t1", operation), Ok("no\t13\n".to_string()));
        assert_eq!(block("\t4", 9, "0\t0", operation), Ok("no\t13\n".to_string()));
        assert_eq!(block("\t4294967295", 9, "0\t0", operation), Ok("no\t13\n".to_string()));
    }
    for broken in ["\t4294967296", "\t3\t3", "\t"] {
        assert!(block(broken, 0, "0\t0", "fresh").is_err(), "{broken:?}");
    }
}
