//! Pages of `report`, worked out by hand, and held against the answers.

mod common;

use std::io::{self, BufRead, BufReader, Read};

use common::{night, random_table, Random, EXAMPLE};
use second::report::report_events;
use second::run::{Run, What, MAX_COUNT};
use second::table::Mode;
use second::text;

fn page_of(run: &mut Run, mut events: impl BufRead) -> String {
    let mut out = Vec::new();
    report_events(run, &mut events, &mut out).unwrap();
    String::from_utf8(out).unwrap()
}

/// The page of a good table and event lines, given parted by blanks: `R2` for
/// a release of task 2, `T0` for a tick with mark 0, anything else as it is.
fn page(table: &str, events: &str) -> String {
    let mut run = Run::fresh(text::read(table.as_bytes()).unwrap());
    page_of(&mut run, lines(events).as_bytes())
}

fn lines(events: &str) -> String {
    let mut text = String::new();
    for event in events.split_whitespace() {
        match event.split_at(1) {
            (kind @ ("R" | "T"), number) => text += &format!("{kind}\t{number}\n"),
            _ => text += &format!("{event}\n"),
        }
    }
    text
}

#[test]
fn the_night_of_the_page() {
    let expected = "\
server\t0\t2\t0\t0
server\t1\t3\t1\t0
server\t2\t0\t0\t0
task\t0\t1\t1\t0\t0
task\t1\t0\t0\t0\t0
task\t2\t0\t0\t0\t0
mode\tN\t3
mode\tD1\t1
mode\tD2\t1
";
    assert_eq!(page(EXAMPLE, "R0 R0 T0 T1 T0 T0 T0 T1 R9"), expected);
}

#[test]
fn no_line_no_event_or_no_tick_gives_zeros() {
    let zeros = "\
server\t0\t0\t0\t0
server\t1\t0\t0\t0
server\t2\t0\t0\t0
task\t0\t0\t0\t0\t0
task\t1\t0\t0\t0\t0
task\t2\t0\t0\t0\t0
mode\tN\t0
mode\tD1\t0
mode\tD2\t0
";
    assert_eq!(page(EXAMPLE, ""), zeros);
    assert_eq!(page(EXAMPLE, "x T1 R3 T2 R00 R99999999999 T1"), zeros);
    // Unclosed, so no event.
    let mut run = Run::fresh(text::read(EXAMPLE.as_bytes()).unwrap());
    assert_eq!(page_of(&mut run, &b"T\t0"[..]), zeros);
    let mut run = Run::fresh(text::read(EXAMPLE.as_bytes()).unwrap());
    assert_eq!(page_of(&mut run, &b"R\t0"[..]), zeros);
    // Jobs wait, but no tick found them waiting.
    let waiting = zeros.replace("task\t1\t0\t0\t0\t0", "task\t1\t0\t0\t0\t2");
    assert_eq!(page(EXAMPLE, "R1 R1"), waiting);
}

#[test]
fn refused_lines_and_releases_do_not_break_a_row_of_ticks() {
    // Server 1 has five empty ticks, in which server 2 waits: refused in
    // between are a mark without a job, another line, a release and a mark 2.
    // Server 2 then runs twice, its job ends, and it runs the next one. The
    // last line is unclosed.
    let mut events = lines("R2 T0 T1 T0 x T0 R9 T2 T0 R2 T0 T0 T0 T1");
    events += "T\t0";
    let expected = "\
server\t0\t0\t0\t0
server\t1\t5\t5\t0
server\t2\t3\t0\t5
task\t0\t0\t0\t0\t0
task\t1\t0\t0\t0\t0
task\t2\t1\t0\t0\t1
mode\tN\t8
mode\tD1\t0
mode\tD2\t0
";
    let mut run = Run::fresh(text::read(EXAMPLE.as_bytes()).unwrap());
    assert_eq!(page_of(&mut run, events.as_bytes()), expected);
}

#[test]
fn at_capacity_0_a_job_waits_uncharged() {
    // Server 0 has no capacity in N: it waits four ticks, three of which are
    // empty ones of server 1 while the last runs task 1. That overruns, and in
    // D1 server 0 has two ticks, the second one empty, while server 1 waits.
    let table = "\
tick\t1
server\t0\ttimed\t2\t4\t0\t4\t4
server\t0\ttimed\t1\t4\t4\t4\t4
task\t0\t0\t9\tLO\t1\t1\t1
task\t1\t1\t8\tHI\t1\t2\t2
";
    let expected = "\
server\t0\t2\t1\t4
server\t1\t4\t3\t2
task\t0\t1\t0\t0\t0
task\t1\t0\t0\t0\t1
mode\tN\t4
mode\tD1\t2
mode\tD2\t0
";
    assert_eq!(page(table, "R0 T0 T0 T0 R1 T0 T0 T1"), expected);

    // No capacity anywhere: the ticks are idle.
    let table = "tick\t1\nserver\t0\ttimed\t1\t1\t0\t0\t0\ntask\t0\t0\t1\tLO\t1\t1\t1\n";
    let expected = "\
server\t0\t0\t0\t2
task\t0\t0\t0\t0\t1
mode\tN\t3
mode\tD1\t0
mode\tD2\t0
";
    assert_eq!(page(table, "T0 R0 T0 T0"), expected);
}

#[test]
fn discards_count_for_their_tasks() {
    // Task 0 overruns into D2 in one tick, so that two jobs of task 1 and three
    // of task 2 are discarded; in D2 it runs on and is cut. A LO release there
    // is refused. Task 3 runs, ends, and the mode is N again.
    let table = "\
tick\t1
server\t0\ttimed\t5\t10\t10\t10\t10
task\t0\t0\t9\tHI\t1\t1\t3
task\t0\t0\t8\tLO\t2\t2\t2
task\t0\t0\t7\tLO\t2\t2\t2
task\t0\t0\t6\tHI\t1\t1\t1
";
    let expected = "\
server\t0\t5\t1\t0
task\t0\t0\t1\t0\t0
task\t1\t0\t0\t2\t0
task\t2\t0\t0\t3\t0
task\t3\t1\t0\t0\t0
mode\tN\t2
mode\tD1\t0
mode\tD2\t3
";
    assert_eq!(page(table, "R0 R1 R1 R2 R2 R2 R3 T0 T0 R1 T0 T0 T1"), expected);

    // A MI job in its place rises to D1 only and is cut there, and nothing is
    // discarded. Then task 1 runs twice and is cut, with one job more, which
    // runs and ends; task 2 runs.
    let table = table.replace("HI\t1\t1\t3", "MI\t1\t1\t3");
    let expected = "\
server\t0\t5\t0\t0
task\t0\t0\t1\t0\t0
task\t1\t1\t1\t0\t0
task\t2\t0\t0\t0\t3
task\t3\t0\t0\t0\t1
mode\tN\t1
mode\tD1\t4
mode\tD2\t0
";
    assert_eq!(page(&table, "R0 R1 R1 R2 R2 R2 R3 T0 T0 T0 T0 T1"), expected);
}

#[test]
fn a_lo_job_cut_in_n_counts_in_n() {
    // Task 0 is cut twice, each time at its limit of 2. The two jobs of task 1
    // wait meanwhile at server 1, four ticks long, and then run, the first one
    // to its end. No tick is in another mode.
    let table = "\
tick\t1
server\t0\tevent\t2\t9\t9\t0\t0
server\t0\ttimed\t1\t9\t9\t9\t9
task\t0\t1\t9\tLO\t2\t5\t7
task\t1\t1\t8\tHI\t2\t3\t4
";
    let expected = "\
server\t0\t4\t0\t0
server\t1\t2\t0\t4
task\t0\t0\t2\t0\t0
task\t1\t1\t0\t0\t1
mode\tN\t6
mode\tD1\t0
mode\tD2\t0
";
    assert_eq!(page(table, "R0 R0 R1 R1 T0 T0 T0 T0 T0 T1"), expected);
}

#[test]
fn a_rise_taken_back_counts_in_n() {
    // Task 0 overruns through D1 and D2 and is cut; the jobs of task 1 are
    // discarded, and with none waiting the tick is in N. Server 1 has waited in
    // the tick before, but not in this one, as step 5 finds it.
    let table = "\
tick\t1
server\t0\ttimed\t2\t4\t4\t4\t4
server\t0\ttimed\t1\t4\t4\t4\t4
task\t0\t0\t9\tHI\t1\t1\t1
task\t1\t1\t8\tLO\t1\t1\t1
";
    let expected = "\
server\t0\t2\t1\t0
server\t1\t0\t0\t1
task\t0\t0\t1\t0\t0
task\t1\t0\t0\t2\t0
mode\tN\t2
mode\tD1\t0
mode\tD2\t0
";
    assert_eq!(page(table, "R0 R1 R1 T0 T0"), expected);
}

#[test]
fn event_and_timed_servers() {
    // Tick by tick: server 0 runs task 0; server 1 runs task 1 twice; idle, both
    // used up; server 0 runs task 0 again; in D1 server 1 runs task 0, now its
    // own, then task 1; in N again, idle, server 1 being used up; empty. Server
    // 0 waits in ticks 1 to 3, server 1 in tick 0 and in ticks 3 and 4.
    let table = "\
tick\t1
server\t0\tevent\t3\t4\t1\t0\t0
server\t0\ttimed\t2\t4\t2\t4\t4
task\t0\t1\t9\tHI\t2\t3\t4
task\t1\t1\t8\tLO\t5\t5\t5
";
    let expected = "\
server\t0\t2\t0\t3
server\t1\t5\t1\t2
task\t0\t1\t0\t0\t0
task\t1\t1\t0\t0\t0
mode\tN\t7
mode\tD1\t2
mode\tD2\t0
";
    assert_eq!(page(table, "R0 R1 T0 T0 T0 T0 T0 T0 T1 T1 T0"), expected);
}

#[test]
fn p11_sixteen_jobs_wait() {
    let releases = "R2 ".repeat(17);
    let expected = "\
server\t0\t0\t0\t0
server\t1\t5\t5\t0
server\t2\t2\t0\t5
task\t0\t0\t0\t0\t0
task\t1\t0\t0\t0\t0
task\t2\t1\t0\t0\t16
mode\tN\t7
mode\tD1\t0
mode\tD2\t0
";
    assert_eq!(page(EXAMPLE, &format!("{releases} T0 T0 T0 T0 T0 T0 T1 R2")), expected);
}

#[test]
fn a_tick_refused_10_counts_nowhere() {
    let table = "tick\t1\nserver\t0\ttimed\t1\t1\t0\t0\t0\ntask\t0\t0\t1\tLO\t1\t1\t1\n";
    let mut run = Run::fresh(text::read(table.as_bytes()).unwrap());
    run.ticks = MAX_COUNT - 2;
    let expected = "\
server\t0\t0\t0\t2
task\t0\t0\t0\t0\t1
mode\tN\t2
mode\tD1\t0
mode\tD2\t0
";
    assert_eq!(page_of(&mut run, lines("R0 T0 T0 T0 T0").as_bytes()), expected);
}

/// Hands out its text in parts of the given sizes, and is interrupted between.
struct Parts<'a> {
    text: &'a [u8],
    sizes: Vec<usize>,
    next: usize,
}

impl Read for Parts<'_> {
    fn read(&mut self, buffer: &mut [u8]) -> io::Result<usize> {
        self.next += 1;
        if self.next % 3 == 0 {
            return Err(io::ErrorKind::Interrupted.into());
        }
        let size = self.sizes[self.next % self.sizes.len()];
        let size = size.min(buffer.len()).min(self.text.len());
        buffer[..size].copy_from_slice(&self.text[..size]);
        self.text = &self.text[size..];
        Ok(size)
    }
}

#[test]
fn the_cutting_into_reads_does_not_show() {
    let mut events = lines("R2 T0 T1 T0 x T0 R9 T2 T0 R2 R99999999999 R00000000002 T0 T0");
    events += &format!("R\t2{}\n", "0".repeat(40));
    events += &format!("T\t0{}\n", "\t0".repeat(40));
    events += &lines("R0 T0 T1 T0 T0 T0 R0 T0 T0 T0");
    let fresh = || Run::fresh(text::read(EXAMPLE.as_bytes()).unwrap());
    let whole = page_of(&mut fresh(), events.as_bytes());
    // Server 1 has five empty ticks, server 2 runs task 2, server 0 runs task 0
    // to its end. Both jobs of task 2 run twice and are cut in N, and server 2
    // has an empty tick. Task 0 runs once more, in N, in D1 and in D2.
    let expected = "\
server\t0\t2\t0\t0
server\t1\t7\t5\t0
server\t2\t5\t1\t5
task\t0\t1\t0\t0\t1
task\t1\t0\t0\t0\t0
task\t2\t0\t2\t0\t0
mode\tN\t12
mode\tD1\t1
mode\tD2\t1
";
    assert_eq!(whole, expected);
    for capacity in 1..40 {
        for sizes in [vec![1], vec![2, 3], vec![4], vec![1, 7, 5], vec![13, 14, 15], vec![100]] {
            let parts = Parts { text: events.as_bytes(), sizes, next: 0 };
            let reader = BufReader::with_capacity(capacity, parts);
            assert_eq!(page_of(&mut fresh(), reader), whole, "{capacity}");
        }
    }
}

#[test]
fn a_fault_of_the_file_prints_nothing() {
    struct Broken;
    impl Read for Broken {
        fn read(&mut self, _: &mut [u8]) -> io::Result<usize> {
            Err(io::Error::other("broken"))
        }
    }
    let mut run = Run::fresh(text::read(EXAMPLE.as_bytes()).unwrap());
    let start = lines("R0 T0");
    let mut events = BufReader::new(start.as_bytes().chain(Broken));
    let mut out = Vec::new();
    assert!(report_events(&mut run, &mut events, &mut out).is_err());
    assert!(out.is_empty());
}

/// A page counted slowly: each tick is kept, with who waits in it.
fn slow_page(run: &mut Run, events: &str) -> String {
    let (servers, tasks) = (run.table.servers.len(), run.table.tasks.len());
    let mut released = vec![0; tasks];
    let mut left = vec![[0; 2]; tasks];
    let mut ticks = Vec::new();
    for line in events.lines() {
        let before = run.clone();
        match line.split_once('\t') {
            Some(("R", task)) => {
                if run.release(task.parse().unwrap()).is_ok() {
                    released[task.parse::<usize>().unwrap()] += 1;
                }
            }
            Some(("T", mark)) => {
                let Ok(answer) = run.tick(mark == "1") else {
                    assert_eq!(*run, before);
                    continue;
                };
                if let Some(job) = answer.left {
                    left[job.task][job.how as usize] += 1;
                }
                // A task waits in a tick if it did before, less what the tick
                // took away.
                let mut waits = vec![false; servers];
                for (row, task) in run.table.tasks.iter().enumerate() {
                    let mut jobs = before.queues[row].waiting;
                    if answer.left.is_some_and(|job| job.task == row) {
                        jobs -= 1;
                    }
                    if answer.discarded > 0 && task.level == second::table::Level::Lo {
                        jobs = 0;
                    }
                    let server = if answer.mode == Mode::N { task.home } else { task.degraded };
                    waits[server as usize] |= jobs > 0;
                }
                ticks.push((answer, waits));
            }
            _ => panic!("{line}"),
        }
    }

    let mut page = String::new();
    for server in 0..servers {
        let charge = |what: What| match what {
            What::Run { server: row, .. } | What::Empty { server: row } => row == server,
            What::Idle => false,
        };
        let charged = ticks.iter().filter(|(answer, _)| charge(answer.what)).count();
        let empty =
            ticks.iter().filter(|(answer, _)| answer.what == What::Empty { server }).count();
        let longest = ticks
            .split(|(answer, waits)| charge(answer.what) || !waits[server])
            .map(<[_]>::len)
            .max()
            .unwrap();
        page += &format!("server\t{server}\t{charged}\t{empty}\t{longest}\n");
    }
    for task in 0..tasks {
        // What was released and neither left nor waits was discarded.
        let [finished, cut] = left[task];
        let waiting = run.queues[task].waiting;
        let discarded = released[task] - finished - cut - waiting;
        page += &format!("task\t{task}\t{finished}\t{cut}\t{discarded}\t{waiting}\n");
    }
    for mode in Mode::ALL {
        let count = ticks.iter().filter(|(answer, _)| answer.mode == mode).count();
        page += &format!("mode\t{}\t{count}\n", mode.word());
    }
    page
}

#[test]
fn pages_of_random_nights_agree_with_slow_ones() {
    let mut random = Random(11);
    let (mut two_discarded, mut long_rows) = (0, 0);
    for _ in 0..600 {
        let table = random_table(&mut random);
        let tasks = table.tasks.len() as u32;
        let (release, mark) = (random.within(5, 60), random.within(0, 40));
        let mut events = String::new();
        for _ in 0..300 {
            if random.chance(release) {
                events += &format!("R\t{}\n", random.within(0, tasks));
            } else {
                events += &format!("T\t{}\n", u32::from(random.chance(mark)));
            }
        }
        let slow = slow_page(&mut Run::fresh(table.clone()), &events);
        let page = page_of(&mut Run::fresh(table.clone()), events.as_bytes());
        assert_eq!(page, slow, "{table:?}\n{events}");

        let column = |word: &str, place: usize| -> Vec<u64> {
            let rows = page.lines().filter(|line| line.starts_with(word));
            rows.map(|line| line.split('\t').nth(place).unwrap().parse().unwrap()).collect()
        };
        two_discarded += u32::from(column("task", 4).iter().filter(|&&n| n > 0).count() >= 2);
        long_rows += u32::from(column("server", 4).iter().any(|&n| n > 5));
        // Nothing is counted that the answers do not show.
        let answers = night(&text::write(&table), events.as_bytes());
        let ticks: Vec<Vec<&str>> = answers
            .lines()
            .filter(|line| line.starts_with('T') && !line.starts_with("T\tno"))
            .map(|line| line.split('\t').collect())
            .collect();
        let idle = ticks.iter().filter(|tick| tick[3] == "idle").count() as u64;
        let discarded: u64 = ticks.iter().map(|tick| tick[8].parse::<u64>().unwrap()).sum();
        assert_eq!(column("mode", 2).iter().sum::<u64>(), ticks.len() as u64);
        assert_eq!(column("server", 2).iter().sum::<u64>() + idle, ticks.len() as u64);
        assert_eq!(column("task", 4).iter().sum::<u64>(), discarded);
    }
    assert!(two_discarded > 50 && long_rows > 50, "{two_discarded} {long_rows}");
}
