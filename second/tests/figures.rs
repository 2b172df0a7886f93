//! The marked figures P1 to P11 and the worked night.

mod common;

use common::{example, night, EXAMPLE};
use second::run::{No, Run, What};
use second::table::{Kind, Level, Mode, Server, Table, Task};
use second::verdict::response;

/// Two servers of one partition with the same capacity in all modes, the first
/// the higher, given as kind, period and capacity.
fn two_servers(higher: (Kind, u32, u32), lower: (Kind, u32, u32)) -> Table {
    let server = |(kind, period, capacity): (Kind, u32, u32), priority| Server {
        partition: 0,
        kind,
        priority,
        period,
        capacity: [capacity; 3],
        phase: 0,
    };
    let table = Table {
        tick: 1000,
        servers: vec![server(higher, 2), server(lower, 1)],
        tasks: vec![Task { home: 1, degraded: 1, priority: 1, level: Level::Hi, limit: [1; 3] }],
    };
    assert!(table.keeps_the_rules());
    table
}

#[test]
fn p1_to_p5() {
    let table = example();
    assert_eq!(response(&table, 0, Mode::N), Some(2));
    assert_eq!(response(&table, 1, Mode::N), Some(9));
    assert_eq!(response(&table, 2, Mode::N), Some(19));
    assert_eq!(response(&table, 2, Mode::D1), Some(15));
    assert_eq!(response(&table, 2, Mode::D2), Some(11));
}

#[test]
fn p6_to_p9() {
    use Kind::{Event, Timed};
    let lower = |higher, lower| response(&two_servers(higher, lower), 1, Mode::N);
    assert_eq!(lower((Timed, 4, 3), (Timed, 6, 2)), None);
    assert_eq!(lower((Timed, 4, 3), (Timed, 4, 1)), Some(4));
    assert_eq!(lower((Timed, 4, 3), (Timed, 3, 1)), None);
    assert_eq!(lower((Event, 4, 2), (Timed, 8, 2)), Some(6));
}

#[test]
fn p10_the_worked_night() {
    let events = b"R\t0\nR\t0\nT\t0\nT\t1\nT\t0\nT\t0\nT\t0\nT\t1\nR\t9\n";
    let answers = "\
R\t0\tok
R\t0\tok
T\t0\tN\trun\t0\t0\t-\t-\t0
T\t1\tN\trun\t0\t0\tdone\t0\t0
T\t2\tD1\trun\t1\t0\t-\t-\t0
T\t3\tD2\trun\t1\t0\t-\t-\t0
T\t4\tN\tempty\t1\t-\tcut\t0\t0
T\tno\t9
R\t9\tno\t6
";
    assert_eq!(night(EXAMPLE, events), answers);
}

#[test]
fn p11_sixteen_jobs_wait() {
    let mut run = Run::fresh(example());
    for _ in 0..16 {
        assert_eq!(run.release(2), Ok(()));
    }
    assert_eq!(run.release(2), Err(No::QueueFull));
    for _ in 0..6 {
        assert!(run.tick(false).is_ok());
    }
    assert!(run.tick(true).is_ok());
    assert_eq!(run.release(2), Ok(()));
}

#[test]
fn idle_ticks_show_dashes() {
    let table = "tick\t1\nserver\t0\ttimed\t1\t2\t1\t1\t1\ntask\t0\t0\t1\tLO\t1\t1\t1\n";
    let answers = "T\t0\tN\tempty\t0\t-\t-\t-\t0\nT\t1\tN\tidle\t-\t-\t-\t-\t0\n";
    assert_eq!(night(table, b"T\t0\nT\t0\n"), answers);
}

#[test]
fn odd_event_lines() {
    let odd: [&[u8]; 21] = [
        b"\n",
        b"R\n",
        b"R\t\n",
        b"R\t00\n",
        b"R\t01\n",
        b"R\t+1\n",
        b"R\t0 \n",
        b"R\t0\r\n",
        b"R\t0\t\n",
        b"R\t100000000000\n",
        b"T\n",
        b"T\t2\n",
        b"T\t10\n",
        b"T\t00\n",
        b"T\t1\r\n",
        b"r\t0\n",
        b" R\t0\n",
        b"R 0\n",
        b"T\t0\0\n",
        b"T\t0",
        b"\0",
    ];
    for line in odd {
        assert_eq!(night(EXAMPLE, line), "?\tno\t1\n", "{line:?}");
    }
    assert_eq!(night(EXAMPLE, b""), "");
    assert_eq!(night(EXAMPLE, b"R\t99999999999\n"), "R\t99999999999\tno\t6\n");
}

#[test]
fn a_rise_is_judged_again_and_taken_back() {
    // All limits equal: a HI job overruns through D1 and D2 and is cut; the LO
    // jobs are discarded on the way, and with none waiting the tick is in N.
    let table = "\
tick\t1
server\t0\ttimed\t1\t4\t4\t4\t4
task\t0\t0\t9\tHI\t1\t1\t1
task\t0\t0\t8\tLO\t1\t1\t1
";
    let answers = "\
R\t0\tok
R\t1\tok
R\t1\tok
T\t0\tN\trun\t0\t0\t-\t-\t0
T\t1\tN\tempty\t0\t-\tcut\t0\t2
";
    assert_eq!(night(table, b"R\t0\nR\t1\nR\t1\nT\t0\nT\t0\n"), answers);
}

#[test]
fn a_lo_job_is_cut_in_n_and_in_d1_and_refused_in_d2() {
    // The LO job is cut in N and the mode stays. The HI job rises to D1 and then
    // to D2, where the next LO job is discarded.
    let table = "\
tick\t1
server\t0\ttimed\t1\t9\t9\t9\t9
task\t0\t0\t8\tHI\t1\t2\t9
task\t0\t0\t9\tLO\t1\t1\t1
";
    let events = b"R\t0\nR\t1\nT\t0\nT\t0\nT\t0\nR\t1\nT\t0\nR\t1\n";
    let answers = "\
R\t0\tok
R\t1\tok
T\t0\tN\trun\t0\t1\t-\t-\t0
T\t1\tN\trun\t0\t0\tcut\t1\t0
T\t2\tD1\trun\t0\t0\t-\t-\t0
R\t1\tok
T\t3\tD2\trun\t0\t0\t-\t-\t1
R\t1\tno\t7
";
    assert_eq!(night(table, events), answers);
    // With a D1 limit of 3 the LO job has its turn in D1, where it is cut.
    let table = table.replace("HI\t1\t2\t9", "HI\t1\t3\t9");
    let events = b"R\t0\nT\t0\nT\t0\nR\t1\nT\t0\nT\t0\nT\t0\nR\t1\n";
    let answers = "\
R\t0\tok
T\t0\tN\trun\t0\t0\t-\t-\t0
T\t1\tD1\trun\t0\t0\t-\t-\t0
R\t1\tok
T\t2\tD1\trun\t0\t1\t-\t-\t0
T\t3\tD1\trun\t0\t0\tcut\t1\t0
T\t4\tD2\trun\t0\t0\t-\t-\t0
R\t1\tno\t7
";
    assert_eq!(night(&table, events), answers);
}

#[test]
fn a_job_released_since_the_last_tick_holds_the_mode() {
    let table = "\
tick\t1
server\t0\ttimed\t1\t9\t9\t9\t9
task\t0\t0\t8\tHI\t1\t9\t9
";
    let mut run = Run::fresh(second::text::read(table.as_bytes()).unwrap());
    run.release(0).unwrap();
    run.tick(false).unwrap();
    assert_eq!(run.tick(false).unwrap().mode, Mode::D1);
    run.release(0).unwrap();
    assert_eq!(run.tick(true).unwrap().mode, Mode::D1);
    assert_eq!(run.tick(true).unwrap().mode, Mode::N);
}

#[test]
fn budgets_stay_over_a_mode_change_and_refill_at_the_period() {
    let table = "\
tick\t1
server\t0\ttimed\t1\t3\t2\t1\t1
task\t0\t0\t8\tHI\t1\t9\t9
";
    let mut run = Run::fresh(second::text::read(table.as_bytes()).unwrap());
    run.release(0).unwrap();
    assert_eq!(run.tick(false).unwrap().what, What::Run { server: 0, task: 0 });
    // One tick is used; in D1 the capacity is 1, so the server is not able.
    assert_eq!(run.tick(false).unwrap().what, What::Idle);
    assert_eq!(run.tick(false).unwrap().what, What::Idle);
    assert_eq!(run.tick(false).unwrap().what, What::Run { server: 0, task: 0 });
}
