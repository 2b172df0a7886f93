//! Step 1 as request No. 4 has it: at its limit a job raises the mode only if its
//! level lies above it, and is cut otherwise.

mod common;

use common::{night, random_table, Random, EXAMPLE};
use second::run::{Answer, Budget, How, Left, Queue, Run, What};
use second::table::{Kind, Level, Mode, Server, Table, Task};
use Level::{Hi, Lo, Mi};
use Mode::{D1, D2, N};

/// A run in the mode whose last tick ran task 0, now at its limit. Beside it two
/// jobs of each of the other levels wait, at lower tasks. One timed server has
/// time for all.
fn at_limit(level: Level, limit: [u32; 3], mode: Mode, others: &[Level]) -> Run {
    let server = Server {
        partition: 0,
        kind: Kind::Timed,
        priority: 1,
        period: 90,
        capacity: [90; 3],
        phase: 0,
    };
    let task = |priority, level, limit| Task { home: 0, degraded: 0, priority, level, limit };
    let mut tasks = vec![task(9, level, limit)];
    let mut queues = vec![Queue { waiting: 1, run: limit[mode.index()] }];
    for (priority, &other) in (1..8).rev().zip(others) {
        tasks.push(task(priority, other, [5, 5, 5]));
        queues.push(Queue { waiting: 2, run: 1 });
    }
    Run {
        table: Table { tick: 1, servers: vec![server], tasks },
        mode,
        ticks: 40,
        accepted: 20,
        last: Some(0),
        budgets: vec![Budget { used: 30, elapsed: 40 }],
        queues,
    }
}

/// The answer of tick 40 in which task 0 was cut or not.
fn answer(mode: Mode, cut: bool, what: What, discarded: u32) -> Answer {
    let left = cut.then_some(Left { how: How::Cut, task: 0 });
    Answer { tick: 40, mode, what, left, discarded }
}

fn runs(task: usize) -> What {
    What::Run { server: 0, task }
}

const EMPTY: What = What::Empty { server: 0 };

#[test]
fn every_level_in_every_mode() {
    for (level, mode, after, cut) in [
        (Lo, N, N, true),
        (Mi, N, D1, false),
        (Hi, N, D1, false),
        (Lo, D1, D1, true),
        (Mi, D1, D1, true),
        (Hi, D1, D2, false),
        (Mi, D2, D2, true),
        (Hi, D2, D2, true),
    ] {
        let mut run = at_limit(level, [2, 4, 6], mode, &[Mi]);
        assert!(run.is_sound());
        let what = runs(usize::from(cut));
        assert_eq!(run.tick(false), Ok(answer(after, cut, what, 0)), "{level:?} {mode:?}");
        assert_eq!(run.mode, after);
        assert!(run.is_sound());
        // One tick below its limit it is not judged.
        let mut run = at_limit(level, [2, 4, 6], mode, &[Mi]);
        run.queues[0].run -= 1;
        assert_eq!(run.tick(false), Ok(answer(mode, false, runs(0), 0)), "{level:?} {mode:?}");
    }
    // No LO job waits in D2.
    assert!(!at_limit(Lo, [2, 4, 6], D2, &[Mi]).is_sound());
}

#[test]
fn a_mi_job_with_equal_limits_is_cut_in_d1() {
    // It rises to D1, is at its limit there too, and its level does not lie above
    // D1. The LO jobs are not discarded, as the mode does not enter D2.
    for limit in [[2, 2, 6], [2, 2, 2]] {
        let mut run = at_limit(Mi, limit, N, &[Lo, Hi]);
        assert_eq!(run.tick(false), Ok(answer(D1, true, runs(1), 0)), "{limit:?}");
        assert_eq!(run.queues[1], Queue { waiting: 2, run: 2 });
        // Alone, the rise is taken back.
        let mut run = at_limit(Mi, limit, N, &[]);
        assert_eq!(run.tick(false), Ok(answer(N, true, EMPTY, 0)), "{limit:?}");
        assert_eq!((run.mode, run.last), (N, None));
    }
    // With a longer limit in D1 it runs on there.
    let mut run = at_limit(Mi, [2, 3, 3], N, &[Lo, Hi]);
    assert_eq!(run.tick(false), Ok(answer(D1, false, runs(0), 0)));
    let cut = Answer { tick: 41, ..answer(D1, true, runs(1), 0) };
    assert_eq!(run.tick(false), Ok(cut));
}

#[test]
fn a_hi_job_rises_twice_where_two_limits_are_equal() {
    let mut run = at_limit(Hi, [2, 2, 6], N, &[Lo, Mi]);
    assert_eq!(run.tick(false), Ok(answer(D2, false, runs(0), 2)));
    assert_eq!(run.queues[0], Queue { waiting: 1, run: 3 });
    assert_eq!(run.queues[1], Queue { waiting: 0, run: 0 });
    // Where they are not, it rises once, whatever the limit in D2.
    for limit in [[2, 3, 3], [2, 3, 6]] {
        let mut run = at_limit(Hi, limit, N, &[Lo, Mi]);
        assert_eq!(run.tick(false), Ok(answer(D1, false, runs(0), 0)), "{limit:?}");
        assert_eq!(run.queues[1], Queue { waiting: 2, run: 1 });
    }
}

#[test]
fn a_hi_job_with_equal_limits_is_cut_in_d2() {
    for (limit, mode) in [([2, 2, 2], N), ([2, 2, 2], D1), ([2, 4, 4], D1)] {
        // A MI job waits, so the mode stays; LO jobs are discarded.
        let mut run = at_limit(Hi, limit, mode, &[Lo, Mi]);
        assert_eq!(run.tick(false), Ok(answer(D2, true, runs(2), 2)));
        // Only LO jobs wait: they are discarded, and the rise is taken back.
        let mut run = at_limit(Hi, limit, mode, &[Lo, Lo]);
        assert_eq!(run.tick(false), Ok(answer(N, true, EMPTY, 4)));
        assert_eq!(run.queues, vec![Queue { waiting: 0, run: 0 }; 3]);
        // Nothing waits.
        let mut run = at_limit(Hi, limit, mode, &[]);
        assert_eq!(run.tick(false), Ok(answer(N, true, EMPTY, 0)));
    }
}

#[test]
fn a_lo_fault_in_n_is_like_an_end_mark() {
    for limit in [[2, 2, 2], [2, 2, 3], [2, 4, 6]] {
        for others in [&[][..], &[Lo], &[Mi], &[Hi], &[Lo, Mi, Hi]] {
            let (mut cut, mut done) =
                (at_limit(Lo, limit, N, others), at_limit(Lo, limit, N, others));
            let what = if others.is_empty() { EMPTY } else { runs(1) };
            assert_eq!(cut.tick(false), Ok(answer(N, true, what, 0)));
            let left = Some(Left { how: How::Done, task: 0 });
            assert_eq!(done.tick(true), Ok(Answer { left, ..answer(N, true, what, 0) }));
            assert_eq!(cut, done);
        }
    }
}

/// The mode after step 1 and whether the job is cut, for mark 0, case by case.
fn case_by_case(level: Level, mode: Mode, run: u32, [n, d1, d2]: [u32; 3]) -> (Mode, bool) {
    match (mode, level) {
        (N, Lo) => (N, run == n),
        (N, Mi) if run == n => (D1, run == d1),
        (N, Hi) if run == n && run == d1 => (D2, run == d2),
        (N, Hi) if run == n => (D1, false),
        (N, Mi | Hi) => (N, false),
        (D1, Lo | Mi) => (D1, run == d1),
        (D1, Hi) if run == d1 => (D2, run == d2),
        (D1, Hi) => (D1, false),
        (D2, _) => (D2, run == d2),
    }
}

#[test]
fn random_nights_rise_and_cut_case_by_case() {
    let mut random = Random(23);
    let (mut lo_in_n, mut others_cut, mut to_d1, mut to_d2, mut taken_back) = (0, 0, 0, 0, 0);
    for _ in 0..500 {
        let table = random_table(&mut random);
        let rows = table.tasks.len() as u32;
        let mut run = Run::fresh(table);
        for _ in 0..300 {
            if random.chance(30) {
                let _ = run.release(u64::from(random.within(0, rows - 1)));
            }
            let before = run.clone();
            let mark = random.chance(15);
            let Ok(answer) = run.tick(mark) else { continue };
            let Some(row) = before.last else {
                assert_eq!((answer.mode, answer.left, answer.discarded), (before.mode, None, 0));
                continue;
            };
            let task = &before.table.tasks[row];
            let (risen, cut) = if mark {
                (before.mode, false)
            } else {
                case_by_case(task.level, before.mode, before.queues[row].run, task.limit)
            };
            let how = if mark { Some(How::Done) } else { cut.then_some(How::Cut) };
            assert_eq!(answer.left, how.map(|how| Left { how, task: row }), "{before:?}");

            // Steps 2 and 3 over the jobs that wait after step 1.
            let mut waiting: Vec<u32> = before.queues.iter().map(|queue| queue.waiting).collect();
            waiting[row] -= u32::from(how.is_some());
            let mut discarded = 0;
            for (jobs, task) in waiting.iter_mut().zip(&before.table.tasks) {
                if risen == D2 && before.mode != D2 && task.level == Lo {
                    discarded += std::mem::take(jobs);
                }
            }
            let mode = if waiting.iter().all(|&jobs| jobs == 0) { N } else { risen };
            assert_eq!((answer.mode, answer.discarded), (mode, discarded), "{before:?}");
            let after: Vec<u32> = run.queues.iter().map(|queue| queue.waiting).collect();
            assert_eq!(after, waiting);

            if cut && task.level == Lo && before.mode == N {
                lo_in_n += 1;
                let mut done = before.clone();
                let left = Some(Left { how: How::Done, task: row });
                assert_eq!(done.tick(true), Ok(Answer { left, ..answer }));
                assert_eq!(done, run);
            } else if cut {
                others_cut += 1;
            }
            to_d1 += u32::from(before.mode == N && answer.mode == D1);
            to_d2 += u32::from(before.mode != D2 && answer.mode == D2);
            taken_back += u32::from(risen != before.mode && answer.mode == N);
        }
    }
    let seen = [lo_in_n, others_cut, to_d1, to_d2, taken_back];
    assert!(seen.iter().all(|&count| count > 100), "{seen:?}");
}

#[test]
fn a_night_of_the_panel() {
    // Task 1 rises to D1 at its limit of 3 and is cut there at 4. In D1 and, with
    // the mode fallen back, in N too, a job of task 2 is cut at its limit of 2.
    let events = b"R\t2\nR\t2\nR\t1\nT\t0\nT\t0\nT\t0\nT\t0\nT\t0\nT\t0\nT\t0\nT\t0\nT\t0\nT\t0\n\
        T\t1\nR\t2\nT\t0\nT\t0\nT\t0\n";
    let answers = "\
R\t2\tok
R\t2\tok
R\t1\tok
T\t0\tN\trun\t1\t1\t-\t-\t0
T\t1\tN\trun\t1\t1\t-\t-\t0
T\t2\tN\trun\t1\t1\t-\t-\t0
T\t3\tD1\trun\t1\t1\t-\t-\t0
T\t4\tD1\tempty\t1\t-\tcut\t1\t0
T\t5\tD1\tempty\t1\t-\t-\t-\t0
T\t6\tD1\tempty\t1\t-\t-\t-\t0
T\t7\tD1\trun\t2\t2\t-\t-\t0
T\t8\tD1\trun\t2\t2\t-\t-\t0
T\t9\tD1\trun\t2\t2\tcut\t2\t0
T\t10\tN\tempty\t2\t-\tdone\t2\t0
R\t2\tok
T\t11\tN\trun\t2\t2\t-\t-\t0
T\t12\tN\trun\t2\t2\t-\t-\t0
T\t13\tN\tempty\t2\t-\tcut\t2\t0
";
    assert_eq!(night(EXAMPLE, events), answers);
}
