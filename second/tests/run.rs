//! Random runs: every state on the way is sound, and no job is lost.

mod common;

use common::{random_table, Random};
use second::run::{How, Run, What};
use second::table::{Kind, Level, Mode};
use second::text;

#[test]
fn jobs_released_are_finished_cut_discarded_or_waiting() {
    let mut random = Random(7);
    let mut seen_cut = 0;
    let mut seen_discarded = 0;
    for _ in 0..400 {
        let table = random_table(&mut random);
        let task_count = table.tasks.len() as u32;
        let mut run = Run::fresh(table);
        let (mut released, mut finished, mut cut, mut discarded) = (0, 0, 0, 0);
        let (release_percent, mark_percent) = (random.within(5, 60), random.within(0, 60));
        for _ in 0..400 {
            let before = run.clone();
            if random.chance(release_percent) {
                match run.release(u64::from(random.within(0, task_count))) {
                    Ok(()) => released += 1,
                    Err(_) => assert_eq!(run, before),
                }
            } else {
                match run.tick(random.chance(mark_percent)) {
                    Ok(answer) => {
                        match answer.left.map(|left| left.how) {
                            Some(How::Done) => finished += 1,
                            Some(How::Cut) => cut += 1,
                            None => {}
                        }
                        discarded += answer.discarded;
                        assert_eq!(answer.tick, before.ticks);
                        assert_eq!(run.ticks, before.ticks + 1);
                        check_charge(&before, &run, answer.what);
                    }
                    Err(_) => assert_eq!(run, before),
                }
            }
            assert!(run.is_sound(), "{run:?} after {before:?}");
            let waiting: u32 = run.queues.iter().map(|queue| queue.waiting).sum();
            assert_eq!(released, finished + cut + discarded + waiting);
            assert_eq!(run.accepted, released);
        }
        seen_cut += cut;
        seen_discarded += discarded;
    }
    assert!(seen_cut > 1000 && seen_discarded > 100, "{seen_cut} {seen_discarded}");
}

/// The charge is the one the answer names, and the server was the highest of
/// those able.
fn check_charge(before: &Run, after: &Run, what: What) {
    let mut charged = Vec::new();
    let mut highest: Option<usize> = None;
    let tick = before.ticks;
    for (row, server) in after.table.servers.iter().enumerate() {
        let mut used = before.budgets[row].used;
        if before.budgets[row].elapsed == server.period {
            used = 0;
        }
        // Periods count from the phase.
        let elapsed =
            if tick < server.phase { 0 } else { (tick - server.phase) % server.period + 1 };
        assert_eq!(after.budgets[row].elapsed, elapsed);
        if after.budgets[row].used != used {
            assert_eq!(after.budgets[row].used, used + 1);
            charged.push(row);
        }
        let work = after.table.tasks.iter().zip(&after.queues).any(|(task, queue)| {
            let server = if after.mode == Mode::N { task.home } else { task.degraded };
            server as usize == row && queue.waiting > 0
        });
        let able = tick >= server.phase
            && used < server.capacity[after.mode.index()]
            && (work || server.kind == Kind::Timed);
        if able && highest.is_none_or(|other| after.table.servers[other].priority < server.priority)
        {
            highest = Some(row);
        }
    }
    let named = match what {
        What::Run { server, .. } | What::Empty { server } => Some(server),
        What::Idle => None,
    };
    assert_eq!(charged, Vec::from_iter(named));
    assert_eq!(highest, named);
}

#[test]
fn writing_then_reading_gives_the_same_table() {
    let mut random = Random(99);
    for _ in 0..2_000 {
        let table = random_table(&mut random);
        let written = text::write(&table);
        assert_eq!(text::read(written.as_bytes()), Ok(table));
    }
}

#[test]
fn no_lo_job_waits_in_d2() {
    let mut random = Random(5);
    let mut ticks_in_d2 = 0;
    for _ in 0..300 {
        let mut run = Run::fresh(random_table(&mut random));
        for _ in 0..200 {
            let task = random.within(0, run.table.tasks.len() as u32 - 1);
            let _ = run.release(u64::from(task));
            let _ = run.tick(random.chance(20));
            if run.mode == Mode::D2 {
                ticks_in_d2 += 1;
                for (task, queue) in run.table.tasks.iter().zip(&run.queues) {
                    assert!(task.level != Level::Lo || queue.waiting == 0);
                }
            }
        }
    }
    assert!(ticks_in_d2 > 1000);
}
