//! The frame box: slots, refusals of frame tables, and the run.

mod common;

use common::Random;
use second::frame::{owner_of, FrameRun, FrameTable, FrameTask};
use second::frame::{ALARM_SENDING, MEASURING, PANEL, SLOTS};
use second::frame_text;
use second::night;
use second::run::{How, TakeEvents, What};

/// A task of each partition.
const EXAMPLE: &str = "tick\t1000\ntask\t0\t5\t2000\ntask\t1\t7\t1000\ntask\t2\t9\t3000\n";

/// The answer to a text: `ok`, or the refusal without its first two words.
fn answer(text: &str) -> String {
    match frame_text::read(text.as_bytes()) {
        Ok(_) => "ok".to_string(),
        Err(refusal) => refusal.to_string().replace("table\tno\t", "").replace('\t', " "),
    }
}

/// The answer to the example with one piece of text exchanged.
fn changed(from: &str, to: &str) -> String {
    assert_eq!(EXAMPLE.matches(from).count(), 1, "{from:?} is in the example once");
    answer(&EXAMPLE.replace(from, to))
}

fn fresh(text: &str) -> FrameRun {
    FrameRun::fresh(frame_text::read(text.as_bytes()).expect("a good table"))
}

/// The answers of a frame night, spaces for tabs.
fn answers(text: &str, events: &str) -> Vec<String> {
    let mut out = Vec::new();
    night::answer_events(&mut fresh(text), &mut events.as_bytes(), &mut out).unwrap();
    String::from_utf8(out).unwrap().lines().map(|line| line.replace('\t', " ")).collect()
}

#[test]
fn every_slot_has_its_owner() {
    for slot in 0..SLOTS {
        let owner = match slot % 12 {
            _ if (600..612).contains(&slot) => MEASURING,
            0 | 3 | 6 | 9 => MEASURING,
            1 | 7 => ALARM_SENDING,
            2 | 4 | 5 | 8 | 10 | 11 => PANEL,
            _ => unreachable!(),
        };
        assert_eq!(owner_of(slot), owner, "{slot}");
    }
    // Measuring has 4 of 12 and 8 more in the self-test; alarm sending loses 2.
    let count = |partition| (0..SLOTS).filter(|&slot| owner_of(slot) == partition).count();
    assert_eq!([count(MEASURING), count(ALARM_SENDING), count(PANEL)], [408, 198, 594]);
}

#[test]
fn any_24_slots_in_a_row_hold_two_for_alarm_sending() {
    let mut least = usize::MAX;
    for start in 0..SLOTS {
        let slots = (start..start + 24).map(|slot| owner_of(slot % SLOTS));
        least = least.min(slots.filter(|&owner| owner == ALARM_SENDING).count());
    }
    assert_eq!(least, 2);
}

#[test]
fn malformed_as_a_line() {
    assert_eq!(answer(EXAMPLE), "ok");
    assert_eq!(answer(""), "1 1 0");
    assert_eq!(answer("\n"), "1 1 0");
    assert_eq!(answer("tick\t1000"), "1 1 0");
    assert_eq!(answer("tick\t1000\n"), "1 2 0");
    assert_eq!(answer(EXAMPLE.trim_end()), "1 4 0");
    assert_eq!(answer(EXAMPLE.replace("\t9\t3000", "\t09\t3000").trim_end()), "1 4 0");
    assert_eq!(answer(&format!("{EXAMPLE}\n")), "1 5 0");
    assert_eq!(answer(&format!("{EXAMPLE}tick\t1000\n")), "1 5 0");
    assert_eq!(answer(&format!("{EXAMPLE}tick\t0\n")), "1 5 0");
    assert_eq!(answer("task\t0\t5\t2000\n"), "1 1 0");
    assert_eq!(answer("task\t0\t0\tx\n"), "1 1 0");
    assert_eq!(changed("tick\t1000\n", ""), "1 1 0");
    assert_eq!(changed("task\t1", "tasks\t1"), "1 3 0");
    assert_eq!(changed("task\t1", "server\t1"), "1 3 0");
    assert_eq!(changed("task\t1", "server\t0\ttimed\t1\t1000\t0\t0\t0\ntask\t1"), "1 3 0");
    assert_eq!(changed("\t7\t1000", "\t7"), "1 3 0");
    assert_eq!(changed("\t7\t1000", "\t7\t1000\t"), "1 3 0");
    assert_eq!(changed("\t7\t1000", "\t7\t1000\t1000\t1000\t1000\t1000\t1000"), "1 3 0");
    assert_eq!(changed("tick\t1000", "tick\t1000\t1"), "1 1 0");
}

#[test]
fn malformed_fields_and_bounds() {
    assert_eq!(changed("tick\t1000", "tick\t01000"), "1 1 1");
    assert_eq!(changed("task\t1\t7\t1000", "task\tx\ty\t0z"), "1 3 1");
    assert_eq!(changed("task\t1\t7\t1000", "task\t3\t0\t0z"), "1 3 3");
    assert_eq!(changed("task\t1\t7\t1000", "task\t3\t+7\t0"), "1 3 2");
    assert_eq!(changed("tick\t1000", "tick\t0"), "2 1 1");
    assert_eq!(changed("tick\t1000", "tick\t10001"), "2 1 1");
    assert_eq!(changed("tick\t1000", "tick\t10000"), "ok");
    assert_eq!(changed("task\t1", "task\t3"), "2 3 1");
    assert_eq!(changed("task\t1", "task\t99999999999"), "2 3 1");
    assert_eq!(changed("task\t1", "task\t256"), "2 3 1");
    assert_eq!(changed("task\t1\t7\t1000", "task\t3\t0\t0"), "2 3 1");
    assert_eq!(changed("task\t1\t7\t1000", "task\t1\t0\t0"), "2 3 2");
    assert_eq!(changed("\t7\t", "\t256\t"), "2 3 2");
    assert_eq!(changed("\t7\t", "\t255\t"), "ok");
    assert_eq!(changed("\t7\t1000", "\t7\t0"), "2 3 3");
    assert_eq!(changed("\t7\t1000", "\t7\t1"), "ok");
    assert_eq!(changed("\t7\t1000", "\t7\t100000000"), "ok");
    assert_eq!(changed("\t7\t1000", "\t7\t100000001"), "2 3 3");
}

#[test]
fn rows_length_and_equal_priorities() {
    let rows = |count: u32| -> String {
        (1..=count).map(|row| format!("task\t{}\t{row}\t1\n", row % 3)).collect()
    };
    let with = |last: &str| answer(&format!("tick\t1\n{}{last}", rows(64)));
    assert_eq!(with(""), "ok");
    assert_eq!(with("task\t0\t65\t1\n"), "2 66 0");
    assert_eq!(with("task\t3\t0\t0\n"), "2 66 0");
    assert_eq!(with("task\t0\t1\t1\n"), "2 66 0");
    assert_eq!(with("task\t3\t065\t0\n"), "1 66 2");
    assert_eq!(with("task\t3\t0\n"), "1 66 0");
    assert_eq!(with("task\t0\t65\t1"), "1 66 0");
    // The pairs by their smaller row, and after every line.
    assert_eq!(changed("\t7\t", "\t5\t"), "5 2 3");
    assert_eq!(changed("\t9\t", "\t5\t"), "5 2 4");
    assert_eq!(changed("\t9\t", "\t7\t"), "5 3 4");
    assert_eq!(answer(&EXAMPLE.replace("\t7\t", "\t5\t").replace("\t9\t3", "\t9\t03")), "1 4 3");
    let four = EXAMPLE.replace("\t9\t", "\t7\t") + "task\t0\t5\t1\n";
    assert_eq!(answer(&four), "5 2 5");
    // 16,384 bytes are read.
    assert_eq!(answer(&"\n".repeat(16_384)), "1 1 0");
    assert_eq!(answer(&"\n".repeat(16_385)), "2 0 0");
    assert_eq!(answer(&format!("{EXAMPLE}{}\n", "x".repeat(16_400))), "2 0 0");
}

#[test]
fn limits_are_rounded_up() {
    let table = frame_text::read(b"tick\t1000\ntask\t2\t9\t2001\n");
    let tasks = vec![FrameTask { partition: PANEL, priority: 9, limit: 3 }];
    assert_eq!(table, Ok(FrameTable { tick: 1000, tasks }));
}

#[test]
fn a_night() {
    let events = "R\t0\nR\t0\nR\t1\nR\t2\nT\t0\nT\t0\nT\t0\nT\t0\nT\t1\nT\t0\nT\t1\nT\t1\nT\t0\n\
        T\t1\nR\t3\nT\t2\nR\t1";
    let expected = [
        "R 0 ok",
        "R 0 ok",
        "R 1 ok",
        "R 2 ok",
        "T 0 N run 0 0 - - 0",
        "T 1 N run 1 1 - - 0",
        // At its limit the job of alarm sending is cut, and the panel runs.
        "T 2 N run 2 2 cut 1 0",
        // The job of measuring runs on.
        "T 3 N run 0 0 - - 0",
        // Ended by its mark at its limit.
        "T 4 N run 2 2 done 0 0",
        "T 5 N run 2 2 - - 0",
        "T 6 N run 0 0 done 2 0",
        "T 7 N empty 1 - done 0 0",
        "T 8 N empty 2 - - - 0",
        "T no 9",
        "R 3 no 6",
        "? no 1",
        "? no 1",
    ];
    assert_eq!(answers(EXAMPLE, events), expected);
}

#[test]
fn the_slots_own_tasks_run_the_highest_first() {
    // Row 2 is the highest of all, row 1 of measuring.
    let table = "tick\t1\ntask\t0\t5\t9\ntask\t0\t7\t9\ntask\t2\t200\t9\n";
    let events = "R\t0\nR\t1\nR\t2\nT\t0\nT\t0\nT\t0\nT\t0\nT\t1\n";
    let answers = answers(table, events);
    let expected = [
        "T 0 N run 0 1 - - 0",
        "T 1 N empty 1 - - - 0",
        "T 2 N run 2 2 - - 0",
        "T 3 N run 0 1 - - 0",
        "T 4 N run 2 2 done 1 0",
    ];
    assert_eq!(answers[3..], expected);
}

#[test]
fn sixteen_jobs_wait() {
    let events = "R\t2\n".repeat(17) + "T\t0\nT\t0\nT\t0\nT\t1\nR\t2\nR\t2\n";
    let answers = answers(EXAMPLE, &events);
    assert_eq!(answers[15..17], ["R 2 ok", "R 2 no 8"]);
    // Slot 2 ran one of them, which is ended by tick 3.
    assert_eq!(answers[20..], ["T 3 N empty 0 - done 2 0", "R 2 ok", "R 2 no 8"]);
}

#[test]
fn the_self_test_comes_in_every_frame() {
    let mut run = fresh(EXAMPLE);
    for tick in 0..2 * SLOTS + 700 {
        let server = match run.tick(false).unwrap().what {
            What::Empty { server } => server as u32,
            what => panic!("{what:?}"),
        };
        let slot = tick % SLOTS;
        if (600..612).contains(&slot) {
            assert_eq!(server, MEASURING, "{tick}");
        }
        assert_eq!(server, owner_of(slot), "{tick}");
        assert_eq!(run.ticks, tick + 1);
    }
}

/// Random nights: every state on the way is sound, no job is lost, and no job runs
/// in a slot of another partition or longer than its limit.
#[test]
fn jobs_released_are_finished_cut_or_waiting() {
    let mut random = Random(11);
    let (mut seen_cut, mut seen_done, mut seen_empty) = (0, 0, 0);
    for _ in 0..200 {
        let tasks: Vec<FrameTask> = (0..random.within(1, 6))
            .map(|row| FrameTask {
                partition: random.within(0, 2),
                priority: 1 + (row * 5 + 2) % 7,
                limit: random.within(1, 4),
            })
            .collect();
        let mut run = FrameRun::fresh(FrameTable { tick: 1, tasks });
        run.ticks = random.within(0, SLOTS);
        let (mut released, mut finished, mut cut) = (0, 0, 0);
        let (release_percent, mark_percent) = (random.within(5, 60), random.within(0, 60));
        for _ in 0..400 {
            let before = run.clone();
            if random.chance(release_percent) {
                match run.release(u64::from(random.within(0, run.table.tasks.len() as u32))) {
                    Ok(()) => released += 1,
                    Err(_) => assert_eq!(run, before),
                }
            } else {
                match run.tick(random.chance(mark_percent)) {
                    Err(_) => assert_eq!(run, before),
                    Ok(answer) => {
                        match answer.left.map(|left| left.how) {
                            Some(How::Done) => finished += 1,
                            Some(How::Cut) => cut += 1,
                            None => {}
                        }
                        let owner = owner_of(before.ticks % SLOTS);
                        match answer.what {
                            What::Run { server, task } => {
                                assert_eq!(server as u32, owner);
                                assert_eq!(run.table.tasks[task].partition, owner);
                                assert!(run.queues[task].run <= run.table.tasks[task].limit);
                            }
                            What::Empty { server } => {
                                assert_eq!(server as u32, owner);
                                let rows = run.table.tasks.iter().zip(&run.queues);
                                let mut own = rows.filter(|(task, _)| task.partition == owner);
                                assert!(own.all(|(_, queue)| queue.waiting == 0));
                                seen_empty += 1;
                            }
                            What::Idle => panic!("a frame box is never idle"),
                        }
                    }
                }
            }
            assert!(run.is_sound(), "{run:?} after {before:?}");
            let waiting: u32 = run.queues.iter().map(|queue| queue.waiting).sum();
            assert_eq!(released, finished + cut + waiting);
        }
        seen_cut += cut;
        seen_done += finished;
    }
    assert!(seen_cut > 500 && seen_done > 500 && seen_empty > 500);
}
