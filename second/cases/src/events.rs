//! Event files: phases of releases and ticks, with odd lines in between.

use crate::random::Random;

/// A stretch of an event file with its own habits, in percent.
struct Phase {
    release: u64,
    mark: u64,
    odd: u64,
    /// Most releases are of this task, if any.
    favourite: Option<usize>,
}

/// An event file for a table with so many tasks.
pub fn events(tasks: usize, random: &mut Random) -> Vec<u8> {
    if random.chance(3) {
        return Vec::new();
    }
    let lines = random.within(50, 400);
    let odd = random.pick(&[0, 0, 1, 2, 5, 20]);
    let long_lines = random.chance(6);
    lines_of(lines, odd, Habits { long_lines, longest_calm: 0 }, tasks, random)
}

/// An event file for a table that serves every job, with calms in it.
pub fn serving_events(tasks: usize, random: &mut Random) -> Vec<u8> {
    let lines = random.within(150, 500);
    let odd = random.pick(&[0, 0, 1, 2, 5]);
    lines_of(lines, odd, Habits { long_lines: false, longest_calm: 60 }, tasks, random)
}

/// An event file that no program reads, answers or writes at once, with calms
/// for a table that serves every job.
pub fn long_events(serving: bool, tasks: usize, random: &mut Random) -> Vec<u8> {
    let lines = random.within(1_000, 20_000);
    let odd = random.pick(&[0, 2, 20, 60]);
    let long_lines = odd == 2 && random.chance(20);
    let longest_calm = if serving { 300 } else { 0 };
    lines_of(lines, odd, Habits { long_lines, longest_calm }, tasks, random)
}

/// An event file of several hundred kilobytes, in lines of the usual lengths,
/// with calms for a table that serves every job.
pub fn longest_events(serving: bool, tasks: usize, random: &mut Random) -> Vec<u8> {
    let lines = random.within(80_000, 120_000);
    let odd = random.pick(&[0, 2, 20]);
    let longest_calm = if serving { 1_200 } else { 0 };
    lines_of(lines, odd, Habits { long_lines: false, longest_calm }, tasks, random)
}

/// An event file for a frame table, of 30 to 300 lines, or an empty one.
pub fn frame_events(tasks: usize, random: &mut Random) -> Vec<u8> {
    if random.chance(3) {
        return Vec::new();
    }
    let lines = random.within(30, 200);
    let odd = random.pick(&[0, 0, 1, 2, 5, 20]);
    lines_of(lines, odd, Habits { long_lines: random.chance(4), longest_calm: 40 }, tasks, random)
}

/// An event file of so many lines or more, in which more than so many ticks are
/// taken, whatever the table is.
pub fn events_of_ticks(ticks: usize, lines: u64, tasks: usize, random: &mut Random) -> Vec<u8> {
    let odd = random.pick(&[0, 0, 2, 10]);
    let habits = Habits { long_lines: false, longest_calm: random.pick(&[0, 30, 30, 120]) };
    let mut text = Vec::new();
    push_phases(&mut text, lines, odd, habits, tasks, random);
    while sure_ticks(&text) <= ticks {
        push_phases(&mut text, 100, odd, habits, tasks, random);
    }
    text
}

/// The ticks with mark 0, which are taken in any state an event file can reach.
pub fn sure_ticks(events: &[u8]) -> usize {
    events.split(|&byte| byte == b'\n').filter(|line| *line == b"T\t0").count()
}

/// What only some event files have.
#[derive(Clone, Copy)]
struct Habits {
    /// Odd lines of many bytes.
    long_lines: bool,
    /// The most lines of a calm, a stretch without a release in which the jobs
    /// are worked off; 0 for none.
    longest_calm: u64,
}

/// An event file of so many lines, or some more.
fn lines_of(lines: u64, odd: u64, habits: Habits, tasks: usize, random: &mut Random) -> Vec<u8> {
    let mut text = Vec::new();
    push_phases(&mut text, lines, odd, habits, tasks, random);
    if random.chance(15) {
        text.pop();
    }
    text
}

fn push_phases(
    text: &mut Vec<u8>,
    lines: u64,
    odd: u64,
    habits: Habits,
    tasks: usize,
    random: &mut Random,
) {
    let mut written = 0;
    while written < lines {
        if random.chance(10) {
            // More releases of one task than can wait.
            let task = random.below(tasks);
            for _ in 0..random.within(12, 20) {
                push_release(text, task as u64);
                written += 1;
            }
        }
        let phase = draw_phase(tasks, odd, random);
        for _ in 0..random.within(10, 80) {
            push_line(text, &phase, tasks, habits.long_lines, random);
            written += 1;
        }
        if habits.longest_calm > 0 && random.chance(40) {
            let calm = Phase { release: 0, mark: 60, odd, favourite: None };
            for _ in 0..random.within(habits.longest_calm / 6, habits.longest_calm) {
                push_line(text, &calm, tasks, habits.long_lines, random);
                written += 1;
            }
        }
    }
}

/// A few lines, for tables that are refused anyway.
pub fn few_events(random: &mut Random) -> Vec<u8> {
    let mut text = Vec::new();
    for _ in 0..random.within(0, 4) {
        text.extend_from_slice(random.pick(&[b"R\t0\n", b"T\t0\n", b"T\t1\n", b"\tx\n"]));
    }
    text
}

fn draw_phase(tasks: usize, odd: u64, random: &mut Random) -> Phase {
    let (release, mark) = random.pick(&[
        (30, 50), // jobs come and go
        (20, 30),
        (60, 20), // queues fill
        (15, 3),  // overruns
        (8, 10),
        (0, 0), // nothing new, nothing ends
        (0, 40),
        (10, 80), // many marks without a job
        (40, 0),
    ]);
    let favourite = if random.chance(30) { Some(random.below(tasks)) } else { None };
    Phase { release, mark, odd, favourite }
}

fn push_line(
    text: &mut Vec<u8>,
    phase: &Phase,
    tasks: usize,
    long_lines: bool,
    random: &mut Random,
) {
    if random.chance(phase.odd) {
        text.extend_from_slice(&odd_line(long_lines, random));
        text.push(b'\n');
    } else if random.chance(phase.release) {
        let task = match phase.favourite {
            Some(favourite) if random.chance(70) => favourite as u64,
            _ if random.chance(2) => absent_task(tasks as u64, random),
            _ => random.below(tasks) as u64,
        };
        push_release(text, task);
    } else if random.chance(phase.mark) {
        text.extend_from_slice(b"T\t1\n");
    } else {
        text.extend_from_slice(b"T\t0\n");
    }
}

fn push_release(text: &mut Vec<u8>, task: u64) {
    text.extend_from_slice(format!("R\t{task}\n").as_bytes());
}

/// A task row beyond the last, or one that is not when cut to fewer bits.
fn absent_task(tasks: u64, random: &mut Random) -> u64 {
    let own = random.within(0, tasks - 1);
    random.pick(&[
        tasks,
        tasks,
        tasks + 1,
        64,
        255,
        256 + own,
        65_536 + own,
        (1 << 32) + own,
        (1 << 36) + own,
        99_999_999_999,
    ])
}

fn odd_line(long_lines: bool, random: &mut Random) -> Vec<u8> {
    const ODD: [&[u8]; 58] = [
        b"",
        b"\t",
        b" ",
        b"\r",
        b"\0",
        b"\0\0\0\0",
        b"R",
        b"T",
        b"R\t",
        b"T\t",
        b"R0",
        b"T0",
        b"R 0",
        b"T 1",
        b"R\t\t0",
        b"T\t\t1",
        b"R\t0\t",
        b"T\t1\t",
        b"R\t0\t0",
        b"T\t0\t0",
        b"\tR\t0",
        b" T\t0",
        b"R\t0 ",
        b"T\t1 ",
        b"R\t 0",
        b"T\t 0",
        b"R\t0\r",
        b"T\t0\r",
        b"T\t1\r",
        b"R\t0\0",
        b"T\t0\0",
        b"\0T\t0",
        b"R\0\t0",
        b"r\t0",
        b"t\t0",
        b"X\t0",
        b"RR\t0",
        b"Release\t0",
        b"?\tno\t1",
        b"T\t2",
        b"T\t3",
        b"T\t10",
        b"T\t11",
        b"T\t00",
        b"T\t01",
        b"T\t000000000001",
        b"T\t256",
        b"T\t4294967296",
        b"T\t4294967297",
        b"T\t99999999999",
        b"R\t00",
        b"R\t01",
        b"R\t000000000000",
        b"R\t100000000000",
        b"R\t18446744073709551616",
        b"R\t-1",
        b"R\t+0",
        b"T\t-0",
    ];
    const MORE: [&[u8]; 7] =
        [b"R\t0x0", b"R\t\xd9\xa3", b"T\t\xff", b"R\ta", b"T\t1.0", b"\xef\xbb\xbfT\t0", b"R\t/"];
    if long_lines && random.chance(40) {
        let length = random.pick(&[100, 1_000, 8_191, 8_192, 16_384, 20_000, 65_536]);
        let start = random.pick(&[b"R\t0", b"T\t0", b"T\t1", b"xyz"]);
        let filler = random.pick(b"0 \t\0x");
        let mut line = start.to_vec();
        line.resize(length, filler);
        return line;
    }
    match random.below(10) {
        0 => random.pick(&MORE).to_vec(),
        1 => (0..random.within(1, 12)).map(|_| random.pick(b"RT\t01 \r\0\x0b9")).collect(),
        _ => random.pick(&ODD).to_vec(),
    }
}
