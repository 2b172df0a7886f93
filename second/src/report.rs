//! The `report` program: event lines in, one page of counts out at their end.

use std::io::{self, BufRead, Write};

use crate::night::{parse_event, read_line, Event};
use crate::run::{Answer, How, Run, What};
use crate::table::{Mode, MAX_SERVERS};

#[derive(Clone, Default)]
struct ServerCounts {
    charged: u64,
    empty: u64,
    /// The ticks, up to the last one taken, of the row of ticks in which the
    /// server had a waiting job and was not charged; 0 outside such a row.
    row: u64,
    longest: u64,
}

#[derive(Clone, Default)]
struct TaskCounts {
    finished: u64,
    cut: u64,
    discarded: u64,
}

struct Page {
    servers: Vec<ServerCounts>,
    tasks: Vec<TaskCounts>,
    modes: [u64; 3],
}

/// Takes every event line into the run, then writes the page.
pub fn report_events(
    run: &mut Run,
    events: &mut impl BufRead,
    out: &mut impl Write,
) -> io::Result<()> {
    let mut page = Page::blank(run);
    let mut line = Vec::new();
    while read_line(events, &mut line)? {
        // An unclosed last line is no event.
        match line.strip_suffix(b"\n").and_then(parse_event) {
            None => {}
            // Taken or refused: what a release does shows in the queue.
            Some(Event::Release(task)) => _ = run.release(task),
            Some(Event::Tick(mark)) => page.tick(run, mark),
        }
    }
    page.write(run, out)
}

impl Page {
    fn blank(run: &Run) -> Page {
        Page {
            servers: vec![ServerCounts::default(); run.table.servers.len()],
            tasks: vec![TaskCounts::default(); run.table.tasks.len()],
            modes: [0; 3],
        }
    }

    /// Takes a tick into the run and counts it, unless it is refused.
    fn tick(&mut self, run: &mut Run, mark: bool) {
        let tasks = &mut self.tasks;
        let outcome = run.tick_telling(mark, |task, jobs| {
            tasks[task].discarded += u64::from(jobs);
        });
        if let Ok(answer) = outcome {
            self.count(&answer, run);
        }
    }

    /// Counts a taken tick by its answer and the run after it.
    fn count(&mut self, answer: &Answer, run: &Run) {
        self.modes[answer.mode.index()] += 1;
        if let Some(left) = answer.left {
            match left.how {
                How::Done => self.tasks[left.task].finished += 1,
                How::Cut => self.tasks[left.task].cut += 1,
            }
        }
        let charged = match answer.what {
            What::Run { server, .. } => Some(server),
            What::Empty { server } => {
                self.servers[server].empty += 1;
                Some(server)
            }
            What::Idle => None,
        };
        if let Some(server) = charged {
            self.servers[server].charged += 1;
        }

        let waits = servers_with_work(run);
        for (row, server) in self.servers.iter_mut().enumerate() {
            let passed_over = waits[row] && charged != Some(row);
            server.row = if passed_over { server.row + 1 } else { 0 };
            server.longest = server.longest.max(server.row);
        }
    }

    fn write(&self, run: &Run, out: &mut impl Write) -> io::Result<()> {
        for (row, server) in self.servers.iter().enumerate() {
            let ServerCounts { charged, empty, longest, .. } = server;
            writeln!(out, "server\t{row}\t{charged}\t{empty}\t{longest}")?;
        }
        for (row, (task, queue)) in self.tasks.iter().zip(&run.queues).enumerate() {
            let TaskCounts { finished, cut, discarded } = task;
            writeln!(out, "task\t{row}\t{finished}\t{cut}\t{discarded}\t{}", queue.waiting)?;
        }
        for mode in Mode::ALL {
            writeln!(out, "mode\t{}\t{}", mode.word(), self.modes[mode.index()])?;
        }
        Ok(())
    }
}

/// Which servers have a waiting job. Steps 5 to 7 move no job and keep the
/// mode, so a run just after a tick still has both as step 5 found them.
fn servers_with_work(run: &Run) -> [bool; MAX_SERVERS] {
    let mut waits = [false; MAX_SERVERS];
    for (task, queue) in run.table.tasks.iter().zip(&run.queues) {
        waits[task.server_in(run.mode)] |= queue.waiting > 0;
    }
    waits
}
