//! Phases for the servers of a table's text. They are drawn from a seed of their
//! own, so that a case is otherwise what it was.

use crate::random::Random;
use crate::table::{self, text_of, Line, MAX_PERIOD, MAX_PRIORITY, MAX_TICK};

/// The seed of the phases is the seed of the cases changed by this.
pub const SEED: u64 = 0x7068_6173;

/// So many cases of a hundred have phases.
const WITH_PHASES: u64 = 40;

/// The rows that have a phase.
#[derive(Clone, Copy, PartialEq, Eq)]
enum Which {
    All,
    Some,
    First,
    Last,
    Event,
    Timed,
}

/// A text with phases at its server lines that are good by themselves, or as it is.
/// The night has so many ticks.
pub fn give(text: &[u8], night: u64, random: &mut Random) -> Vec<u8> {
    if !random.chance(WITH_PHASES) {
        return text.to_vec();
    }
    let which = random.pick(&[
        Which::All,
        Which::All,
        Which::All,
        Which::Some,
        Which::Some,
        Which::First,
        Which::Last,
        Which::Event,
        Which::Timed,
    ]);
    let zeros = random.chance(8);

    // The last line, if it is not closed, stays as it is.
    let closed = text.iter().rposition(|&byte| byte == b'\n').map_or(0, |end| end + 1);
    let (closed, rest) = text.split_at(closed);
    let mut lines: Vec<Line> = closed
        .split_inclusive(|&byte| byte == b'\n')
        .map(|line| line[..line.len() - 1].split(|&byte| byte == b'\t').map(Vec::from).collect())
        .collect();
    let Some(tick) = lines.first().and_then(tick_of) else { return text.to_vec() };
    let rows: Vec<usize> =
        (0..lines.len()).filter(|&line| good_period(&lines[line], tick).is_some()).collect();
    for (row, &at) in rows.iter().enumerate() {
        let line = &mut lines[at];
        let chosen = match which {
            Which::All => true,
            Which::Some => random.chance(50),
            Which::First => row == 0,
            Which::Last => row + 1 == rows.len(),
            Which::Event => line[2] == b"event",
            Which::Timed => line[2] == b"timed",
        };
        let period = good_period(line, tick).unwrap_or(1);
        let phase = draw(period, night, random);
        if chosen {
            line.push(table::number(if zeros { 0 } else { phase * tick }));
        }
    }
    [&text_of(&lines), rest].concat()
}

/// A phase for a period, both in ticks.
pub fn draw(period: u64, night: u64, random: &mut Random) -> u64 {
    let most = period - 1;
    if most == 0 {
        return 0;
    }
    match random.below(12) {
        0 => 0,
        1 | 2 => 1,
        3 | 4 => most,
        5..=8 => random.within(1, most.min(12)),
        9 => random.within(most.min(night), most),
        10 => random.pick(&[night.saturating_sub(1), night, night + 1]).min(most),
        _ => random.within(0, most),
    }
}

/// The tick length of a line, if it is a good one.
fn tick_of(line: &Line) -> Option<u64> {
    let [word, length] = line.as_slice() else { return None };
    let tick = number(length)?;
    (word == b"tick" && (1..=MAX_TICK).contains(&tick)).then_some(tick)
}

/// The period in ticks of a server line without a phase, if nothing is wrong with
/// the line by itself.
fn good_period(line: &Line, tick: u64) -> Option<u64> {
    let [word, partition, kind, priority, times @ ..] = line.as_slice() else { return None };
    let times: Option<Vec<u64>> = times.iter().map(|time| number(time)).collect();
    let &[period, n, d1, d2] = times?.as_slice() else { return None };
    let good = word == b"server"
        && number(partition)? <= 15
        && (kind == b"event" || kind == b"timed")
        && (1..=MAX_PRIORITY).contains(&number(priority)?)
        && (tick..=MAX_PERIOD * tick).contains(&period)
        && [n, d1, d2].iter().all(|&time| time <= period)
        && [period, n, d1, d2].iter().all(|&time| time % tick == 0);
    good.then_some(period / tick)
}

/// A well-formed number.
fn number(field: &[u8]) -> Option<u64> {
    let formed = (1..=11).contains(&field.len())
        && field.iter().all(u8::is_ascii_digit)
        && (field == b"0" || field[0] != b'0');
    if !formed {
        return None;
    }
    std::str::from_utf8(field).ok()?.parse().ok()
}

#[cfg(test)]
mod tests {
    use super::{draw, give};
    use crate::random::Random;

    const TEXT: &[u8] = b"tick\t10\nserver\t0\ttimed\t9\t40\t0\t10\t40\n\
        server\t16\ttimed\t8\t40\t0\t0\t0\nserver\t0\ttimed\t7\t40\t5\t0\t0\n\
        server\t0\tevent\t6\t040\t0\t0\t0\nserver\t0\tevent\t5\t40\t0\t0\t0\t0\n\
        server\t0\tevent\t4\t40\t0\t0\t0";

    #[test]
    fn only_good_lines_have_a_phase() {
        let mut given = 0;
        for seed in 0..200 {
            let text = give(TEXT, 20, &mut Random::new(seed));
            if text == TEXT {
                continue;
            }
            given += 1;
            let text = String::from_utf8(text).unwrap();
            let lines: Vec<&str> = text.lines().collect();
            let (line, phase) = lines[1].rsplit_once('\t').unwrap();
            assert_eq!(line, "server\t0\ttimed\t9\t40\t0\t10\t40");
            assert!(["0", "10", "20", "30"].contains(&phase), "{phase}");
            let own: Vec<&str> = std::str::from_utf8(TEXT).unwrap().lines().collect();
            assert_eq!(lines[2..], own[2..]);
            assert!(!text.ends_with('\n'));
        }
        assert!(given > 40, "{given}");
    }

    #[test]
    fn a_phase_is_below_its_period() {
        for seed in 0..2000 {
            let random = &mut Random::new(seed);
            let period = random.pick(&[1, 2, 3, 12, 1_000_000]);
            let night = random.pick(&[0, 1, 5, 300]);
            assert!(draw(period, night, random) < period);
        }
    }
}
