//! What step 1 did in a tick: told by the modes before and in it, by whether the
//! job run last was cut, and by that job's level.

/// The levels and the modes, each from the lowest up.
pub const LEVELS: [&str; 3] = ["LO", "MI", "HI"];
pub const MODES: [&str; 3] = ["N", "D1", "D2"];

/// What must be seen, in nights and in states handed in, as [`names`] has it.
pub const WANTED: [&str; 18] = [
    "LO job cut in N",
    "LO job cut in D1",
    "MI job cut in D1",
    "MI job cut in D2",
    "HI job cut in D2",
    "N to D1 after a MI job",
    "N to D1 after a HI job",
    "N to D2 after a HI job",
    "D1 to D2 after a HI job",
    "MI job risen from N and cut, tick in D1",
    "MI job risen from N and cut, tick in N",
    "HI job risen from N and cut, tick in D2",
    "HI job risen from N and cut, tick in N",
    "HI job risen from D1 and cut, tick in D2",
    "HI job risen from D1 and cut, tick in N",
    "rise taken back",
    "fall to N from D1",
    "fall to N from D2",
];

/// A taken tick after one that ran a job. Level and modes are places in
/// [`LEVELS`] and [`MODES`].
pub struct Judged {
    pub level: usize,
    pub before: usize,
    pub mode: usize,
    pub cut: bool,
}

/// The names of what was seen. A job that is cut where its level lies above the
/// mode before has raised the mode first.
pub fn names(judged: &Judged) -> Vec<String> {
    let &Judged { level, before, mode, cut } = judged;
    let (level_word, before_word, mode_word) = (LEVELS[level], MODES[before], MODES[mode]);
    let risen = level > before;
    let mut names = Vec::new();
    if cut && risen {
        names.push(format!(
            "{level_word} job risen from {before_word} and cut, tick in {mode_word}"
        ));
    } else if cut {
        names.push(format!("{level_word} job cut in {before_word}"));
    }
    if mode > before {
        names.push(format!("{before_word} to {mode_word} after a {level_word} job"));
    }
    if cut && risen && mode == 0 {
        names.push("rise taken back".to_string());
    }
    if mode < before {
        names.push(format!("fall to {mode_word} from {before_word}"));
    }
    names
}

#[cfg(test)]
mod tests {
    use super::{names, Judged};

    fn names_of(level: usize, before: usize, mode: usize, cut: bool) -> Vec<String> {
        names(&Judged { level, before, mode, cut })
    }

    #[test]
    fn cuts_rises_and_falls_are_told_apart() {
        assert_eq!(names_of(0, 0, 0, true), ["LO job cut in N"]);
        assert_eq!(names_of(0, 1, 0, true), ["LO job cut in D1", "fall to N from D1"]);
        assert_eq!(names_of(1, 1, 1, true), ["MI job cut in D1"]);
        assert_eq!(names_of(1, 0, 1, false), ["N to D1 after a MI job"]);
        let cut_in_d1 = ["MI job risen from N and cut, tick in D1", "N to D1 after a MI job"];
        assert_eq!(names_of(1, 0, 1, true), cut_in_d1);
        let taken_back = ["HI job risen from D1 and cut, tick in N", "rise taken back"];
        assert_eq!(names_of(2, 1, 0, true)[..2], taken_back);
        assert_eq!(names_of(2, 0, 2, false), ["N to D2 after a HI job"]);
        assert_eq!(names_of(2, 2, 0, false), ["fall to N from D2"]);
        assert!(names_of(2, 2, 2, false).is_empty());
    }
}
