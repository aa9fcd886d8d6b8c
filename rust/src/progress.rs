//! A line that says how far long work has come.

use std::io::{self, IsTerminal, Write};

/// Says how far long work has come: one line that is written over at each
/// percent, or a line for each quarter. What cannot be written is left out, as
/// the work matters more.
///
/// On the standard error output it is shown only to a terminal, unless the
/// program says otherwise:
///
/// ```
/// use rinwolfedd::Progress;
///
/// let quiet = true;
/// let mut progress = Progress::to_stderr("storing blocks", 4096).shown(!quiet);
/// for done in 1..=4096 {
///     progress.at(done);
/// }
/// ```
#[derive(Debug)]
pub struct Progress<W: Write = io::Stderr> {
    out: W,
    what: String,
    total: usize,
    /// Whether anything is written.
    shown: bool,
    /// Written over at each percent, or a new line at each quarter.
    over: bool,
    /// The steps of it that have been shown.
    step: Option<u128>,
    /// Whether a line that is written over has begun and not ended.
    begun: bool,
}

impl Progress {
    /// A line on the standard error output: written over on a terminal, and
    /// elsewhere not shown.
    #[must_use]
    pub fn to_stderr(what: &str, total: usize) -> Progress {
        let terminal = io::stderr().is_terminal();
        Progress::new(io::stderr(), what, total)
            .written_over(terminal)
            .shown(terminal)
    }
}

impl<W: Write> Progress<W> {
    /// A line for each quarter of work that has so many parts.
    #[must_use]
    pub fn new(out: W, what: &str, total: usize) -> Progress<W> {
        Progress {
            out,
            what: what.into(),
            total,
            shown: true,
            over: false,
            step: None,
            begun: false,
        }
    }

    /// Whether it is one line that is written over, as suits a terminal.
    #[must_use]
    pub fn written_over(mut self, over: bool) -> Progress<W> {
        self.over = over;
        self
    }

    /// Whether it is shown at all.
    #[must_use]
    pub fn shown(mut self, shown: bool) -> Progress<W> {
        self.shown = shown;
        self
    }

    /// The callback of work that says how many parts are done, such as
    /// [`Reader::write_all_with`](crate::Reader::write_all_with).
    pub fn into_callback(mut self) -> impl FnMut(usize) {
        move |done| self.at(done)
    }

    /// So many parts are done.
    pub fn at(&mut self, done: usize) {
        let steps = if self.over { 100 } else { 4 };
        let step = done as u128 * steps / self.total.max(1) as u128;
        if !self.shown || self.step == Some(step) {
            return;
        }
        self.step = Some(step);
        let Progress { what, total, .. } = self;
        let line = format!("{what}: {done} of {total}");
        let end = done >= *total;
        self.begun = self.over && !end;
        let _ = match (self.over, end) {
            (true, false) => write!(self.out, "\r{line}").and_then(|()| self.out.flush()),
            (true, true) => writeln!(self.out, "\r{line}"),
            (false, _) => writeln!(self.out, "{line}"),
        };
    }
}

/// Work that stopped leaves no half line for the next output to go on with.
impl<W: Write> Drop for Progress<W> {
    fn drop(&mut self) {
        if self.begun {
            let _ = writeln!(self.out);
        }
    }
}

#[cfg(test)]
mod tests {
    use super::Progress;
    use std::io::{self, IsTerminal};

    /// What is written in the course of all parts.
    fn written(total: usize, over: bool, shown: bool) -> String {
        let mut out = Vec::new();
        let progress = Progress::new(&mut out, "storing", total).written_over(over);
        (1..=total).for_each(progress.shown(shown).into_callback());
        String::from_utf8(out).unwrap()
    }

    #[test]
    fn a_line_for_each_quarter() {
        let wanted = [1, 10, 20, 30, 40].map(|done| format!("storing: {done} of 40\n"));
        assert_eq!(written(40, false, true), wanted.concat());
    }

    #[test]
    fn one_line_that_is_written_over() {
        let text = written(1000, true, true);
        assert_eq!(text.matches('\r').count(), 101);
        assert!(text.ends_with("\rstoring: 1000 of 1000\n"));
        assert_eq!(text.lines().count(), 1);
    }

    #[test]
    fn a_line_ends_where_the_work_stops() {
        for (over, wanted) in [
            (true, "\rstoring: 1 of 40\n"),
            (false, "storing: 1 of 40\n"),
        ] {
            let mut out = Vec::new();
            let mut progress = Progress::new(&mut out, "storing", 40).written_over(over);
            progress.at(1);
            drop(progress);
            assert_eq!(String::from_utf8(out).unwrap(), wanted);
        }
        let mut out = Vec::new();
        drop(Progress::new(&mut out, "storing", 40).written_over(true));
        assert!(out.is_empty(), "nothing was begun");
    }

    #[test]
    fn parts_as_many_as_can_be_counted() {
        let mut out = Vec::new();
        let mut progress = Progress::new(&mut out, "storing", usize::MAX);
        for done in [1, usize::MAX / 2 + 1, usize::MAX] {
            progress.at(done);
        }
        drop(progress);
        assert_eq!(String::from_utf8(out).unwrap().lines().count(), 3);
    }

    #[test]
    fn nothing_where_it_is_turned_off() {
        assert_eq!(written(40, false, false), "");
        assert_eq!(written(40, true, false), "");
    }

    #[test]
    fn only_a_terminal_is_shown_it_unasked() {
        let progress = Progress::to_stderr("storing", 40);
        let terminal = io::stderr().is_terminal();
        assert_eq!((progress.shown, progress.over), (terminal, terminal));
        assert!(progress.shown(true).shown);
    }
}
