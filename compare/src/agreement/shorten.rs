//! Makes a run with a fault shorter while the fault stays.

use super::run::Run;
use super::SIDES;

/// Trials of one shortening; each plays a run.
const TRIALS: usize = 3000;

struct Shortener<'a> {
    run: Run,
    fails: &'a mut dyn FnMut(&Run) -> bool,
    trials: usize,
}

/// A run no longer than this one that still fails.
pub fn shorten(run: Run, fails: &mut dyn FnMut(&Run) -> bool) -> Run {
    let mut shortener = Shortener {
        run,
        fails,
        trials: TRIALS,
    };
    loop {
        let before = shortener.run.clone();
        shortener.drop_turns();
        shortener.fewer_times();
        shortener.drop_versions();
        if shortener.run == before || shortener.trials == 0 {
            return shortener.run;
        }
    }
}

impl Shortener<'_> {
    /// Takes this run if it fails.
    fn take(&mut self, run: Run) -> bool {
        if self.trials == 0 {
            return false;
        }
        self.trials -= 1;
        let fails = (self.fails)(&run);
        if fails {
            self.run = run;
        }
        fails
    }

    /// Drops turns: half of them, a quarter, and so on to one.
    fn drop_turns(&mut self) {
        let mut size = self.run.turns.len();
        while size >= 1 {
            let mut start = 0;
            while start < self.run.turns.len() {
                let mut fewer = self.run.clone();
                let end = (start + size).min(fewer.turns.len());
                fewer.turns.drain(start..end);
                if !self.take(fewer) {
                    start += size;
                }
            }
            size /= 2;
        }
    }

    /// Each turn as few times as will do, by halves of what may still go.
    fn fewer_times(&mut self) {
        for place in 0..self.run.turns.len() {
            let mut less = self.run.turns[place].times / 2;
            while less >= 1 {
                let mut run = self.run.clone();
                run.turns[place].times -= less;
                if run.turns[place].times == 0 || !self.take(run) {
                    less /= 2;
                }
                less = less.min(self.run.turns[place].times);
            }
        }
    }

    fn drop_versions(&mut self) {
        for side in SIDES {
            let mut place = 0;
            while place < self.run.lists.of(side).len() && self.run.lists.of(side).len() > 1 {
                let mut run = self.run.clone();
                run.lists.of_mut(side).remove(place);
                if !self.take(run) {
                    place += 1;
                }
            }
        }
    }
}
