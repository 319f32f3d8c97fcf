//! Makes a case with a difference smaller while the difference stays.

use super::case::Case;

/// Trials of one shortening; each plays a pack twice.
const TRIALS: usize = 3000;

struct Shrinker<'a> {
    case: Case,
    differs: &'a mut dyn FnMut(&Case) -> bool,
    trials: usize,
}

/// A case no larger than this one that still differs.
pub fn shrink(case: Case, differs: &mut dyn FnMut(&Case) -> bool) -> Case {
    let mut shrinker = Shrinker {
        case,
        differs,
        trials: TRIALS,
    };
    shrinker.drop_damage();
    loop {
        let before = shrinker.case.clone();
        shrinker.drop_events();
        shrinker.shorten_message();
        if shrinker.case == before || shrinker.trials == 0 {
            return shrinker.case;
        }
    }
}

impl Shrinker<'_> {
    /// Takes this case if it differs.
    fn take(&mut self, case: Case) -> bool {
        if self.trials == 0 {
            return false;
        }
        self.trials -= 1;
        let differs = (self.differs)(&case);
        if differs {
            self.case = case;
        }
        differs
    }

    fn drop_damage(&mut self) {
        if self.case.damage.is_some() {
            let damage = None;
            self.take(Case {
                damage,
                ..self.case.clone()
            });
        }
    }

    /// Drops runs of events: half of them, a quarter, and so on to one.
    fn drop_events(&mut self) {
        let mut run = self.case.events.len();
        while run >= 1 {
            let mut start = 0;
            while start < self.case.events.len() {
                let mut fewer = self.case.clone();
                let end = (start + run).min(fewer.events.len());
                fewer.events.drain(start..end);
                if !self.take(fewer) {
                    start += run;
                }
            }
            run /= 2;
        }
    }

    fn shorten_message(&mut self) {
        loop {
            let length = self.case.message.len();
            let shorter = [0, 1, 8, 9, 14, 15, length / 2, length.saturating_sub(1)];
            let taken = shorter
                .into_iter()
                .filter(|&fewer| fewer < length)
                .any(|fewer| {
                    let mut case = self.case.clone();
                    case.message.truncate(fewer);
                    self.take(case)
                });
            if !taken {
                return;
            }
        }
    }
}
