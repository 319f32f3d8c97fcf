//! The comparison catches every broken reference within a fixed count of calls, and its shortened case is short.

use std::sync::atomic::{AtomicU64, Ordering};

use compare::packs::random::Random;
use face::broken::{mistakes, Broken, Mistake};
use face::call::{Call, Pair, NAMES};
use face::counting::Counting;
use face::differences::{first_difference, Case, Difference};
use face::filling::Filling;
use face::forged;
use face::holding::Met;
use face::session::Step;
use face::sessions;
use face::tally::{Tally, OUTCOMES};
use face::typing::{Typing, NUMBERS};
use face::values::{FlatFrame, FlatSender, FlatSenderAnswer};
use face::Reference;

/// Calls within which every mistake is found.
const COUNT: u64 = 1_250_000;
const SEED: u64 = 1;
/// Steps that a shortened session or talk may have, ticks in a row counted once: twenty held timeouts take as many.
const STEPS: usize = 12;

fn steps(case: &Case) -> usize {
    let Case::Session(session) = case else {
        return case.steps();
    };
    let mut steps = session.steps.clone();
    steps.dedup_by(|step, before| step == before && *step == Step::ReceiverTick);
    steps.len()
}

fn found(name: &str, broken: &Broken) -> (u64, Difference) {
    let (tally, difference) = first_difference(broken, &Reference, SEED, COUNT);
    let difference = difference.unwrap_or_else(|| panic!("not caught: {name}"));
    (tally.total(), difference)
}

#[test]
fn the_reference_is_alike_with_itself() {
    let (tally, difference) = first_difference(&Reference, &Reference, SEED, COUNT);
    assert!(difference.is_none());
    let uncalled: Vec<&str> = (0..NAMES.len())
        .filter(|&place| tally.calls[place] < 50)
        .map(|place| NAMES[place])
        .collect();
    assert_eq!(uncalled, Vec::<&str>::new());
}

/// Functions that answer a value or a refusal.
const TAKEN_OR_REFUSED: [&str; 13] = [
    "sender_make",
    "summary_count",
    "summary_most",
    "receiver_make",
    "clean_figures_of",
    "identifier_join",
    "identifier_split",
    "version_list",
    "version_message_write",
    "version_message_read",
    "talker_make",
    "group_read",
    "group_write",
];

/// Every outcome that a function can have comes, and often enough; so does all that can be met of a hold, of a last frame's
/// filler, of misses and of counts.
#[test]
fn every_outcome_comes() {
    let (tally, _) = first_difference(&Reference, &Reference, SEED, COUNT);
    // 0 quiet, 1 refused, 2 delivered, 3 failed, 4 a short delivery, 5 sent, 6 agreed, 7 left.
    let come = |name: &str, numbers: &[usize]| {
        let place = NAMES.iter().position(|&other| other == name).unwrap();
        let found: Vec<usize> = (0..OUTCOMES)
            .filter(|&outcome| tally.outcomes[place][outcome] >= 200)
            .collect();
        assert_eq!(found, numbers, "{name}");
    };
    come("sender_begin", &[0, 1]);
    come("sender_post", &[0, 1]);
    come("sender_tick", &[0, 1, 3]);
    come("sender_hear", &[0, 1, 3, 5]);
    come("summary_begin", &[0, 1]);
    come("summary_post", &[0, 1]);
    come("summary_tick", &[0, 1, 3]);
    come("summary_hear", &[0, 1, 3, 5]);
    come("receiver_tick", &[0, 3]);
    come("receiver_hold", &[0, 1]);
    come("receiver_resume", &[0, 1]);
    come("receiver_hear", &[0, 1, 2, 3, 4]);
    come("talker_connect", &[0]);
    come("talker_tick", &[0, 3]);
    come("talker_hear", &[0, 1, 3, 6]);
    come("talker_stop", &[0, 7]);
    come("talker_greet", &[0, 3]);
    for name in TAKEN_OR_REFUSED {
        come(name, &[0, 1]);
    }
    assert_eq!(tally.rare_holds(100), Vec::<String>::new());
    assert_eq!(tally.rare_fillings(100), Vec::<String>::new());
    assert_eq!(tally.rare_typings(100), Vec::<String>::new());
    assert_eq!(tally.rare_countings(100), Vec::<String>::new());
    assert_eq!(tally.unmet(), Vec::<String>::new());
}

/// A run of usual size that meets nothing, or misses one thing, is found out; a shorter one may miss any.
#[test]
fn what_is_not_met_is_named() {
    let mut tally = Tally::default();
    assert_eq!(tally.unmet(), Vec::<String>::new());
    tally.calls[0] = COUNT;
    // 25 things of a hold, of filler 12 by their places, of misses 15 by their numbers, one of them not with each, and 45 of
    // counts.
    assert_eq!(tally.unmet().len(), 25 + 60 + 89 + 45);
    tally.met.fill(1);
    tally.countings.fill(1);
    tally.fillings.fill([1; 8]);
    tally.typings.fill([1; NUMBERS]);
    tally.fillings[Filling::RefusedForLast as usize][2] = 0;
    tally.typings[Typing::Timeout as usize][4] = 0;
    tally.countings[Counting::ShortClears as usize] = 0;
    assert_eq!(
        tally.unmet(),
        [
            "RefusedForLast with 2",
            "Timeout with misses 4",
            "ShortClears"
        ]
    );
}

#[test]
fn every_mistake_is_caught() {
    for (name, mistake) in mistakes() {
        let broken = Broken(mistake);
        let (calls, difference) = found(name, &broken);
        let steps = steps(&difference.case);
        println!("{calls:8} calls, {steps:3} steps: {name}");
        assert!(steps <= STEPS, "{name}: {difference}");
        // The shortened case shows the difference by itself.
        let mut pair = Pair::new(&broken, &Reference);
        let again = difference.case.play(&mut pair);
        assert_eq!(again.unwrap_err().call, difference.mismatch.call, "{name}");
    }
}

/// Transfers that were sent in sessions: all of them, the long ones, and those of 1785 bytes.
static SENT: [AtomicU64; 3] = [const { AtomicU64::new(0) }; 3];

fn count(sender: FlatSender, _: FlatFrame, answer: &mut FlatSenderAnswer) {
    let lengths = [1, 9, 1785];
    for (least, sent) in lengths.into_iter().zip(&SENT) {
        if answer.outcome == 5 && sender.length >= least {
            sent.fetch_add(1, Ordering::Relaxed);
        }
    }
}

/// Sessions carry transfers to their end, the longest too.
#[test]
fn transfers_go_through() {
    let counting = Broken(Mistake::SenderHear(count));
    let mut pair = Pair::new(&counting, &Reference);
    for seed in 0..5000 {
        let (_, played) = sessions::run(&mut Random::new(seed), &mut pair);
        assert!(played.is_ok());
    }
    let sent = SENT.each_ref().map(|sent| sent.load(Ordering::Relaxed));
    println!("sent: {sent:?} of {} calls", pair.tally.total());
    assert!(sent[0] > 5000 && sent[1] > 2000 && sent[2] > 20, "{sent:?}");
}

/// What sessions alone meet, and forged states alone.
fn met_apart() -> [Tally; 2] {
    let mut sessions = Pair::new(&Reference, &Reference);
    for seed in 0..10_000 {
        let (_, played) = sessions::run(&mut Random::new(seed), &mut sessions);
        assert!(played.is_ok());
    }
    let mut forged = Pair::new(&Reference, &Reference);
    let mut random = Random::new(SEED);
    for _ in 0..200_000 {
        let call = forged::end_call(&mut random);
        assert!(forged.compare(call).is_ok());
    }
    [sessions.tally, forged.tally]
}

/// All that can be met of a hold is met by either.
#[test]
fn holds_come_about() {
    let tallies = met_apart();
    for met in Met::ALL {
        println!(
            "{met:?}: {:?}",
            tallies.each_ref().map(|tally| tally.met[met as usize])
        );
    }
    assert_eq!(
        tallies.map(|tally| tally.rare_holds(50)),
        [const { Vec::<String>::new() }; 2]
    );
}

/// And of a last frame's filler. But only a caller makes a connection whose L ends before its frame N.
#[test]
fn dirty_last_frames_come_about() {
    let tallies = met_apart();
    for filling in Filling::ALL {
        println!(
            "{filling:?}: {:?}",
            tallies
                .each_ref()
                .map(|tally| tally.fillings[filling as usize])
        );
    }
    let [mut sessions, forged] = tallies.map(|tally| tally.rare_fillings(50));
    assert_eq!(sessions.len(), 7);
    sessions.retain(|met| !met.starts_with("DirtyBeforeLast "));
    assert_eq!([sessions, forged], [const { Vec::<String>::new() }; 2]);
}

/// And of misses, by their numbers. But some only with states that a caller makes, and these never in sessions.
#[test]
fn timeouts_of_each_type_come_about() {
    let [sessions, forged] = met_apart();
    let mut wrong = forged.rare_typings(50);
    for typing in Typing::ALL {
        let place = typing as usize;
        let counts = [sessions.typings[place], forged.typings[place]];
        println!("{typing:?}: {counts:?}");
        wrong.extend((0..NUMBERS).filter_map(|number| {
            let right = match typing.comes_about(number) {
                true => counts[0][number] >= 50,
                false => counts[0][number] == 0,
            };
            (!right).then(|| format!("in sessions {typing:?} with misses {number}"))
        }));
    }
    assert_eq!(wrong, Vec::<String>::new());
}

/// And of counts, by sessions with a summary and by its calls alone. But a session hardly comes to counts of two bytes, or to
/// 255 as the only number sent most often, and a short transfer has no count for SM_RM to leave.
#[test]
fn counts_come_about() {
    let mut sessions = Pair::new(&Reference, &Reference);
    for seed in 0..10_000 {
        let (_, played) = sessions::run_counted(&mut Random::new(seed), &mut sessions);
        assert!(played.is_ok());
    }
    let mut forged = Pair::new(&Reference, &Reference);
    let mut random = Random::new(SEED);
    for _ in 0..100_000 {
        let call = forged::summary_call(&mut random);
        assert!(forged.compare(call).is_ok());
    }
    let tallies = [sessions.tally, forged.tally];
    for counting in Counting::ALL {
        let place = counting as usize;
        println!(
            "{counting:?}: {:?}",
            tallies.each_ref().map(|tally| tally.countings[place])
        );
    }
    let [mut sessions, forged] = tallies.map(|tally| tally.rare_countings(50));
    let beyond = ["PassesByte", "Stays", "TickShort", "Most255", "CountWord"];
    sessions.retain(|met| !beyond.contains(&met.as_str()));
    assert_eq!([sessions, forged], [const { Vec::<String>::new() }; 2]);
}

/// The seed that is named shows the difference at once.
#[test]
fn a_seed_shows_its_difference_again() {
    for (name, mistake) in mistakes().into_iter().step_by(5) {
        let broken = Broken(mistake);
        let (_, difference) = found(name, &broken);
        let (_, again) = first_difference(&broken, &Reference, difference.seed, 1);
        assert_eq!(again.unwrap().case, difference.case, "{name}");
    }
}

/// The name of a mistake by its words, with the difference that shows it.
fn named(words: &str) -> Difference {
    let mistakes = mistakes();
    let (name, mistake) = mistakes.iter().find(|(name, _)| *name == words).unwrap();
    found(name, &Broken(*mistake)).1
}

/// No step can be left out of a shortened session.
#[test]
fn shortened_sessions_are_shortest() {
    let mistakes = mistakes();
    let mut sessions = 0;
    for (name, mistake) in &mistakes {
        let broken = Broken(*mistake);
        let Case::Session(session) = found(name, &broken).1.case else {
            continue;
        };
        sessions += 1;
        for place in 0..session.steps.len() {
            let mut fewer = session.clone();
            fewer.steps.remove(place);
            let played = fewer.play(&mut Pair::new(&broken, &Reference));
            assert!(played.is_ok(), "{name}: step {place} is not needed");
        }
    }
    assert!(sessions > 10, "{sessions} mistakes are shown by a session");
}

/// What is printed of a difference: the seed, the case, and both answers.
#[test]
fn a_difference_is_told() {
    let difference = named("begin's frame is not counted");
    let text = difference.to_string();
    assert!(text.starts_with(&format!(
        "DIFFERENT at seed {0} (--seed {0} --count 1)\n",
        difference.seed
    )));
    assert!(text.contains("\ncall:      SenderBegin("));
    assert!(text.contains("\nface:      Sender(FlatSenderAnswer {"));
    assert!(text.contains("\nreference: Sender(FlatSenderAnswer {"));
    assert!(matches!(difference.mismatch.call, Call::SenderBegin(..)));

    let text = named("filler copied past L").to_string();
    assert!(text.contains("\nbuffer:    at place "));
}
