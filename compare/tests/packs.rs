//! Tests of the random packs: the reference agrees with itself, players with a mistake are caught,
//! and what is printed of a difference can be played again.

use std::collections::HashSet;
use std::io::Write;
use std::mem::discriminant;
use std::process::{Command, Output, Stdio};

use compare::packs::case::Case;
use compare::packs::clean::{first_fault, Fault};
use compare::packs::differences::{first_difference, Difference, Tally};
use compare::packs::generate;
use compare::packs::shrink::shrink;
use compare::reference::frame;
use compare::reference::line::{Bench, Call, List, Outcome};
use compare::reference::player::{play, play_with};
use compare::reference::receiver::{After, Receiver, State};
use compare::reference::sender::{Phase, Report, Sender};
use compare::reference::{receiver, sender};

const SEED: u64 = 1;
const COUNT: u64 = 2000;

type Step = fn(&mut Bench, Call, &[u8], &mut [u8]) -> Outcome;

/// The difference that the first 2000 packs find with this player.
fn found(name: &str, player: impl Fn(&[u8]) -> String) -> Difference {
    let player = |pack: &[u8]| Ok(player(pack));
    let difference = first_difference(&player, SEED, COUNT, &mut Tally::new())
        .unwrap()
        .unwrap_or_else(|| panic!("{name} is not caught"));
    let pack = difference.case.pack();
    assert!(pack.len() <= difference.size, "{name}");
    assert_ne!(difference.printed, difference.reference, "{name}");
    assert_eq!(difference.reference, play(&pack), "{name}");
    difference
}

/// A mistake in a step is caught, and shortened to at most so many events.
fn caught(name: &str, step: Step, most: usize) {
    let player = |pack: &[u8]| play_with(pack, |b, c, m, f| Ok(step(b, c, m, f)));
    let events = found(name, player).case.events.len();
    assert!(events <= most, "{name}: {events} events are left");
}

fn right(bench: &mut Bench, call: Call, message: &[u8], buffer: &mut [u8]) -> Outcome {
    bench
        .call(call, message, buffer)
        .expect("no call of a run is refused")
}

fn gives_forward(call: Call) -> bool {
    matches!(call, Call::ForwardHear | Call::ForwardRepeat)
}

fn gives_back(call: Call) -> bool {
    matches!(call, Call::BackHear | Call::BackRepeat)
}

/// "clearing misses on a repeated LM_ACK"
fn clears_misses(bench: &mut Bench, call: Call, message: &[u8], buffer: &mut [u8]) -> Outcome {
    let first = bench.back.repeat();
    let outcome = right(bench, call, message, buffer);
    if gives_back(call) && first.is_some_and(|heard| heard.kind == 2) {
        bench.sender.misses = 0;
    }
    outcome
}

/// "restarting wait on a frame that was ignored"
fn restarts_wait(bench: &mut Bench, call: Call, message: &[u8], buffer: &mut [u8]) -> Outcome {
    let outcome = right(bench, call, message, buffer);
    if outcome == Outcome::Receiver(receiver::Answer::default()) && gives_forward(call) {
        if let State::Open(open) = &mut bench.receiver.state {
            open.wait = 0;
        }
    }
    outcome
}

/// No answer to the last frame when it comes again after delivery.
fn silent_at_last(bench: &mut Bench, call: Call, message: &[u8], buffer: &mut [u8]) -> Outcome {
    let back = bench.back.clone();
    let outcome = right(bench, call, message, buffer);
    match outcome {
        Outcome::Receiver(receiver::Answer {
            frame: Some(frame),
            report: None,
        }) if frame.kind == 4 => {
            bench.back = back;
            Outcome::Nothing
        }
        _ => outcome,
    }
}

/// "reopening on a second announcement": at e = 1, where it shows in wait and misses.
fn reopens(bench: &mut Bench, call: Call, message: &[u8], buffer: &mut [u8]) -> Outcome {
    let outcome = right(bench, call, message, buffer);
    if let (Outcome::Receiver(answer), State::Open(open)) = (outcome, &mut bench.receiver.state) {
        if gives_forward(call) && open.e == 1 && answer.frame.is_some() {
            (open.wait, open.misses, open.counted) = (0, 0, None);
        }
    }
    outcome
}

/// A line that takes this many frames.
fn other_room(room: usize, bench: &mut Bench, call: Call) {
    if call == Call::Begin {
        (bench.forward, bench.back) = (List::with_room(room), List::with_room(room));
    }
}

fn room_of_65(bench: &mut Bench, call: Call, message: &[u8], buffer: &mut [u8]) -> Outcome {
    other_room(65, bench, call);
    right(bench, call, message, buffer)
}

fn room_of_63(bench: &mut Bench, call: Call, message: &[u8], buffer: &mut [u8]) -> Outcome {
    other_room(63, bench, call);
    right(bench, call, message, buffer)
}

/// A frame that the line loses is not printed.
fn lost_unprinted(bench: &mut Bench, call: Call, message: &[u8], buffer: &mut [u8]) -> Outcome {
    let full = (bench.forward.len() == 64, bench.back.len() == 64);
    match (right(bench, call, message, buffer), full) {
        (Outcome::Sender(mut answer), (true, _)) => {
            answer.frame = None;
            Outcome::Sender(answer)
        }
        (Outcome::Receiver(mut answer), (_, true)) => {
            answer.frame = None;
            Outcome::Receiver(answer)
        }
        (outcome, _) => outcome,
    }
}

/// NACK 3 at the end of a short transfer's sending time.
fn short_nack(bench: &mut Bench, call: Call, message: &[u8], buffer: &mut [u8]) -> Outcome {
    let mut outcome = right(bench, call, message, buffer);
    if let Outcome::Sender(sender::Answer {
        frame: frame @ None,
        report: Some(Report::Failed { cause: 3, .. }),
    }) = &mut outcome
    {
        *frame = Some(frame::lm_nack(3));
    }
    outcome
}

/// The closing frame is not counted.
fn closing_uncounted(bench: &mut Bench, call: Call, message: &[u8], buffer: &mut [u8]) -> Outcome {
    let mut outcome = right(bench, call, message, buffer);
    if let Outcome::Sender(sender::Answer {
        frame: Some(_),
        report: Some(Report::Failed { frames, .. }),
    }) = &mut outcome
    {
        *frames -= 1;
    }
    outcome
}

/// A timeout of the receiver forgets the misses before it.
fn forgets_misses(bench: &mut Bench, call: Call, message: &[u8], buffer: &mut [u8]) -> Outcome {
    let outcome = right(bench, call, message, buffer);
    if let State::Open(open) = &mut bench.receiver.state {
        open.misses = open.misses.min(1);
    }
    outcome
}

/// The count of document 01, without document 02's E4: timeouts of both types in one row.
fn one_type(bench: &mut Bench, call: Call, message: &[u8], buffer: &mut [u8]) -> Outcome {
    if let State::Open(open) = &mut bench.receiver.state {
        open.counted = Some(open.after);
    }
    right(bench, call, message, buffer)
}

/// At a window's end the frame decides the type, and not the LM_ACK that it draws.
fn frame_decides(bench: &mut Bench, call: Call, message: &[u8], buffer: &mut [u8]) -> Outcome {
    let outcome = right(bench, call, message, buffer);
    if let (Outcome::Receiver(answer), State::Open(open)) = (outcome, &mut bench.receiver.state) {
        if gives_forward(call) && open.e > 1 && answer.frame.is_some() {
            open.after = After::Frame;
        }
    }
    outcome
}

/// A frame that was ignored decides the type as one that was taken does.
fn ignored_decides(bench: &mut Bench, call: Call, message: &[u8], buffer: &mut [u8]) -> Outcome {
    let outcome = right(bench, call, message, buffer);
    if outcome == Outcome::Receiver(receiver::Answer::default()) && gives_forward(call) {
        if let State::Open(open) = &mut bench.receiver.state {
            open.after = After::Frame;
        }
    }
    outcome
}

/// A frame taken leaves the count, and only another type begins it anew.
fn keeps_misses(bench: &mut Bench, call: Call, message: &[u8], buffer: &mut [u8]) -> Outcome {
    let before = bench.receiver.state;
    let outcome = right(bench, call, message, buffer);
    if let (State::Open(old), State::Open(open)) = (before, &mut bench.receiver.state) {
        if gives_forward(call) {
            (open.misses, open.counted) = (old.misses, old.counted);
        }
    }
    outcome
}

/// The sender without document 02's E2: an LM_ACK for the frame before the last start is ignored.
fn rule_left_out(bench: &mut Bench, call: Call, message: &[u8], buffer: &mut [u8]) -> Outcome {
    let (sender, first) = (bench.sender.clone(), bench.back.repeat());
    let outcome = right(bench, call, message, buffer);
    let windowed = matches!(sender.phase, Phase::Sending { .. } | Phase::Waiting { .. });
    let before = sender.start.map_or(0, |start| start.saturating_sub(1));
    let asked = before > 0 && first == Some(frame::lm_ack(before, 1));
    if gives_back(call) && windowed && asked {
        bench.sender = sender;
    }
    outcome
}

/// A run has no hold, so no pack shows whether the sender has E2's rule.
#[test]
fn packs_do_not_meet_the_rule_of_a_hold() {
    let player = |pack: &[u8]| Ok(play_with(pack, |b, c, m, f| Ok(rule_left_out(b, c, m, f))));
    let difference = first_difference(&player, SEED, COUNT, &mut Tally::new()).unwrap();
    assert!(difference.is_none(), "{}", difference.unwrap());
    let fault = first_fault(&player, SEED, 300).unwrap();
    assert!(fault.is_none(), "{}", fault.unwrap());
}

/// A list of calls with a hold does: N 2 and C 1, held when LM_ACK 2, 1 has been heard. What the last
/// tick emits is frame 1 with the rule, and frame 2 without it.
#[test]
fn a_hold_meets_its_rule() {
    let message = [7; 9];
    let last_tick = |step: Step| {
        let sender = Sender::make(1, 10, 100).unwrap();
        let receiver = Receiver::make(10, 1, 1785).unwrap();
        let mut bench = Bench::new(sender, receiver);
        let mut outcome = Outcome::Nothing;
        for call in [
            Call::Begin,
            Call::ForwardHear,
            Call::BackHear,
            Call::SenderTick,
            Call::ForwardHear,
            Call::BackHear,
            Call::Hold,
            Call::BackHear,
            Call::SenderTick,
        ] {
            outcome = step(&mut bench, call, &message, &mut [0; 1785]);
        }
        outcome
    };
    let emits = |i: u8| {
        Outcome::Sender(sender::Answer {
            frame: Some(frame::information(i, &message)),
            report: None,
        })
    };
    assert_eq!(last_tick(right), emits(1));
    assert_eq!(last_tick(rule_left_out), emits(2));
}

#[test]
fn mistakes_in_the_ends_are_caught() {
    caught("clears_misses", clears_misses, 40);
    caught("restarts_wait", restarts_wait, 40);
    caught("silent_at_last", silent_at_last, 40);
    caught("reopens", reopens, 40);
    caught("short_nack", short_nack, 1);
    caught("closing_uncounted", closing_uncounted, 40);
    caught("forgets_misses", forgets_misses, 40);
}

#[test]
fn mistakes_in_the_types_are_caught() {
    caught("one_type", one_type, 40);
    caught("frame_decides", frame_decides, 40);
    caught("ignored_decides", ignored_decides, 40);
    caught("keeps_misses", keeps_misses, 40);
}

#[test]
fn mistakes_in_the_line_are_caught() {
    caught("room_of_65", room_of_65, 200);
    caught("room_of_63", room_of_63, 200);
    caught("lost_unprinted", lost_unprinted, 65);
}

/// Hexadecimal pairs in lower case; a report before its frame; a text without its last line's end.
#[test]
fn mistakes_in_printing_are_caught() {
    let lower = |c: char| match c {
        'A'..='F' => c.to_ascii_lowercase(),
        _ => c,
    };
    let difference = found("lower case", |pack| play(pack).chars().map(lower).collect());
    assert!(difference.case.events.is_empty());
    assert_eq!(difference.case.message.len(), 1);

    let reversed = |pack: &[u8]| {
        let text = play(pack);
        let mut lines: Vec<&str> = text.split_inclusive('\n').collect();
        for place in 1..lines.len() {
            if lines[place].contains(" delivered ") {
                lines.swap(place - 1, place);
            }
        }
        lines.concat()
    };
    found("report first", reversed);
    found("no last line end", |pack| play(pack).trim_end().to_string());
}

/// A byte after the last body is taken; settings are judged before the shape; a message before
/// settings; a bad event is passed over.
#[test]
fn mistakes_in_reading_are_caught() {
    let word = |pack: &[u8], at: usize| usize::from(pack[at]) + 256 * usize::from(pack[at + 1]);
    found("trailing", |pack| match pack.len() {
        0..=12 => play(pack),
        size => play(&pack[..(word(pack, 9) + word(pack, 11)).min(size)]),
    });
    found("1 before 12", |pack| {
        match pack.len() > 23 && pack[13] > 10 {
            true => "refused 1\n".to_string(),
            false => play(pack),
        }
    });
    found("2 before 1", |pack| {
        let text = play(pack);
        match text == "refused 1\n" && word(pack, 7) == 0 {
            true => "refused 2\n".to_string(),
            false => text,
        }
    });
    found("bad event", |pack| {
        let sound: Vec<u8> = pack
            .iter()
            .enumerate()
            .map(
                |(place, &byte)| match place >= 13 && place >= word(pack, 9) {
                    true => byte.clamp(1, 8),
                    false => byte,
                },
            )
            .collect();
        play(&sound)
    });
}

/// What the clean packs find with this player.
fn fault(player: impl Fn(&[u8]) -> String) -> Option<Fault> {
    first_fault(&|pack: &[u8]| Ok(player(pack)), SEED, 300).unwrap()
}

/// A player that makes this of the ticks and frames of sent.
fn with_figures(change: fn(&mut u16, &mut u16)) -> impl Fn(&[u8]) -> String {
    move |pack| {
        play_with(pack, |bench, call, message, buffer| {
            let mut outcome = right(bench, call, message, buffer);
            if let Outcome::Sender(sender::Answer {
                report: Some(Report::Sent { ticks, frames }),
                ..
            }) = &mut outcome
            {
                change(ticks, frames);
            }
            Ok(outcome)
        })
    }
}

/// A loss on an empty list takes the first frame of the other.
fn loses_the_others(bench: &mut Bench, call: Call, message: &[u8], buffer: &mut [u8]) -> Outcome {
    let call = match call {
        Call::ForwardLose if bench.forward.is_empty() => Call::BackLose,
        Call::BackLose if bench.back.is_empty() => Call::ForwardLose,
        _ => call,
    };
    right(bench, call, message, buffer)
}

/// The reference has the clean figures. A player with others is caught by them, as is one that loses
/// a frame, and one that prints another frame by the comparison alone.
#[test]
fn clean_packs() {
    assert!(fault(play).is_none());
    let mistakes: [fn(&mut u16, &mut u16); 3] = [
        |ticks, _| *ticks += 1,
        |_, frames| *frames -= 1,
        |ticks, frames| std::mem::swap(ticks, frames),
    ];
    for change in mistakes {
        let fault = fault(with_figures(change)).unwrap();
        let [promised, reported] = fault.unmet.as_ref().unwrap();
        assert!(promised[1].contains(" S sent ") && reported[1].contains(" S sent "));
        assert_eq!(promised[0], reported[0]);
        let text = fault.to_string();
        let again = format!("(--seed {} --count 0 --clean 1)\npromised:  ", fault.seed);
        assert!(text.contains(&again));
        assert!(text.contains("the same for tools/make_pack:\n"));
    }
    let player = |pack: &[u8]| play_with(pack, |b, c, m, f| Ok(loses_the_others(b, c, m, f)));
    assert!(fault(player).unwrap().unmet.is_some());
    let fault = fault(|pack| play(pack).replace(" R 2 01 ", " R 2 02 ")).unwrap();
    assert!(fault.unmet.is_none() && fault.difference.is_some());
}

/// The reference agrees with itself, and its texts show every report and refusal that a run can
/// have. Cause 4 cannot come: no end sends a number above N to the other.
#[test]
fn every_report_and_refusal_occurs() {
    let mut tally = Tally::new();
    let player = |pack: &[u8]| Ok(play(pack));
    let difference = first_difference(&player, SEED, COUNT, &mut tally).unwrap();
    assert!(difference.is_none());
    let sorts: Vec<&str> = tally.keys().map(String::as_str).collect();
    assert_eq!(
        sorts,
        [
            "R delivered",
            "R failed 1",
            "R failed 2",
            "R short",
            "S failed 1",
            "S failed 2",
            "S failed 3",
            "S sent",
            "refused 1",
            "refused 12",
            "refused 2"
        ]
    );
    let rare = tally.iter().find(|(_, &count)| count < 20);
    assert_eq!(rare, None);
}

/// Shortening keeps what makes the difference and drops the rest.
#[test]
fn shortening() {
    let case = (1..)
        .map(generate::case)
        .find(|case| case.damage.is_none() && case.message.len() > 100 && case.events.contains(&8));
    let mut differs = |case: &Case| case.events.contains(&8) && case.message.len() > 20;
    let short = shrink(case.unwrap(), &mut differs);
    assert_eq!((short.events, short.message.len()), (vec![8], 21));
}

fn with_input(program: &mut Command, input: &[u8]) -> Output {
    let mut child = program
        .stdin(Stdio::piped())
        .stdout(Stdio::piped())
        .stderr(Stdio::piped())
        .spawn()
        .unwrap();
    child.stdin.take().unwrap().write_all(input).unwrap();
    child.wait_with_output().unwrap()
}

/// `tools/make_pack` makes the same pack from a case's description: a few of every sort.
#[test]
fn descriptions_make_the_same_packs() {
    let tool = concat!(env!("CARGO_MANIFEST_DIR"), "/../tools/make_pack");
    let mut seen = HashSet::new();
    for case in (1..400).map(generate::case) {
        let sort = case.damage.as_ref().map(discriminant);
        let odd_event = case.events.iter().any(|event| !(1..=8).contains(event));
        if !seen.insert((sort, odd_event, case.message.is_empty())) {
            continue;
        }
        let made = with_input(Command::new(tool).arg("-"), case.description().as_bytes());
        assert!(made.status.success(), "{made:?}");
        assert_eq!(made.stdout, case.pack(), "{}", case.description());
    }
    let sorts: HashSet<_> = seen.iter().map(|(sort, ..)| sort).collect();
    assert_eq!(sorts.len(), 7, "no damage and each of six sorts");
}

fn packs(words: &[&str]) -> (Option<i32>, String) {
    let output = Command::new(env!("CARGO_BIN_EXE_packs"))
        .args(words)
        .output()
        .unwrap();
    (
        output.status.code(),
        String::from_utf8(output.stdout).unwrap(),
    )
}

/// The program: alike, different, and not to be run.
#[test]
fn the_program() {
    let reference = env!("CARGO_BIN_EXE_reference_player");
    let words = ["--player", reference, "--count", "50", "--seed", "7"];
    let (status, text) = packs(&[&words[..], &["--clean", "20"]].concat());
    assert_eq!(status, Some(0));
    assert!(text.starts_with("packs: 50 packs from seed 7 alike\n"));
    assert!(text.ends_with("packs: 20 clean packs from seed 7 alike, with the clean figures\n"));

    // A program that prints nothing: the least pack is left, with no events.
    let (status, text) = packs(&["--player", "/bin/true", "--count", "50", "--seed", "7"]);
    assert_eq!(status, Some(1));
    assert!(text.starts_with("DIFFERENT at seed 7 (--seed 7 --count 1)\nreference: "));
    assert!(text.contains("player:    (no line)\n"));
    assert!(text.contains("    0000  03 0D 00 0A 00 17 00 00 00 17 00 00 00 "));
    assert!(text.ends_with("    message empty\n"));

    assert_eq!(packs(&["--player", "/no/such/program"]).0, Some(2));
    assert_eq!(packs(&["--count", "many"]).0, Some(2));
    assert_eq!(packs(&["--clean", "many"]).0, Some(2));
    assert_eq!(packs(&["--speed"]).0, Some(2));
}
