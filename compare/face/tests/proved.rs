//! The proved code and the reference alike, and the programs that say so.
#![cfg(feature = "proved")]

use std::process::Command;

use compare::agreement::play::play_beside;
use compare::reference::version::Talker;
use face::agreement::FaceTalker;
use face::differences::first_difference;
use face::ffi::Proved;
use face::Reference;

#[test]
fn the_proved_code_is_alike_with_the_reference() {
    let (_, difference) = first_difference(&Proved, &Reference, 1_000_000_000, 500_000);
    if let Some(difference) = difference {
        panic!("{difference}");
    }
}

/// Over a line, from other seeds than the gate's.
#[test]
fn the_proved_talkers_are_alike_and_as_claimed() {
    let played = play_beside::<FaceTalker<Proved>, Talker>(1_000_000_000, 1_000_000);
    played.unwrap_or_else(|error| panic!("{error}"));
}

fn run(program: &str, words: &[&str]) -> (Option<i32>, String) {
    let output = Command::new(program).args(words).output().unwrap();
    let text = String::from_utf8(output.stdout).unwrap();
    (output.status.code(), text)
}

fn calls(words: &[&str]) -> (Option<i32>, String) {
    run(env!("CARGO_BIN_EXE_calls"), words)
}

fn agreement(words: &[&str]) -> (Option<i32>, String) {
    run(env!("CARGO_BIN_EXE_agreement"), words)
}

#[test]
fn the_program_of_calls() {
    let (status, text) = calls(&["--count", "20000", "--seed", "7"]);
    assert_eq!(status, Some(0), "{text}");
    assert!(text.contains("calls from seed 7 alike"));
    assert!(text.contains("calls: kospelna_receiver_hear "));
    assert!(text.contains("calls: of a hold: HeldTimeout "));
    assert!(text.contains("calls: of filler: RefusedForFirst "));
    assert!(text.contains("calls: of misses: HeldTimeout "));
    assert!(text.contains("calls: of counts: BeginClears "));

    let (status, text) = calls(&["--mistake", "filler copied past L"]);
    assert_eq!(status, Some(1));
    assert!(text.starts_with("DIFFERENT at seed "));
    assert!(text.contains("buffer:    at place "));

    assert_eq!(calls(&["--mistake", "none"]).0, Some(2));
    assert_eq!(calls(&["--count", "many"]).0, Some(2));
    assert_eq!(calls(&["--speed"]).0, Some(2));
}

#[test]
fn the_program_of_agreement() {
    let (status, text) = agreement(&["--count", "20000", "--seed", "7"]);
    assert_eq!(status, Some(0), "{text}");
    assert!(text.starts_with("agreement: "));
    assert!(text.contains(" talks from seed 7 alike and as claimed"));
    assert!(text.contains(": both agreed in S2 "));

    let (status, text) = agreement(&["--mistake", "the vehicle's S3 is silent"]);
    assert_eq!(status, Some(1));
    assert!(text.starts_with("DIFFERENT OR NOT AS CLAIMED at seed "));
    assert!(text.contains("\nDiffers {"));

    assert_eq!(agreement(&["--mistake", "none"]).0, Some(2));
    assert_eq!(agreement(&["--count"]).0, Some(2));
}
