//! The proved code: the functions that `crates/kospelna_c` and, for the summary, `crates/kospelna_summary_c` export,
//! over `crate::values`.

use crate::interface::{through, Around, Ends, Summary};
use crate::values::*;

mod linked {
    use super::*;

    extern "C" {
        pub fn kospelna_sender_make(gap: u16, timeout: u16, limit: u16) -> FlatSenderMade;
        pub fn kospelna_sender_begin(
            sender: FlatSender,
            message: *const u8,
            length: usize,
        ) -> FlatSenderAnswer;
        pub fn kospelna_sender_post(
            sender: FlatSender,
            message: *const u8,
            length: usize,
        ) -> FlatSenderAnswer;
        pub fn kospelna_sender_tick(
            sender: FlatSender,
            message: *const u8,
            length: usize,
        ) -> FlatSenderAnswer;
        pub fn kospelna_sender_hear(sender: FlatSender, frame: FlatFrame) -> FlatSenderAnswer;
        pub fn kospelna_summary_begin(
            sender: FlatSender,
            message: *const u8,
            length: usize,
            counts: *mut u8,
            counts_length: usize,
        ) -> FlatSenderAnswer;
        pub fn kospelna_summary_post(
            sender: FlatSender,
            message: *const u8,
            length: usize,
            counts: *mut u8,
            counts_length: usize,
        ) -> FlatSenderAnswer;
        pub fn kospelna_summary_tick(
            sender: FlatSender,
            message: *const u8,
            length: usize,
            counts: *mut u8,
            counts_length: usize,
        ) -> FlatSenderAnswer;
        pub fn kospelna_summary_hear(
            sender: FlatSender,
            frame: FlatFrame,
            counts: *mut u8,
            counts_length: usize,
        ) -> FlatSenderAnswer;
        pub fn kospelna_summary_count(
            number: u8,
            counts: *const u8,
            counts_length: usize,
        ) -> FlatCount;
        pub fn kospelna_summary_most(counts: *const u8, counts_length: usize) -> FlatCount;
        pub fn kospelna_receiver_make(timeout: u16, window: u16, capacity: u16)
            -> FlatReceiverMade;
        pub fn kospelna_receiver_tick(receiver: FlatReceiver) -> FlatReceiverAnswer;
        pub fn kospelna_receiver_hold(receiver: FlatReceiver) -> FlatReceiverAnswer;
        pub fn kospelna_receiver_resume(receiver: FlatReceiver) -> FlatReceiverAnswer;
        pub fn kospelna_receiver_hear(
            receiver: FlatReceiver,
            frame: FlatFrame,
            buffer: *mut u8,
            length: usize,
        ) -> FlatReceiverAnswer;

        pub fn kospelna_clean_figures_of(length: u32, gap: u32) -> FlatCleanFigures;
        pub fn kospelna_identifier_join(parts: FlatIdentifierParts) -> FlatIdentifierJoining;
        pub fn kospelna_identifier_split(identifier: u32) -> FlatIdentifierSplitting;
        pub fn kospelna_charger_address() -> u32;
        pub fn kospelna_vehicle_address() -> u32;
        pub fn kospelna_charger_version_identifier() -> u32;
        pub fn kospelna_vehicle_version_identifier() -> u32;
        pub fn kospelna_version_list(bytes: *const u8, length: usize) -> FlatVersionListing;
        pub fn kospelna_version_message_write(message: FlatVersionMessage) -> FlatVersionWriting;
        pub fn kospelna_version_message_read(bytes: FlatVersionBytes) -> FlatVersionReading;
        pub fn kospelna_talker_make(
            side: u8,
            versions: FlatVersions,
            control: u8,
        ) -> FlatTalkerMade;
        pub fn kospelna_talker_connect(talker: FlatTalker) -> FlatTalkerAnswer;
        pub fn kospelna_talker_tick(talker: FlatTalker) -> FlatTalkerAnswer;
        pub fn kospelna_talker_hear(
            talker: FlatTalker,
            bytes: FlatVersionBytes,
        ) -> FlatTalkerAnswer;
        pub fn kospelna_talker_stop(talker: FlatTalker) -> FlatTalkerAnswer;
        pub fn kospelna_talker_greet(talker: FlatTalker) -> FlatTalkerAnswer;
        pub fn kospelna_talker_functions_heard(talker: FlatTalker) -> FlatTalkerAnswer;
        pub fn kospelna_group_read(bytes: *const u8, length: usize) -> FlatGroupReading;
        pub fn kospelna_group_write(
            group: FlatGroup,
            bytes: *mut u8,
            length: usize,
        ) -> FlatGroupWriting;
        pub fn kospelna_group_find(code: u8) -> FlatGroupFinding;
    }
}

/// The proved code.
#[derive(Clone, Copy, Debug)]
pub struct Proved;

through!(Proved, linked);
