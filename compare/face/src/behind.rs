//! The reference behind the boundary of the proved code, for the benchmark: for every function of `crate::ffi` one in Rust
//! with the same parameters and result, called as C calls it and never inlined. It translates the flat values, calls the
//! reference and translates back, as `crate::ends`, `crate::summary` and `crate::around` do.

use std::slice::{from_raw_parts, from_raw_parts_mut};

use crate::interface::{through, Around, Ends, Summary};
use crate::values::*;
use crate::Reference;

/// The reference behind the same boundary as the proved code.
#[derive(Clone, Copy, Debug)]
pub struct Behind;

through!(Behind, called);

/// Functions that are called as C calls them, through a pointer that is read from memory at each call, as the proved code is
/// (its addresses stand in the table that the linker makes). So the compiler inlines none of them, leaves their parameters
/// and results as they are declared, and knows nothing of what they do.
macro_rules! boundary {
    ($(
        fn $name:ident($($given:ident: $kind:ty),* $(,)?) -> $answer:ty $body:block
    )*) => {
        $(
            #[inline(always)]
            pub unsafe fn $name($($given: $kind),*) -> $answer {
                extern "C" fn called($($given: $kind),*) -> $answer $body
                static CALLED: extern "C" fn($($kind),*) -> $answer = called;
                // Sound: a static that is never written.
                let call = unsafe { std::ptr::read_volatile(&raw const CALLED) };
                call($($given),*)
            }
        )*
    };
}

mod called {
    use super::*;

    // A pointer must have as many bytes behind it as the length says.
    boundary! {
        fn kospelna_sender_make(gap: u16, timeout: u16, limit: u16) -> FlatSenderMade {
            Reference.sender_make(gap, timeout, limit)
        }

        fn kospelna_sender_begin(sender: FlatSender, message: *const u8, length: usize) -> FlatSenderAnswer {
            Reference.sender_begin(sender, unsafe { from_raw_parts(message, length) })
        }

        fn kospelna_sender_post(sender: FlatSender, message: *const u8, length: usize) -> FlatSenderAnswer {
            Reference.sender_post(sender, unsafe { from_raw_parts(message, length) })
        }

        fn kospelna_sender_tick(sender: FlatSender, message: *const u8, length: usize) -> FlatSenderAnswer {
            Reference.sender_tick(sender, unsafe { from_raw_parts(message, length) })
        }

        fn kospelna_sender_hear(sender: FlatSender, frame: FlatFrame) -> FlatSenderAnswer {
            Reference.sender_hear(sender, frame)
        }

        fn kospelna_summary_begin(
            sender: FlatSender,
            message: *const u8,
            length: usize,
            counts: *mut u8,
            counts_length: usize,
        ) -> FlatSenderAnswer {
            let counts = unsafe { from_raw_parts_mut(counts, counts_length) };
            Reference.summary_begin(sender, unsafe { from_raw_parts(message, length) }, counts)
        }

        fn kospelna_summary_post(
            sender: FlatSender,
            message: *const u8,
            length: usize,
            counts: *mut u8,
            counts_length: usize,
        ) -> FlatSenderAnswer {
            let counts = unsafe { from_raw_parts_mut(counts, counts_length) };
            Reference.summary_post(sender, unsafe { from_raw_parts(message, length) }, counts)
        }

        fn kospelna_summary_tick(
            sender: FlatSender,
            message: *const u8,
            length: usize,
            counts: *mut u8,
            counts_length: usize,
        ) -> FlatSenderAnswer {
            let counts = unsafe { from_raw_parts_mut(counts, counts_length) };
            Reference.summary_tick(sender, unsafe { from_raw_parts(message, length) }, counts)
        }

        fn kospelna_summary_hear(
            sender: FlatSender,
            frame: FlatFrame,
            counts: *mut u8,
            counts_length: usize,
        ) -> FlatSenderAnswer {
            Reference.summary_hear(sender, frame, unsafe { from_raw_parts_mut(counts, counts_length) })
        }

        fn kospelna_summary_count(number: u8, counts: *const u8, counts_length: usize) -> FlatCount {
            Reference.summary_count(number, unsafe { from_raw_parts(counts, counts_length) })
        }

        fn kospelna_summary_most(counts: *const u8, counts_length: usize) -> FlatCount {
            Reference.summary_most(unsafe { from_raw_parts(counts, counts_length) })
        }

        fn kospelna_receiver_make(timeout: u16, window: u16, capacity: u16) -> FlatReceiverMade {
            Reference.receiver_make(timeout, window, capacity)
        }

        fn kospelna_receiver_tick(receiver: FlatReceiver) -> FlatReceiverAnswer {
            Reference.receiver_tick(receiver)
        }

        fn kospelna_receiver_hold(receiver: FlatReceiver) -> FlatReceiverAnswer {
            Reference.receiver_hold(receiver)
        }

        fn kospelna_receiver_resume(receiver: FlatReceiver) -> FlatReceiverAnswer {
            Reference.receiver_resume(receiver)
        }

        fn kospelna_receiver_hear(
            receiver: FlatReceiver,
            frame: FlatFrame,
            buffer: *mut u8,
            length: usize,
        ) -> FlatReceiverAnswer {
            Reference.receiver_hear(receiver, frame, unsafe { from_raw_parts_mut(buffer, length) })
        }

        fn kospelna_clean_figures_of(length: u32, gap: u32) -> FlatCleanFigures {
            Reference.clean_figures_of(length, gap)
        }

        fn kospelna_identifier_join(parts: FlatIdentifierParts) -> FlatIdentifierJoining {
            Reference.identifier_join(parts)
        }

        fn kospelna_identifier_split(identifier: u32) -> FlatIdentifierSplitting {
            Reference.identifier_split(identifier)
        }

        fn kospelna_charger_address() -> u32 {
            Reference.charger_address()
        }

        fn kospelna_vehicle_address() -> u32 {
            Reference.vehicle_address()
        }

        fn kospelna_charger_version_identifier() -> u32 {
            Reference.charger_version_identifier()
        }

        fn kospelna_vehicle_version_identifier() -> u32 {
            Reference.vehicle_version_identifier()
        }

        fn kospelna_version_list(bytes: *const u8, length: usize) -> FlatVersionListing {
            Reference.version_list(unsafe { from_raw_parts(bytes, length) })
        }

        fn kospelna_version_message_write(message: FlatVersionMessage) -> FlatVersionWriting {
            Reference.version_message_write(message)
        }

        fn kospelna_version_message_read(bytes: FlatVersionBytes) -> FlatVersionReading {
            Reference.version_message_read(bytes)
        }

        fn kospelna_talker_make(side: u8, versions: FlatVersions, control: u8) -> FlatTalkerMade {
            Reference.talker_make(side, versions, control)
        }

        fn kospelna_talker_connect(talker: FlatTalker) -> FlatTalkerAnswer {
            Reference.talker_connect(talker)
        }

        fn kospelna_talker_tick(talker: FlatTalker) -> FlatTalkerAnswer {
            Reference.talker_tick(talker)
        }

        fn kospelna_talker_hear(talker: FlatTalker, bytes: FlatVersionBytes) -> FlatTalkerAnswer {
            Reference.talker_hear(talker, bytes)
        }

        fn kospelna_talker_stop(talker: FlatTalker) -> FlatTalkerAnswer {
            Reference.talker_stop(talker)
        }

        fn kospelna_talker_greet(talker: FlatTalker) -> FlatTalkerAnswer {
            Reference.talker_greet(talker)
        }

        fn kospelna_talker_functions_heard(talker: FlatTalker) -> FlatTalkerAnswer {
            Reference.talker_functions_heard(talker)
        }

        fn kospelna_group_read(bytes: *const u8, length: usize) -> FlatGroupReading {
            Reference.group_read(unsafe { from_raw_parts(bytes, length) })
        }

        fn kospelna_group_write(group: FlatGroup, bytes: *mut u8, length: usize) -> FlatGroupWriting {
            Reference.group_write(group, unsafe { from_raw_parts_mut(bytes, length) })
        }

        fn kospelna_group_find(code: u8) -> FlatGroupFinding {
            Reference.group_find(code)
        }
    }
}
