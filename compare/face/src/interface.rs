//! Everything behind the face, as functions on plain values. The proved code, the reference and the broken references
//! each stand behind it. No function has a default, so that none is compared with itself by oversight.

use crate::values::*;

/// The two transport ends.
pub trait Ends {
    fn sender_make(&self, gap: u16, timeout: u16, limit: u16) -> FlatSenderMade;
    fn sender_begin(&self, sender: FlatSender, message: &[u8]) -> FlatSenderAnswer;
    fn sender_post(&self, sender: FlatSender, message: &[u8]) -> FlatSenderAnswer;
    fn sender_tick(&self, sender: FlatSender, message: &[u8]) -> FlatSenderAnswer;
    fn sender_hear(&self, sender: FlatSender, frame: FlatFrame) -> FlatSenderAnswer;
    fn receiver_make(&self, timeout: u16, window: u16, capacity: u16) -> FlatReceiverMade;
    fn receiver_tick(&self, receiver: FlatReceiver) -> FlatReceiverAnswer;
    fn receiver_hold(&self, receiver: FlatReceiver) -> FlatReceiverAnswer;
    fn receiver_resume(&self, receiver: FlatReceiver) -> FlatReceiverAnswer;
    fn receiver_hear(
        &self,
        receiver: FlatReceiver,
        frame: FlatFrame,
        buffer: &mut [u8],
    ) -> FlatReceiverAnswer;
}

/// The sender's calls with the counts lent beside it, and what is read of these.
pub trait Summary {
    fn summary_begin(
        &self,
        sender: FlatSender,
        message: &[u8],
        counts: &mut [u8],
    ) -> FlatSenderAnswer;
    fn summary_post(
        &self,
        sender: FlatSender,
        message: &[u8],
        counts: &mut [u8],
    ) -> FlatSenderAnswer;
    fn summary_tick(
        &self,
        sender: FlatSender,
        message: &[u8],
        counts: &mut [u8],
    ) -> FlatSenderAnswer;
    fn summary_hear(
        &self,
        sender: FlatSender,
        frame: FlatFrame,
        counts: &mut [u8],
    ) -> FlatSenderAnswer;
    fn summary_count(&self, number: u8, counts: &[u8]) -> FlatCount;
    fn summary_most(&self, counts: &[u8]) -> FlatCount;
}

/// The clean figures, identifiers, version talk and parameter groups.
pub trait Around {
    fn clean_figures_of(&self, length: u32, gap: u32) -> FlatCleanFigures;
    fn identifier_join(&self, parts: FlatIdentifierParts) -> FlatIdentifierJoining;
    fn identifier_split(&self, identifier: u32) -> FlatIdentifierSplitting;
    fn charger_address(&self) -> u32;
    fn vehicle_address(&self) -> u32;
    fn charger_version_identifier(&self) -> u32;
    fn vehicle_version_identifier(&self) -> u32;
    fn version_list(&self, bytes: &[u8]) -> FlatVersionListing;
    fn version_message_write(&self, message: FlatVersionMessage) -> FlatVersionWriting;
    fn version_message_read(&self, bytes: FlatVersionBytes) -> FlatVersionReading;
    fn talker_make(&self, side: u8, versions: FlatVersions, control: u8) -> FlatTalkerMade;
    fn talker_connect(&self, talker: FlatTalker) -> FlatTalkerAnswer;
    fn talker_tick(&self, talker: FlatTalker) -> FlatTalkerAnswer;
    fn talker_hear(&self, talker: FlatTalker, bytes: FlatVersionBytes) -> FlatTalkerAnswer;
    fn talker_stop(&self, talker: FlatTalker) -> FlatTalkerAnswer;
    fn talker_greet(&self, talker: FlatTalker) -> FlatTalkerAnswer;
    fn talker_functions_heard(&self, talker: FlatTalker) -> FlatTalkerAnswer;
    fn group_read(&self, bytes: &[u8]) -> FlatGroupReading;
    fn group_write(&self, group: FlatGroup, bytes: &mut [u8]) -> FlatGroupWriting;
    fn group_find(&self, code: u8) -> FlatGroupFinding;
}

/// The whole of it.
pub trait Face: Ends + Summary + Around {}

impl<T: Ends + Summary + Around> Face for T {}

/// A face over functions in C's manner, which the module has under the names of `include/kospelna.h`: a lent slice goes as a
/// pointer and a length. Sound where the functions take every value, read lent bytes only within their length, write only to
/// bytes lent for writing, and keep nothing. The methods are inlined where they are called.
macro_rules! through {
    ($face:ident, $module:ident) => {
        impl Ends for $face {
            #[inline]
            fn sender_make(&self, gap: u16, timeout: u16, limit: u16) -> FlatSenderMade {
                unsafe { $module::kospelna_sender_make(gap, timeout, limit) }
            }

            #[inline]
            fn sender_begin(&self, sender: FlatSender, message: &[u8]) -> FlatSenderAnswer {
                unsafe { $module::kospelna_sender_begin(sender, message.as_ptr(), message.len()) }
            }

            #[inline]
            fn sender_post(&self, sender: FlatSender, message: &[u8]) -> FlatSenderAnswer {
                unsafe { $module::kospelna_sender_post(sender, message.as_ptr(), message.len()) }
            }

            #[inline]
            fn sender_tick(&self, sender: FlatSender, message: &[u8]) -> FlatSenderAnswer {
                unsafe { $module::kospelna_sender_tick(sender, message.as_ptr(), message.len()) }
            }

            #[inline]
            fn sender_hear(&self, sender: FlatSender, frame: FlatFrame) -> FlatSenderAnswer {
                unsafe { $module::kospelna_sender_hear(sender, frame) }
            }

            #[inline]
            fn receiver_make(&self, timeout: u16, window: u16, capacity: u16) -> FlatReceiverMade {
                unsafe { $module::kospelna_receiver_make(timeout, window, capacity) }
            }

            #[inline]
            fn receiver_tick(&self, receiver: FlatReceiver) -> FlatReceiverAnswer {
                unsafe { $module::kospelna_receiver_tick(receiver) }
            }

            #[inline]
            fn receiver_hold(&self, receiver: FlatReceiver) -> FlatReceiverAnswer {
                unsafe { $module::kospelna_receiver_hold(receiver) }
            }

            #[inline]
            fn receiver_resume(&self, receiver: FlatReceiver) -> FlatReceiverAnswer {
                unsafe { $module::kospelna_receiver_resume(receiver) }
            }

            #[inline]
            fn receiver_hear(
                &self,
                receiver: FlatReceiver,
                frame: FlatFrame,
                buffer: &mut [u8],
            ) -> FlatReceiverAnswer {
                unsafe {
                    $module::kospelna_receiver_hear(
                        receiver,
                        frame,
                        buffer.as_mut_ptr(),
                        buffer.len(),
                    )
                }
            }
        }

        impl Summary for $face {
            #[inline]
            fn summary_begin(
                &self,
                sender: FlatSender,
                message: &[u8],
                counts: &mut [u8],
            ) -> FlatSenderAnswer {
                let (lent, length) = (counts.as_mut_ptr(), counts.len());
                let (begun, size) = (message.as_ptr(), message.len());
                unsafe { $module::kospelna_summary_begin(sender, begun, size, lent, length) }
            }

            #[inline]
            fn summary_post(
                &self,
                sender: FlatSender,
                message: &[u8],
                counts: &mut [u8],
            ) -> FlatSenderAnswer {
                let (lent, length) = (counts.as_mut_ptr(), counts.len());
                let (posted, size) = (message.as_ptr(), message.len());
                unsafe { $module::kospelna_summary_post(sender, posted, size, lent, length) }
            }

            #[inline]
            fn summary_tick(
                &self,
                sender: FlatSender,
                message: &[u8],
                counts: &mut [u8],
            ) -> FlatSenderAnswer {
                let (lent, length) = (counts.as_mut_ptr(), counts.len());
                let (begun, size) = (message.as_ptr(), message.len());
                unsafe { $module::kospelna_summary_tick(sender, begun, size, lent, length) }
            }

            #[inline]
            fn summary_hear(
                &self,
                sender: FlatSender,
                frame: FlatFrame,
                counts: &mut [u8],
            ) -> FlatSenderAnswer {
                let (lent, length) = (counts.as_mut_ptr(), counts.len());
                unsafe { $module::kospelna_summary_hear(sender, frame, lent, length) }
            }

            #[inline]
            fn summary_count(&self, number: u8, counts: &[u8]) -> FlatCount {
                unsafe { $module::kospelna_summary_count(number, counts.as_ptr(), counts.len()) }
            }

            #[inline]
            fn summary_most(&self, counts: &[u8]) -> FlatCount {
                unsafe { $module::kospelna_summary_most(counts.as_ptr(), counts.len()) }
            }
        }

        impl Around for $face {
            #[inline]
            fn clean_figures_of(&self, length: u32, gap: u32) -> FlatCleanFigures {
                unsafe { $module::kospelna_clean_figures_of(length, gap) }
            }

            #[inline]
            fn identifier_join(&self, parts: FlatIdentifierParts) -> FlatIdentifierJoining {
                unsafe { $module::kospelna_identifier_join(parts) }
            }

            #[inline]
            fn identifier_split(&self, identifier: u32) -> FlatIdentifierSplitting {
                unsafe { $module::kospelna_identifier_split(identifier) }
            }

            #[inline]
            fn charger_address(&self) -> u32 {
                unsafe { $module::kospelna_charger_address() }
            }

            #[inline]
            fn vehicle_address(&self) -> u32 {
                unsafe { $module::kospelna_vehicle_address() }
            }

            #[inline]
            fn charger_version_identifier(&self) -> u32 {
                unsafe { $module::kospelna_charger_version_identifier() }
            }

            #[inline]
            fn vehicle_version_identifier(&self) -> u32 {
                unsafe { $module::kospelna_vehicle_version_identifier() }
            }

            #[inline]
            fn version_list(&self, bytes: &[u8]) -> FlatVersionListing {
                unsafe { $module::kospelna_version_list(bytes.as_ptr(), bytes.len()) }
            }

            #[inline]
            fn version_message_write(&self, message: FlatVersionMessage) -> FlatVersionWriting {
                unsafe { $module::kospelna_version_message_write(message) }
            }

            #[inline]
            fn version_message_read(&self, bytes: FlatVersionBytes) -> FlatVersionReading {
                unsafe { $module::kospelna_version_message_read(bytes) }
            }

            #[inline]
            fn talker_make(&self, side: u8, versions: FlatVersions, control: u8) -> FlatTalkerMade {
                unsafe { $module::kospelna_talker_make(side, versions, control) }
            }

            #[inline]
            fn talker_connect(&self, talker: FlatTalker) -> FlatTalkerAnswer {
                unsafe { $module::kospelna_talker_connect(talker) }
            }

            #[inline]
            fn talker_tick(&self, talker: FlatTalker) -> FlatTalkerAnswer {
                unsafe { $module::kospelna_talker_tick(talker) }
            }

            #[inline]
            fn talker_hear(&self, talker: FlatTalker, bytes: FlatVersionBytes) -> FlatTalkerAnswer {
                unsafe { $module::kospelna_talker_hear(talker, bytes) }
            }

            #[inline]
            fn talker_stop(&self, talker: FlatTalker) -> FlatTalkerAnswer {
                unsafe { $module::kospelna_talker_stop(talker) }
            }

            #[inline]
            fn talker_greet(&self, talker: FlatTalker) -> FlatTalkerAnswer {
                unsafe { $module::kospelna_talker_greet(talker) }
            }

            #[inline]
            fn talker_functions_heard(&self, talker: FlatTalker) -> FlatTalkerAnswer {
                unsafe { $module::kospelna_talker_functions_heard(talker) }
            }

            #[inline]
            fn group_read(&self, bytes: &[u8]) -> FlatGroupReading {
                unsafe { $module::kospelna_group_read(bytes.as_ptr(), bytes.len()) }
            }

            #[inline]
            fn group_write(&self, group: FlatGroup, bytes: &mut [u8]) -> FlatGroupWriting {
                unsafe { $module::kospelna_group_write(group, bytes.as_mut_ptr(), bytes.len()) }
            }

            #[inline]
            fn group_find(&self, code: u8) -> FlatGroupFinding {
                unsafe { $module::kospelna_group_find(code) }
            }
        }
    };
}

pub(crate) use through;
