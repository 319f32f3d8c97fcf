//! Tests of the reference against documents 01 and 02. A few words in double quotes are document 01's.

mod clean;
mod edge_cases;
mod filler;
mod frames;
mod groups;
mod hold;
mod identifier;
mod line;
mod mistakes;
mod player;
mod receiver;
mod refusals;
mod saturation;
mod sender;
mod summary;
mod types;
mod version;

pub mod help {
    use std::io::Write;
    use std::process::{Command, Stdio};

    use compare::reference::frame::{self, Frame, BUFFER_LENGTH};
    use compare::reference::receiver::{self, Connection, Receiver, State};
    use compare::reference::sender::{self, Sender};

    /// A message of this length: 1, 2, 3, ..., never 0xFF, so filler shows.
    pub fn message(length: usize) -> Vec<u8> {
        (0..length).map(|place| (place % 251) as u8 + 1).collect()
    }

    pub fn buffer() -> Vec<u8> {
        vec![0xEE; BUFFER_LENGTH]
    }

    /// A sender that has begun a message of this length.
    pub fn begun(gap: u8, timeout: u16, sending_time: u16, length: usize) -> (Sender, Vec<u8>) {
        let mut sender = Sender::make(gap, timeout, sending_time).unwrap();
        let message = message(length);
        sender.begin(&message).unwrap();
        (sender, message)
    }

    /// A receiver that has opened for this length.
    pub fn opened(timeout: u16, window: u8, l: u16) -> (Receiver, Vec<u8>) {
        let mut receiver = Receiver::make(timeout, window, 1785).unwrap();
        let mut buffer = buffer();
        let n = frame::frames_for(l) as u8;
        receiver
            .hear(frame::announcement(n, l), &mut buffer)
            .unwrap();
        (receiver, buffer)
    }

    /// A receiver that has opened for this length and taken so many frames.
    pub fn taken(timeout: u16, window: u8, l: u16, count: u8) -> (Receiver, Vec<u8>) {
        let (mut receiver, mut buffer) = opened(timeout, window, l);
        for i in 1..=count {
            let frame = frame::information(i, &message(l.into()));
            receiver.hear(frame, &mut buffer).unwrap();
        }
        (receiver, buffer)
    }

    pub fn open(receiver: &Receiver) -> Connection {
        match receiver.state {
            State::Open(open) => open,
            State::Idle { .. } => panic!("no connection"),
        }
    }

    pub fn s_frame(frame: Frame) -> sender::Answer {
        sender::Answer {
            frame: Some(frame),
            report: None,
        }
    }

    pub fn s_nothing() -> sender::Answer {
        sender::Answer::default()
    }

    pub fn s_sent(ticks: u16, frames: u16) -> sender::Answer {
        sender::Answer {
            frame: None,
            report: Some(sender::Report::Sent { ticks, frames }),
        }
    }

    pub fn s_failed(cause: u8, ticks: u16, frames: u16, closing: Option<Frame>) -> sender::Answer {
        sender::Answer {
            frame: closing,
            report: Some(sender::Report::Failed {
                cause,
                ticks,
                frames,
            }),
        }
    }

    pub fn r_frame(frame: Frame) -> receiver::Answer {
        receiver::Answer {
            frame: Some(frame),
            report: None,
        }
    }

    pub fn r_nothing() -> receiver::Answer {
        receiver::Answer::default()
    }

    pub fn r_failed(cause: u8, closing: Option<Frame>) -> receiver::Answer {
        receiver::Answer {
            frame: closing,
            report: Some(receiver::Report::Failed { cause }),
        }
    }

    /// NACK 2, failed 2.
    pub fn gives_up() -> receiver::Answer {
        r_failed(2, Some(frame::lm_nack(2)))
    }

    pub fn r_delivered(n: u8, l: u16) -> receiver::Answer {
        receiver::Answer {
            frame: Some(frame::endof_ack(n, l)),
            report: Some(receiver::Report::Delivered { l }),
        }
    }

    /// What a program prints with this pack on its standard input.
    pub fn through(program: &str, pack: &[u8]) -> String {
        let mut child = Command::new(program)
            .stdin(Stdio::piped())
            .stdout(Stdio::piped())
            .spawn()
            .unwrap();
        // The program may have read enough before all is written.
        let _ = child.stdin.take().unwrap().write_all(pack);
        let output = child.wait_with_output().unwrap();
        assert!(output.status.success());
        String::from_utf8(output.stdout).unwrap()
    }
}
