//! "a receiver that takes pieces, finds 05 64, and delivers frames" (02, 101).
//!
//! The bytes of a piece are taken one by one, and after each the single-frame rule is asked about
//! all that is kept. 11 is its word for too few bytes, so on 11 the receiver goes on. Nothing else
//! is known here of how long a header or a frame is.

use crate::faults::{on, Fault};
use crate::frame::{self, Frame, FrameRefusal, USER_LENT};

use FrameRefusal::{Block, By};

#[derive(Clone, Debug, Default)]
pub struct Receiver {
    /// Taken and not yet used up.
    kept: Vec<u8>,
}

impl Receiver {
    /// One call: how many bytes it took, and the frame or refusal that ended it; `None` waits.
    pub fn take(
        &mut self,
        piece: &[u8],
        lent: &mut [u8],
    ) -> (usize, Option<Result<Frame, FrameRefusal>>) {
        if lent.len() < USER_LENT && !on(Fault::PieceLentLast) {
            return (0, Some(Err(By(33))));
        }
        for (place, &byte) in piece.iter().enumerate() {
            self.kept.push(byte);
            let told = match frame::look_over(&self.kept) {
                Err(By(11)) if on(Fault::PieceEarly12) && self.no_start() => Err(By(12)),
                Err(By(11)) => continue,
                Ok(_) if on(Fault::PieceLentLast) && lent.len() < USER_LENT => Err(By(33)),
                told => told,
            };
            self.move_on(&told);
            if let Ok(frame) = &told {
                lent[..frame.user.len()].copy_from_slice(&frame.user);
            }
            let twice = usize::from(on(Fault::PieceCountsTwice));
            return (place + 1 + twice, Some(told));
        }
        (piece.len(), None)
    }

    /// "After a refusal 12, 13 or 14 it moves on one byte; after 15 it moves on past the frame's
    /// stated size": all that is kept then, as it is after a frame.
    fn move_on(&mut self, told: &Result<Frame, FrameRefusal>) {
        let bytes = match told {
            Err(By(12)) if on(Fault::PieceDropsTen) => self.kept.len(),
            Err(By(12)) if on(Fault::PieceSeeks05) => {
                let next = self.kept.iter().skip(1).position(|&byte| byte == 0x05);
                next.map_or(self.kept.len(), |place| place + 1)
            }
            Err(By(13)) if on(Fault::PieceMovesTwo) => 2,
            Err(By(_)) => 1,
            Err(Block(_)) if on(Fault::PieceMovesOne) => 1,
            Err(Block(_)) | Ok(_) => self.kept.len(),
        };
        self.kept.drain(..bytes);
    }

    /// Two bytes that are not 05 64; only a fault asks.
    fn no_start(&self) -> bool {
        self.kept.len() >= 2 && self.kept[..2] != [0x05, 0x64]
    }
}

#[cfg(test)]
mod tests {
    use super::*;

    /// What ended each call but the last, and what is kept after the line, given in these pieces.
    fn heard(pieces: &[&[u8]]) -> (Vec<Result<Frame, FrameRefusal>>, Vec<u8>) {
        let mut receiver = Receiver::default();
        let (mut told, mut lent) = (Vec::new(), [0; USER_LENT]);
        for piece in pieces {
            let mut rest = *piece;
            loop {
                let (taken, end) = receiver.take(rest, &mut lent);
                rest = &rest[taken..];
                match end {
                    Some(end) => told.push(end),
                    None => break,
                }
            }
            assert!(rest.is_empty());
        }
        (told, receiver.kept)
    }

    /// A wrong header, a frame, a frame with a wrong block, and the start of another.
    fn line() -> Vec<u8> {
        let mut lent = [0; frame::FRAME_LENT];
        let size = frame::write(0xC4, 7, 1000, &[5], &mut lent).unwrap();
        let right = &lent[..size];
        let mut line = [&right[..4], right, right, &right[..9]].concat();
        line[4 + size + 10] ^= 1;
        line
    }

    #[test]
    fn every_cut_in_three_is_heard_the_same() {
        let line = line();
        let (told, kept) = heard(&[&line]);
        let numbers: Vec<u8> =
            told.iter().map(|end| end.as_ref().map_or_else(|no| no.number(), |_| 0)).collect();
        assert_eq!(numbers, [13, 12, 12, 12, 0, 15]);
        assert_eq!(kept, line[line.len() - 9..]);
        for second in 0..=line.len() {
            for first in 0..=second {
                let cut = [&line[..first], &line[first..second], &line[second..]];
                assert_eq!(heard(&cut), (told.clone(), kept.clone()));
            }
        }
    }

    #[test]
    fn little_lent_takes_nothing() {
        let mut receiver = Receiver::default();
        receiver.take(&line()[..12], &mut [0; USER_LENT]);
        let kept = receiver.kept.clone();
        assert_eq!(receiver.take(&[1; 20], &mut [0; 249]), (0, Some(Err(By(33)))));
        assert_eq!(receiver.kept, kept);
    }
}
