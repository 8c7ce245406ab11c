//! Bytes off the wire: finds frames in pieces of any size.

use crate::frame::{check_table, frame_size, read_frame, Frame, FrameError, FRAME_MAX, USER_MAX};

const HEADER: usize = 10;

pub enum Received {
    /// The piece is used up and nothing is decided.
    Waits,
    Frame(Frame),
    Refused(FrameError),
}

/// The bytes of a frame that is not yet whole.
pub struct Receiver {
    bytes: [u8; FRAME_MAX],
    len: usize,
}

impl Receiver {
    pub fn new() -> Receiver {
        Receiver {
            bytes: [0; FRAME_MAX],
            len: 0,
        }
    }

    /// Takes the piece up to its first frame or refusal. Gives how many bytes were taken; the rest is to be given again.
    pub fn receive(&mut self, piece: &[u8], out: &mut [u8]) -> (usize, Received) {
        if out.len() < USER_MAX {
            return (0, Received::Refused(FrameError::Lent));
        }
        if self.len == 0 {
            return self.begin(piece, out);
        }
        let mut taken = 0;
        if self.len < HEADER {
            taken += self.fill(piece, HEADER);
            if self.len < HEADER {
                return (taken, Received::Waits);
            }
            if let Err(e) = frame_size(&self.bytes, check_table) {
                self.bytes.copy_within(1..HEADER, 0);
                self.len = HEADER - 1;
                return (taken, Received::Refused(e));
            }
        }
        let size = stated(&self.bytes);
        taken += self.fill(&piece[taken..], size);
        if self.len < size {
            return (taken, Received::Waits);
        }
        self.len = 0;
        (taken, read(&self.bytes[..size], out))
    }

    /// Nothing is kept: a frame that lies whole in the piece is read where it is.
    fn begin(&mut self, piece: &[u8], out: &mut [u8]) -> (usize, Received) {
        match read_frame(piece, out, check_table) {
            Ok(f) => (stated(piece), Received::Frame(f)),
            Err(FrameError::Short) => {
                self.keep(piece);
                (piece.len(), Received::Waits)
            }
            Err(e @ FrameError::BlockCheck(_)) => (stated(piece), Received::Refused(e)),
            Err(e) => {
                self.keep(&piece[1..HEADER]);
                (HEADER, Received::Refused(e))
            }
        }
    }

    fn keep(&mut self, s: &[u8]) {
        self.bytes[..s.len()].copy_from_slice(s);
        self.len = s.len();
    }

    /// From the front of the piece up to so many kept; gives how many came.
    fn fill(&mut self, piece: &[u8], up_to: usize) -> usize {
        let n = piece.len().min(up_to - self.len);
        self.bytes[self.len..self.len + n].copy_from_slice(&piece[..n]);
        self.len += n;
        n
    }
}

/// The size that a good header states.
fn stated(s: &[u8]) -> usize {
    let len = s[2] as usize - 5;
    HEADER + len + 2 * len.div_ceil(16)
}

fn read(s: &[u8], out: &mut [u8]) -> Received {
    match read_frame(s, out, check_table) {
        Ok(f) => Received::Frame(f),
        Err(e) => Received::Refused(e),
    }
}
