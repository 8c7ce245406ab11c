//! Bytes off the wire: a modem that hands over a line in pieces.

use crate::crc::check_bytes;
use crate::frame::{self, FrameRefusal};

use super::random::hex;
use super::{Generator, Kind};

impl Generator {
    /// Some calls of a modem's driver. What is left of the line waits for the next time.
    pub fn pieces_step(&mut self) {
        if self.wire.is_empty() {
            for _ in 0..self.random.between(1, 4) {
                let part = self.wire_part();
                self.wire.extend_from_slice(&part);
            }
        }
        let mut noise = 0;
        for _ in 0..self.random.between(1, 40) {
            noise = if self.piece_call() { noise + 1 } else { 0 };
            if noise == 15 {
                // Long noise is 12 at every byte; the line is given up.
                self.wire.clear();
            }
            if self.wire.is_empty() {
                break;
            }
            if self.kind != Kind::Line && self.random.chance(2) {
                self.emptied();
            }
        }
    }

    /// In the middle of a line: what empties the receiver, and what only looks so.
    fn emptied(&mut self) {
        match self.random.below(6) {
            0 if self.kind == Kind::Station => {
                let (own, master) = (self.address(), self.address());
                self.call(format!("setup {own} {master} 5000 5000 0 0 0"));
            }
            1 if self.kind == Kind::Station => self.call("setup 7 7 5000 5000 0 0 0".into()),
            2 => self.emit("setup 7 1000 5000 5000 0 0".into()),
            _ => self.call("restart".into()),
        }
    }

    /// One piece; then the rest is given again, mostly. Was it refused 12?
    fn piece_call(&mut self) -> bool {
        let size = match self.random.below(10) {
            0..=2 => self.wire.len(),
            3 => self.random.between(1, 40),
            4 => self.random.pick(&[0, 28, 31, 291, 292, 293, 600]),
            _ => self.random.pick(&[1, 1, 1, 2, 3, 8, 9, 10, 11, 12, 13]),
        };
        let piece = self.wire[..size.min(self.wire.len())].to_vec();
        let lent = if self.random.chance(94) {
            250
        } else {
            self.random.pick(&[249, 249, 0, 251, 292, 4096])
        };
        let line = format!("piece {lent} {}", hex(&piece));
        self.sometimes_broken(&line);
        let (taken, told) = self.host.receiver.clone().take(&piece, &mut vec![0; lent]);
        self.emit(line);
        let gone = match self.random.below(120) {
            // The rest is lost; all is given twice; the driver is one byte out.
            0 => piece.len(),
            1 if piece.len() < 40 => 0,
            2 => taken.max(1) - 1,
            3 => (taken + 1).min(piece.len()),
            _ => taken,
        };
        self.wire.drain(..gone);
        matches!(told, Some(Err(FrameRefusal::By(12))))
    }

    /// Something that comes off a wire.
    fn wire_part(&mut self) -> Vec<u8> {
        let n = self.size();
        let small = if self.random.chance(70) { n.min(3) } else { self.random.between(0, 17) };
        match self.random.below(28) {
            // Header wrong: each byte behind it is then looked at, so not too many.
            0 | 1 => {
                let mut frame = self.any_frame(small);
                for _ in 0..self.random.between(1, 2) {
                    let bit = self.random.below(80);
                    frame[bit / 8] ^= 1 << (bit % 8);
                }
                frame
            }
            // Blocks wrong, one to three, by one bit each.
            2..=8 => {
                let mut frame = self.any_frame(n.max(1));
                for _ in 0..self.random.between(1, 3) {
                    let bit = 80 + self.random.below(8 * (frame.len() - 10));
                    frame[bit / 8] ^= 1 << (bit % 8);
                }
                frame
            }
            // Another length under a right header check: under 5, or any.
            9 | 10 => {
                let mut frame = self.any_frame(small);
                frame[2] = if self.random.chance(70) {
                    self.random.below(6) as u8
                } else {
                    self.random.between(5, 60) as u8
                };
                let check = check_bytes(&frame[..8]);
                frame[8..10].copy_from_slice(&check);
                if self.random.chance(60) {
                    frame.truncate(10);
                }
                frame
            }
            // Noise, any and full of false starts.
            11 => {
                let n = self.random.between(1, 14);
                self.random.bytes(n)
            }
            12 => {
                let n = self.random.between(1, 14);
                (0..n).map(|_| self.random.pick(&[0x05, 0x05, 0x64, 0x64, 0x00])).collect()
            }
            // A frame broken off, then one from its beginning.
            13 | 14 => {
                let mut bytes = self.any_frame(small);
                bytes.truncate(self.random.below(bytes.len()));
                let frame = self.any_frame(small);
                bytes.extend_from_slice(&frame);
                bytes
            }
            // A frame within the user data of another, which is wrong or not.
            15 | 16 => {
                let inner = self.any_frame(small);
                let mut user = self.random.bytes(small);
                user.extend_from_slice(&inner);
                let mut frame = self.frame_of(&user);
                if self.random.chance(70) {
                    let place = frame.len() - 1 - self.random.below(2);
                    frame[place] ^= 1;
                }
                frame
            }
            _ => self.any_frame(n),
        }
    }

    /// A right frame with `n` user bytes, 250 at most.
    fn any_frame(&mut self, n: usize) -> Vec<u8> {
        let user = self.random.bytes(n.min(250));
        self.frame_of(&user)
    }

    fn frame_of(&mut self, user: &[u8]) -> Vec<u8> {
        let control = self.random.byte();
        let (to, from) = (self.random.next() as u16, self.random.next() as u16);
        let mut lent = [0; 292];
        let size = frame::write(control, to, from, user, &mut lent).expect("room");
        lent[..size].to_vec()
    }
}
