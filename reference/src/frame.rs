//! A frame: "05 64, length, control, destination (2), source (2), check (2), then n user bytes in
//! blocks of 16, the last perhaps shorter, each with a 2-byte check".

use crate::crc::check_bytes;
use crate::faults::{on, Fault};
use crate::Refusal;

/// Output to be lent for a frame's user data, and for a whole frame.
pub const USER_LENT: usize = 250;
pub const FRAME_LENT: usize = 292;

const USER_MAX: usize = 250;
const HEADER: usize = 10;
const BLOCK: usize = 16;

/// Why a frame is refused.
#[derive(Clone, Copy, Debug, PartialEq, Eq)]
pub enum FrameRefusal {
    /// By this number of 01's table.
    By(Refusal),
    /// By 15, which "is to carry the number of the first wrong block" (02, 110).
    Block(usize),
}

impl FrameRefusal {
    pub fn number(self) -> Refusal {
        match self {
            FrameRefusal::By(number) => number,
            FrameRefusal::Block(_) => 15,
        }
    }
}

use FrameRefusal::{Block, By};

#[derive(Clone, Debug, PartialEq, Eq)]
pub struct Frame {
    pub control: u8,
    pub destination: u16,
    pub source: u16,
    pub user: Vec<u8>,
}

/// "the frame has 10 + n + 2 × (n/16 rounded up) bytes".
pub fn size(n: usize) -> usize {
    HEADER + n + 2 * n.div_ceil(BLOCK)
}

/// Looks a frame over, in the order 11, 12, 13, 14, 11 for its size, 15. Lent bytes play no part.
pub fn look_over(bytes: &[u8]) -> Result<Frame, FrameRefusal> {
    if bytes.len() < HEADER {
        return Err(By(11));
    }
    if bytes[0..2] != [0x05, 0x64] {
        return Err(By(12));
    }
    let length = usize::from(bytes[2]);
    if on(Fault::LengthBeforeCheck) && length < 5 {
        return Err(By(14));
    }
    if bytes[8..10] != check_bytes(&bytes[0..8]) && !on(Fault::HeaderCheckIgnored) {
        return Err(By(13));
    }
    if length < 5 {
        return Err(By(14));
    }
    let n = length - 5;
    if bytes.len() < size(n) {
        return Err(By(11));
    }
    let mut user = Vec::with_capacity(n);
    let mut wrong = Vec::new();
    // "Bytes after the frame are not read."
    for (place, block) in bytes[HEADER..size(n)].chunks(BLOCK + 2).enumerate() {
        let (data, check) = block.split_at(block.len() - 2);
        if check != check_bytes(data) && !on(Fault::BlockCheckIgnored) {
            wrong.push(place);
        }
        user.extend_from_slice(data);
    }
    let decides = if on(Fault::LastWrongBlock) { wrong.last() } else { wrong.first() };
    if let Some(&place) = decides {
        return Err(Block(place));
    }
    Ok(Frame {
        control: bytes[3],
        destination: u16::from_le_bytes([bytes[4], bytes[5]]),
        source: u16::from_le_bytes([bytes[6], bytes[7]]),
        user,
    })
}

/// Reads a frame; the user data goes to the front of the lent bytes.
pub fn read(bytes: &[u8], lent: &mut [u8]) -> Result<Frame, FrameRefusal> {
    // "Order: 1, 33, then by number", so 33 comes before the bytes are looked at.
    if lent.len() < USER_LENT && !on(Fault::LentTestedLast) {
        return Err(By(33));
    }
    let frame = look_over(bytes)?;
    if lent.len() < USER_LENT {
        return Err(By(33));
    }
    lent[..frame.user.len()].copy_from_slice(&frame.user);
    Ok(frame)
}

/// Writes a frame at the front of the lent bytes and tells its size.
pub fn write(
    control: u8,
    destination: u16,
    source: u16,
    user: &[u8],
    lent: &mut [u8],
) -> Result<usize, Refusal> {
    if lent.len() < FRAME_LENT {
        return Err(33);
    }
    let most = if on(Fault::WriteLimit249) { 249 } else { USER_MAX };
    if user.len() > most {
        return Err(16);
    }
    let mut frame = vec![0x05, 0x64, user.len() as u8 + 5, control];
    frame.extend_from_slice(&destination.to_le_bytes());
    frame.extend_from_slice(&source.to_le_bytes());
    let check = check_bytes(&frame);
    frame.extend_from_slice(&check);
    for block in user.chunks(BLOCK) {
        frame.extend_from_slice(block);
        frame.extend_from_slice(&check_bytes(block));
    }
    lent[..frame.len()].copy_from_slice(&frame);
    Ok(frame.len())
}

#[cfg(test)]
mod tests {
    use super::*;

    #[test]
    fn sizes_of_document_01() {
        for (n, bytes) in [(0, 10), (1, 13), (16, 28), (17, 31), (250, 292)] {
            assert_eq!(size(n), bytes);
            let mut lent = [0xA5; FRAME_LENT];
            assert_eq!(write(0x44, 2, 1, &vec![0; n], &mut lent), Ok(bytes));
            assert!(lent[bytes..].iter().all(|&b| b == 0xA5));
        }
    }

    #[test]
    fn the_first_wrong_block_is_told() {
        let mut lent = [0; FRAME_LENT];
        let size = write(0xC4, 1, 2, &[7; 250], &mut lent).unwrap();
        for first in 0..16 {
            for second in first..16 {
                let mut frame = lent;
                for block in [first, second] {
                    frame[HEADER + (BLOCK + 2) * block] = 0;
                }
                assert_eq!(look_over(&frame[..size]), Err(Block(first)));
            }
        }
    }

    #[test]
    fn what_is_written_is_read() {
        for n in 0..=250usize {
            let user: Vec<u8> = (0..n).map(|i| (i * 7) as u8).collect();
            let mut lent = [0; FRAME_LENT];
            let size = write(0xC4, 3, 65_519, &user, &mut lent).unwrap();
            let frame = look_over(&lent[..size]).unwrap();
            assert_eq!((frame.control, frame.destination, frame.source), (0xC4, 3, 65_519));
            assert_eq!(frame.user, user);
        }
    }
}
