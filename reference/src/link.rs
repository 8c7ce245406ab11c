//! What the station does with a frame, and its line record.

use crate::faults::{on, Fault};
use crate::frame::{self, FrameRefusal};

/// The control byte: DIR 80, PRM 40, FCB 20, FCV 10, function in the low four bits.
const DIR: u8 = 0x80;
const PRM: u8 = 0x40;
const FCV: u8 = 0x10;

const RESET_LINK: u8 = 0;
const UNCONFIRMED_USER_DATA: u8 = 4;
const REQUEST_LINK_STATUS: u8 = 9;

/// "These reply control bytes are 00, 0B, 0F".
const ACK: u8 = 0x00;
const LINK_STATUS: u8 = 0x0B;
const NOT_SUPPORTED: u8 = 0x0F;

/// "counts of accepted frames and of refusals 11 to 15 and 17", in that order; and of refusals 15,
/// by 02's 110, "a count for each" block.
#[derive(Clone, Copy, Debug, Default, PartialEq, Eq)]
pub struct LineRecord {
    pub counts: [u16; 7],
    pub blocks: [u16; 16],
}

/// "a count stops at 65,535".
fn one_more(count: &mut u16) {
    *count = if on(Fault::CountWraps) { count.wrapping_add(1) } else { count.saturating_add(1) };
}

impl LineRecord {
    /// Every frame call but one refused 33 adds to exactly one of the seven counts (R7.3, R7.4), and
    /// a refusal 15 to its block's (110.2).
    pub fn note<T>(&mut self, result: &Result<T, FrameRefusal>) {
        let stopped = on(Fault::BlockStopsEarly) && self.counts[5] == u16::MAX;
        match result.as_ref().map_err(|refusal| refusal.number()) {
            Ok(_) => one_more(&mut self.counts[0]),
            Err(number @ 11..=15) => one_more(&mut self.counts[usize::from(number) - 10]),
            Err(17) => one_more(&mut self.counts[6]),
            Err(_) => {}
        }
        if let Err(FrameRefusal::Block(block)) = result {
            if !on(Fault::BlockUncounted) && !stopped {
                one_more(&mut self.blocks[*block]);
            }
        }
    }
}

/// What a frame the station takes leads to.
#[derive(Clone, Copy, Debug, PartialEq, Eq)]
pub enum Heard {
    /// Function 4 "hands on user data": so many bytes of the lent output.
    UserData(usize),
    /// A reply with this control byte; the lent output is left alone (R7.7).
    Reply(u8),
}

/// A frame for the station.
pub fn station(
    own: u16,
    master: u16,
    record: &mut LineRecord,
    bytes: &[u8],
    lent: &mut [u8],
) -> Result<Heard, FrameRefusal> {
    if lent.len() < frame::USER_LENT {
        return Err(FrameRefusal::By(33));
    }
    let heard = hear(own, master, bytes, lent);
    if on(Fault::NotSupportedUncounted) && heard == Ok(Heard::Reply(NOT_SUPPORTED)) {
        return heard;
    }
    record.note(&heard);
    heard
}

fn hear(own: u16, master: u16, bytes: &[u8], lent: &mut [u8]) -> Result<Heard, FrameRefusal> {
    let frame = frame::look_over(bytes)?;
    let n = frame.user.len();
    if on(Fault::RefusalSpoils) {
        lent[..n].copy_from_slice(&frame.user);
    }
    // "takes frames from its master to itself with DIR and PRM both 1".
    if frame.destination != own || frame.source != master {
        return Err(FrameRefusal::By(17));
    }
    if frame.control & DIR == 0 || frame.control & PRM == 0 {
        return Err(FrameRefusal::By(17));
    }
    let fcv = frame.control & FCV != 0 && !on(Fault::FcvIgnored);
    // "for these three another n, or FCV 1, is 17"; for others neither matters (R7.5).
    match frame.control & 0x0F {
        UNCONFIRMED_USER_DATA if n == 0 || fcv => Err(FrameRefusal::By(17)),
        UNCONFIRMED_USER_DATA => {
            lent[..n].copy_from_slice(&frame.user);
            Ok(Heard::UserData(n))
        }
        RESET_LINK | REQUEST_LINK_STATUS if n != 0 || fcv => Err(FrameRefusal::By(17)),
        RESET_LINK => Ok(Heard::Reply(ACK)),
        REQUEST_LINK_STATUS => Ok(Heard::Reply(LINK_STATUS)),
        _ => Ok(Heard::Reply(NOT_SUPPORTED)),
    }
}
