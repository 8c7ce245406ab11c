//! Transport segments: "one transport byte (FIN 80, FIR 40, sequence in the low six bits) and 1 to
//! 249 bytes".

use crate::faults::{on, Fault};
use crate::Refusal;

const FIN: u8 = 0x80;
const FIR: u8 = 0x40;
const SEQUENCE: u8 = 0x3F;

/// Most data bytes of a segment, and most bytes of a fragment.
const SEGMENT_DATA: usize = 249;
const FRAGMENT: usize = 2048;

/// Output to be lent for a segment written.
const SEGMENT_LENT: usize = 250;

/// An unfinished fragment; its bytes are the first `count` of the lent assembly (R8.7). Of the last
/// segment taken in: its sequence, whether it had FIR, and how many of those bytes are its data.
#[derive(Clone, Copy, Debug, PartialEq, Eq)]
pub struct Unfinished {
    pub last: u8,
    pub fir: bool,
    pub size: usize,
    pub count: usize,
}

impl Unfinished {
    /// 02, 103: "a segment without FIR whose sequence is that of the last one, and whose every byte
    /// equals it". The last one had no FIN, or nothing would be unfinished; its data is what stands
    /// at the end of the bytes so far.
    fn was_last(&self, segment: &[u8], lent: &[u8]) -> bool {
        let (transport, data) = (segment[0], &segment[1..]);
        let same_transport = if on(Fault::RepeatWithFin) {
            transport & !FIN == self.last
        } else if on(Fault::RepeatByData) {
            transport & !SEQUENCE == 0
        } else {
            transport == self.last
        };
        let size = if on(Fault::RepeatShorter) { data.len() } else { self.size };
        let so_far = &lent[..self.count.min(lent.len())];
        let start = self.count.saturating_sub(size).min(so_far.len());
        let same_data = if on(Fault::RepeatUnchecked) {
            true
        } else if on(Fault::RepeatByLength) {
            data.len() == self.size
        } else {
            *data == so_far[start..]
        };
        (!self.fir || on(Fault::RepeatOfFirst)) && same_transport && same_data
    }

    /// For faults: as if the last segment had had FIR, so that no repeat of it is known.
    fn without_repeats(self) -> Unfinished {
        Unfinished { fir: true, ..self }
    }
}

#[derive(Clone, Debug, Default)]
pub struct Transport {
    pub unfinished: Option<Unfinished>,
    /// Sequence of the next segment sent: "numbered on from the last sent (0 first)".
    pub next_sent: u8,
}

#[derive(Clone, Copy, Debug, PartialEq, Eq)]
pub enum Assembled {
    More(usize),
    Whole(usize),
}

impl Transport {
    /// A segment heard, put together in the lent assembly.
    pub fn hear(&mut self, segment: &[u8], lent: &mut [u8]) -> Result<Assembled, Refusal> {
        if lent.len() < FRAGMENT {
            if let Some(kept) = self.unfinished.filter(|_| on(Fault::RepeatLentLast)) {
                let repeat = segment.len() > 1 && kept.was_last(segment, lent);
                if repeat && kept.count <= lent.len() {
                    return Ok(Assembled::More(kept.count));
                }
            }
            return Err(33);
        }
        // 21 leaves an unfinished fragment alone, also when the segment has FIR (R8.2).
        if segment.len() < 2 || segment.len() > 1 + SEGMENT_DATA {
            if on(Fault::EmptySegmentForgets) {
                self.unfinished = None;
            }
            if on(Fault::RepeatPastRefused) {
                self.unfinished = self.unfinished.map(Unfinished::without_repeats);
            }
            return Err(21);
        }
        let (transport, data) = (segment[0], &segment[1..]);
        let sequence = transport & SEQUENCE;
        // Taken out here, so that 22 and 23 leave the "unfinished fragment forgotten".
        let unfinished = self.unfinished.take();
        let begin = if transport & FIR != 0 {
            // "FIR starts afresh and forgets an unfinished fragment."
            0
        } else {
            let Some(kept @ Unfinished { last, count, .. }) = unfinished else {
                return Err(22);
            };
            // "is to be ignored: the unfinished fragment stays" (02, 103)
            let repeat = kept.was_last(segment, lent) && !on(Fault::RepeatForgets);
            let stored =
                on(Fault::RepeatAppended) || (on(Fault::RepeatAt2048) && count == FRAGMENT);
            if repeat && !stored {
                let once = on(Fault::RepeatOnce);
                self.unfinished = Some(if once { kept.without_repeats() } else { kept });
                return Ok(Assembled::More(count));
            }
            // "the last one plus 1 modulo 64"
            let modulus = if on(Fault::SequenceMod16) { 16 } else { 64 };
            let next = sequence % modulus == (last + 1) % modulus;
            let whole = on(Fault::RepeatAfterWhole) && last & FIN != 0;
            if whole || (!next && !repeat) {
                return Err(22);
            }
            let most = if on(Fault::Assembly2047) { FRAGMENT - 1 } else { FRAGMENT };
            if count + data.len() > most {
                return Err(23);
            }
            count
        };
        let end = begin + data.len();
        lent[begin..end].copy_from_slice(data);
        let fir = transport & FIR != 0;
        let kept = Unfinished { last: sequence, fir, size: data.len(), count: end };
        if transport & FIN != 0 {
            // For the fault: its FIN shows that the fragment takes no further segment.
            let whole = Unfinished { last: FIN | sequence, ..kept };
            self.unfinished = on(Fault::RepeatAfterWhole).then_some(whole);
            return Ok(Assembled::Whole(end));
        }
        self.unfinished = Some(kept);
        Ok(Assembled::More(end))
    }

    /// Sends a whole fragment. Each segment is written into the lent output in turn; `sent` is
    /// told its size, and has the lent bytes, before the next is written.
    pub fn send(
        &mut self,
        fragment: &[u8],
        lent: &mut [u8],
        sent: &mut dyn FnMut(&mut [u8], usize),
    ) -> Result<(), Refusal> {
        if lent.len() < SEGMENT_LENT {
            return Err(33);
        }
        if fragment.is_empty() || fragment.len() > FRAGMENT {
            return Err(16);
        }
        if on(Fault::SendFromZero) {
            self.next_sent = 0;
        }
        let segments = fragment.len().div_ceil(SEGMENT_DATA);
        for (number, data) in fragment.chunks(SEGMENT_DATA).enumerate() {
            let fir = if number == 0 { FIR } else { 0 };
            let fin = if number + 1 == segments { FIN } else { 0 };
            lent[0] = fir | fin | self.next_sent;
            lent[1..1 + data.len()].copy_from_slice(data);
            self.next_sent = (self.next_sent + 1) % 64;
            sent(lent, 1 + data.len());
        }
        Ok(())
    }
}
