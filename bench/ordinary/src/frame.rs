//! Link frames.

pub const USER_MAX: usize = 250;
pub const FRAME_MAX: usize = 292;
const BLOCK: usize = 16;

pub enum FrameError {
    TooLong,
    Lent,
    Short,
    Start,
    HeaderCheck,
    Length,
    /// The first wrong block.
    BlockCheck(u8),
}

pub struct Frame {
    pub control: u8,
    pub destination: u16,
    pub source: u16,
    pub len: usize,
}

/// The DNP check, bit by bit.
pub fn check_bits(s: &[u8]) -> u16 {
    let mut r = 0u16;
    for &b in s {
        r ^= b as u16;
        for _ in 0..8 {
            r = if r & 1 == 1 {
                (r >> 1) ^ 0xA6BC
            } else {
                r >> 1
            };
        }
    }
    !r
}

const TABLE: [u16; 256] = {
    let mut t = [0u16; 256];
    let mut i = 0;
    while i < 256 {
        let mut r = i as u16;
        let mut k = 0;
        while k < 8 {
            r = if r & 1 == 1 {
                (r >> 1) ^ 0xA6BC
            } else {
                r >> 1
            };
            k += 1;
        }
        t[i] = r;
        i += 1;
    }
    t
};

/// The DNP check, by a table.
pub fn check_table(s: &[u8]) -> u16 {
    let mut r = 0u16;
    for &b in s {
        r = (r >> 8) ^ TABLE[((r ^ b as u16) & 255) as usize];
    }
    !r
}

fn put_sealed(out: &mut [u8], s: &[u8], check: impl Fn(&[u8]) -> u16) {
    let (data, seal) = out.split_at_mut(s.len());
    data.copy_from_slice(s);
    seal[..2].copy_from_slice(&check(s).to_le_bytes());
}

pub fn write_frame(
    out: &mut [u8],
    control: u8,
    destination: u16,
    source: u16,
    user: &[u8],
    check: impl Fn(&[u8]) -> u16,
) -> Result<usize, FrameError> {
    if out.len() < FRAME_MAX {
        return Err(FrameError::Lent);
    }
    if USER_MAX < user.len() {
        return Err(FrameError::TooLong);
    }
    let d = destination.to_le_bytes();
    let s = source.to_le_bytes();
    let header = [
        0x05,
        0x64,
        user.len() as u8 + 5,
        control,
        d[0],
        d[1],
        s[0],
        s[1],
    ];
    put_sealed(&mut out[..10], &header, &check);
    let mut at = 10;
    for block in user.chunks(BLOCK) {
        put_sealed(&mut out[at..at + block.len() + 2], block, &check);
        at += block.len() + 2;
    }
    Ok(at)
}

fn seal_ok(s: &[u8], check: impl Fn(&[u8]) -> u16) -> bool {
    let (data, seal) = s.split_at(s.len() - 2);
    check(data).to_le_bytes() == seal
}

/// The size that a frame's header states.
pub fn frame_size(s: &[u8], check: impl Fn(&[u8]) -> u16) -> Result<usize, FrameError> {
    if s.len() < 10 {
        return Err(FrameError::Short);
    }
    if s[..2] != [0x05, 0x64] {
        return Err(FrameError::Start);
    }
    if !seal_ok(&s[..10], check) {
        return Err(FrameError::HeaderCheck);
    }
    if s[2] < 5 {
        return Err(FrameError::Length);
    }
    let len = s[2] as usize - 5;
    Ok(10 + len + 2 * len.div_ceil(BLOCK))
}

pub fn read_frame(
    s: &[u8],
    out: &mut [u8],
    check: impl Fn(&[u8]) -> u16,
) -> Result<Frame, FrameError> {
    if out.len() < USER_MAX {
        return Err(FrameError::Lent);
    }
    let size = frame_size(s, &check)?;
    if s.len() < size {
        return Err(FrameError::Short);
    }
    // All checks come before the first copy: a refusal leaves the lent bytes.
    let body = &s[10..size];
    let wrong = |b| !seal_ok(b, &check);
    if let Some(first) = body.chunks(BLOCK + 2).position(wrong) {
        return Err(FrameError::BlockCheck(first as u8));
    }
    let mut at = 0;
    for block in body.chunks(BLOCK + 2) {
        let n = block.len() - 2;
        out[at..at + n].copy_from_slice(&block[..n]);
        at += n;
    }
    Ok(Frame {
        control: s[3],
        destination: u16::from_le_bytes([s[4], s[5]]),
        source: u16::from_le_bytes([s[6], s[7]]),
        len: at,
    })
}
