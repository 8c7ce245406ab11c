//! Control requests: their one object header, the status of each object, the echo.

pub const OBJECTS_MAX: usize = 8;
pub const ECHO_MAX: usize = 109;

#[derive(Clone, Copy, Default)]
pub struct Crob {
    pub index: u16,
    pub code: u8,
    pub count: u8,
    pub on_time: u32,
    pub off_time: u32,
    pub status: u8,
}

/// Objects handed to the host to be carried out, in the order asked.
#[derive(Clone, Copy, Default)]
pub struct Operated {
    pub items: [Crob; OBJECTS_MAX],
    pub count: usize,
}

impl Operated {
    pub fn push(&mut self, c: Crob) {
        self.items[self.count] = c;
        self.count += 1;
    }
}

pub enum ControlError {
    ObjectUnknown,
    BadParameter,
}

/// The object bytes of a control request: width of its indices, and the objects behind the header.
pub struct Objects<'a> {
    width: usize,
    bytes: &'a [u8],
}

impl<'a> Objects<'a> {
    pub fn parse(s: &'a [u8]) -> Result<Self, ControlError> {
        let &[group, variation, qualifier, ref rest @ ..] = s else {
            return Err(ControlError::BadParameter);
        };
        if (group, variation) != (12, 1) {
            return Err(ControlError::ObjectUnknown);
        }
        let (width, count, bytes) = match (qualifier, rest) {
            (0x17, [n, bytes @ ..]) => (1, *n as usize, bytes),
            (0x28, [a, b, bytes @ ..]) => (2, u16::from_le_bytes([*a, *b]) as usize, bytes),
            _ => return Err(ControlError::BadParameter),
        };
        if bytes.len() != count * (width + 11) || !(1..=OBJECTS_MAX).contains(&count) {
            return Err(ControlError::BadParameter);
        }
        Ok(Objects { width, bytes })
    }

    pub fn size(&self) -> usize {
        self.width + 11
    }

    pub fn crobs(&self) -> impl Iterator<Item = Crob> + Clone + 'a {
        let width = self.width;
        self.bytes.chunks_exact(self.size()).map(move |b| {
            let (index, rest) = b.split_at(width);
            Crob {
                index: index.iter().rev().fold(0, |n, &b| n << 8 | b as u16),
                code: rest[0],
                count: rest[1],
                on_time: u32::from_le_bytes([rest[2], rest[3], rest[4], rest[5]]),
                off_time: u32::from_le_bytes([rest[6], rest[7], rest[8], rest[9]]),
                status: rest[10],
            }
        })
    }

    /// The status of each object, for SELECT and direct operation.
    pub fn judged(&self, outputs: u16) -> [u8; OBJECTS_MAX] {
        let mut statuses = [0; OBJECTS_MAX];
        for (i, c) in self.crobs().enumerate() {
            let again = self.crobs().take(i).any(|d| d.index == c.index);
            statuses[i] = match c {
                _ if c.status != 0 => 3,
                _ if outputs <= c.index => 4,
                _ if !matches!(c.code, 0x01 | 0x03 | 0x04 | 0x41 | 0x81) => 4,
                _ if c.count != 1 => 4,
                _ if matches!(c.code, 0x01 | 0x41 | 0x81) && !(1..=60_000).contains(&c.on_time) => 4,
                _ if again => 8,
                _ => 0,
            };
        }
        statuses
    }
}
