//! Where the library works: each array of the outstation, and the receiver's memory, in a heap block
//! of its own, with a border that no call may write, or of its exact size for tools that watch the
//! heap. A call is made on a copy of an image, and its result is an image again.

use crate::header::{self, *};

/// Elements on either side of an array.
const BORDER: usize = 8;

struct Block<T, const N: usize> {
    all: Box<[T]>,
    border: usize,
    mark: T,
}

impl<T: Copy + PartialEq, const N: usize> Block<T, N> {
    fn new(border: usize, mark: T) -> Self {
        Block { all: vec![mark; N + 2 * border].into_boxed_slice(), border, mark }
    }

    fn get(&self) -> &[T; N] {
        self.all[self.border..][..N].try_into().expect("N of them")
    }

    fn get_mut(&mut self) -> &mut [T; N] {
        (&mut self.all[self.border..][..N]).try_into().expect("N of them")
    }

    fn kept(&self) -> bool {
        let (front, back) = (&self.all[..self.border], &self.all[self.border + N..]);
        front.iter().chain(back).all(|&one| one == self.mark)
    }
}

pub struct Memory {
    events: Block<u64, EVENT_WORDS>,
    binaries: Block<u32, BINARY_WORDS>,
    analogs: Block<u32, ANALOG_WORDS>,
    analog_outputs: Block<u32, OUTPUT_WORDS>,
    request: Block<u8, FRAGMENT>,
    answer: Block<u8, KEPT_ANSWER>,
    latch_objects: Block<u8, OBJECTS>,
    received: Block<u8, FRAME>,
}

/// Which arrays a call may write.
#[derive(Clone, Copy)]
struct Writes {
    points: bool,
    outputs: bool,
    events: bool,
    session: bool,
}

impl Memory {
    pub fn new(exact: bool) -> Memory {
        let border = if exact { 0 } else { BORDER };
        Memory {
            events: Block::new(border, 0xE7E6_E5E4_E3E2_E1E0),
            binaries: Block::new(border, 0xB3B2_B1B0),
            analogs: Block::new(border, 0xA3A2_A1A0),
            analog_outputs: Block::new(border, 0xC3C2_C1C0),
            request: Block::new(border, 0x51),
            answer: Block::new(border, 0x52),
            latch_objects: Block::new(border, 0x53),
            received: Block::new(border, 0x54),
        }
    }

    fn put(&mut self, image: &Outstation) {
        *self.events.get_mut() = image.events;
        *self.binaries.get_mut() = image.binaries;
        *self.analogs.get_mut() = image.analogs;
        *self.analog_outputs.get_mut() = image.analog_outputs;
        *self.request.get_mut() = image.request;
        *self.answer.get_mut() = image.answer;
        *self.latch_objects.get_mut() = image.latch_objects;
    }

    /// What the call left, where it wrote no other array and no border.
    fn take(&self, image: &mut Outstation, head: Head, writes: Writes) -> Result<(), String> {
        let points = *self.binaries.get() == image.binaries && *self.analogs.get() == image.analogs;
        let outputs = *self.analog_outputs.get() == image.analog_outputs;
        let events = *self.events.get() == image.events;
        let session = *self.request.get() == image.request
            && *self.answer.get() == image.answer
            && *self.latch_objects.get() == image.latch_objects;
        for (what, kept) in [
            ("points", writes.points || points),
            ("analog outputs", writes.outputs || outputs),
            ("events", writes.events || events),
            ("request, answer or objects", writes.session || session),
            ("border of the events", self.events.kept()),
            ("border of the binaries", self.binaries.kept()),
            ("border of the analogs", self.analogs.kept()),
            ("border of the analog outputs", self.analog_outputs.kept()),
            ("border of the request", self.request.kept()),
            ("border of the answer", self.answer.kept()),
            ("border of the objects", self.latch_objects.kept()),
        ] {
            if !kept {
                return Err(format!("{what}: written by a call that may not"));
            }
        }
        image.head = head;
        if !points {
            image.binaries = *self.binaries.get();
            image.analogs = *self.analogs.get();
        }
        if !outputs {
            image.analog_outputs = *self.analog_outputs.get();
        }
        if !events {
            image.events = *self.events.get();
        }
        if !session {
            image.request = *self.request.get();
            image.answer = *self.answer.get();
            image.latch_objects = *self.latch_objects.get();
        }
        Ok(())
    }

    /// The refusal.
    pub fn restart(
        &mut self,
        image: &mut Outstation,
        setup: Setup,
        classes: &[u8],
        setups: &[AnalogSetup],
    ) -> Result<u8, String> {
        self.put(image);
        let restarted = header::restart(
            setup,
            classes,
            setups,
            self.binaries.get_mut(),
            self.analogs.get_mut(),
            self.analog_outputs.get_mut(),
        );
        let writes = Writes { points: true, outputs: true, events: false, session: false };
        self.take(image, restarted.head, writes)?;
        Ok(restarted.refusal)
    }

    /// The refusal.
    pub fn reading(&mut self, image: &mut Outstation, reading: Reading) -> Result<u8, String> {
        self.put(image);
        let took = header::reading(
            image.head,
            self.binaries.get_mut(),
            self.analogs.get_mut(),
            self.events.get_mut(),
            reading,
        );
        let writes = Writes { points: true, outputs: false, events: true, session: false };
        self.take(image, took.head, writes)?;
        Ok(took.refusal)
    }

    /// How many readings were taken, and the refusal.
    pub fn table(
        &mut self,
        image: &mut Outstation,
        readings: &[Reading],
    ) -> Result<(usize, u8), String> {
        self.put(image);
        let took = header::table(
            image.head,
            self.binaries.get_mut(),
            self.analogs.get_mut(),
            self.events.get_mut(),
            readings,
        );
        let writes = Writes { points: true, outputs: false, events: true, session: false };
        self.take(image, took.head, writes)?;
        Ok((took.taken, took.refusal))
    }

    pub fn fragment(
        &mut self,
        image: &mut Outstation,
        time: u64,
        fragment: &[u8],
        out: &mut [u8],
    ) -> Result<(FragmentAnswer, Operated), String> {
        self.put(image);
        let lent = FragmentLent {
            binaries: self.binaries.get(),
            analogs: self.analogs.get(),
            events: self.events.get_mut(),
            request: self.request.get_mut(),
            answer: self.answer.get_mut(),
            latch_objects: self.latch_objects.get_mut(),
            analog_outputs: self.analog_outputs.get(),
        };
        let answer = header::fragment(image.head, lent, time, fragment, out);
        let writes = Writes { points: false, outputs: false, events: true, session: true };
        self.take(image, answer.head, writes)?;
        Ok((answer.answer, answer.operated))
    }

    pub fn piece(
        &mut self,
        receiver: &mut Receiver,
        piece: &[u8],
        out: &mut [u8],
    ) -> Result<Piece, String> {
        *self.received.get_mut() = receiver.bytes;
        let told = header::piece_receive(self.received.get_mut(), receiver.kept, piece, out);
        if !self.received.kept() {
            return Err("border of the receiver's memory: written".into());
        }
        receiver.bytes = *self.received.get();
        receiver.kept = told.kept;
        Ok(told)
    }
}
