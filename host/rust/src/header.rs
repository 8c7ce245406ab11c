//! `include/pomarisco.h` a second time: its structs with the sizes and offsets that it asserts, and
//! its calls. A struct laid out otherwise does not compile; `layout` in `main.rs` holds this list to
//! the header's own.

use std::mem::{offset_of, size_of, MaybeUninit};

use reference::generate::Random;

pub const BINARIES: usize = 64;
pub const ANALOGS: usize = 64;
pub const ANALOG_OUTPUTS: usize = 16;
pub const EVENTS: usize = 256;
pub const CONTROLS: usize = 8;
pub const FRAGMENT: usize = 2048;
pub const FRAME: usize = 292;
pub const BLOCKS: usize = 16;
pub const USER: usize = 250;

// Lent words and bytes of an outstation.
pub const EVENT_WORDS: usize = 2 * EVENTS;
pub const BINARY_WORDS: usize = BINARIES;
pub const ANALOG_WORDS: usize = 8 * ANALOGS;
pub const OUTPUT_WORDS: usize = 3 * ANALOG_OUTPUTS;
pub const KEPT_ANSWER: usize = 113;
pub const OBJECTS: usize = 109;

/// Where two values differ, if they do: field by field, so that the bytes between fields do not
/// count.
pub trait Same {
    fn differs(&self, other: &Self) -> Option<String>;
}

macro_rules! numbers {
    ($($number:ty)*) => {
        $(impl Same for $number {
            fn differs(&self, other: &Self) -> Option<String> {
                (self != other).then(|| format!(": {self} and {other}"))
            }
        })*
    };
}

numbers!(u8 u16 u32 u64 usize);

impl<T: Same, const N: usize> Same for [T; N] {
    fn differs(&self, other: &Self) -> Option<String> {
        self.iter()
            .zip(other)
            .enumerate()
            .find_map(|(place, (one, two))| Some(format!("[{place}]{}", one.differs(two)?)))
    }
}

macro_rules! structs {
    ($($name:ident $text:literal $size:literal { $($field:ident: $type:ty = $at:literal),* $(,)? })*) => {
        $(
            #[repr(C)]
            #[derive(Clone, Copy)]
            pub struct $name {
                $(pub $field: $type),*
            }

            const _: () = assert!(size_of::<$name>() == $size);
            $(const _: () = assert!(offset_of!($name, $field) == $at);)*

            impl Same for $name {
                fn differs(&self, other: &Self) -> Option<String> {
                    $(if let Some(found) = self.$field.differs(&other.$field) {
                        return Some(format!(".{}{found}", stringify!($field)));
                    })*
                    None
                }
            }

            impl $name {
                /// All bytes 0.
                #[allow(dead_code)]
                pub fn zero() -> Self {
                    // Sound: it has numbers and nothing else, so any bytes are a value of it.
                    unsafe { MaybeUninit::zeroed().assume_init() }
                }

                /// All bytes random, those between the fields too.
                #[allow(dead_code)]
                pub fn random(random: &mut Random) -> Self {
                    let mut value = MaybeUninit::<Self>::uninit();
                    let bytes = value.as_mut_ptr().cast::<u8>();
                    for place in 0..size_of::<Self>() {
                        // Sound: inside the value, and any bytes are a value of it.
                        unsafe { bytes.add(place).write(random.byte()) };
                    }
                    unsafe { value.assume_init() }
                }
            }
        )*

        /// Each struct's name in the header, its size, and its fields' offsets.
        pub const LAYOUT: &[(&str, usize, &[(&str, usize)])] =
            &[$(($text, $size, &[$((stringify!($field), $at)),*])),*];
    };
}

structs! {
    Head "head" 104 {
        arm_time: u64 = 0,
        confirm_time: u64 = 8,
        clock: u64 = 16,
        wait_time: u64 = 24,
        latch_time: u64 = 32,
        binary_count: usize = 40,
        analog_count: usize = 48,
        event_count: usize = 56,
        request_len: usize = 64,
        answer_len: usize = 72,
        latch_len: usize = 80,
        outputs: u16 = 88,
        overflow: u8 = 90,
        restarted: u8 = 91,
        waiting: u8 = 92,
        wait_sequence: u8 = 93,
        showed_overflow: u8 = 94,
        dropped_since: u8 = 95,
        request_kept: u8 = 96,
        latch_armed: u8 = 97,
        latch_sequence: u8 = 98,
        analog_outputs: u16 = 100,
    }
    Outstation "outstation" 8968 {
        head: Head = 0,
        events: [u64; EVENT_WORDS] = 104,
        binaries: [u32; BINARY_WORDS] = 4200,
        analogs: [u32; ANALOG_WORDS] = 4456,
        analog_outputs: [u32; OUTPUT_WORDS] = 6504,
        request: [u8; FRAGMENT] = 6696,
        answer: [u8; KEPT_ANSWER] = 8744,
        latch_objects: [u8; OBJECTS] = 8857,
    }
    AnalogOutput "analog_output" 12 { low: u32 = 0, high: u32 = 4, kind: u8 = 8 }
    Setup "setup" 208 {
        arm_time: u32 = 0,
        confirm_time: u32 = 4,
        own: u16 = 8,
        master: u16 = 10,
        outputs: u16 = 12,
        analog_output_count: u16 = 14,
        analog_outputs: [AnalogOutput; ANALOG_OUTPUTS] = 16,
    }
    AnalogSetup "analog_setup" 16 {
        limit: u32 = 0,
        gain: u32 = 4,
        offset: u32 = 8,
        class_: u8 = 12,
        kind: u8 = 13,
        gate: u8 = 14,
    }
    Reading "reading" 16 {
        time: u64 = 0,
        bits: u32 = 8,
        point: u16 = 12,
        kind: u8 = 14,
        flags: u8 = 15,
    }
    Restarted "restarted" 112 { head: Head = 0, refusal: u8 = 104 }
    Took "took" 112 { head: Head = 0, refusal: u8 = 104 }
    TableTook "table_took" 120 { taken: usize = 0, head: Head = 8, refusal: u8 = 112 }
    Crob "crob" 16 {
        on_time: u32 = 0,
        off_time: u32 = 4,
        index: u16 = 8,
        code: u8 = 10,
        count: u8 = 11,
        status: u8 = 12,
    }
    Crobs "crobs" 136 { items: [Crob; CONTROLS] = 0, count: usize = 128 }
    AnalogCommand "analog_command" 8 { bits: u32 = 0, index: u16 = 4, kind: u8 = 6, status: u8 = 7 }
    AnalogCommands "analog_commands" 72 { items: [AnalogCommand; CONTROLS] = 0, count: usize = 64 }
    Operated "operated" 208 { crobs: Crobs = 0, analog_commands: AnalogCommands = 136 }
    FragmentAnswer "fragment_answer" 16 { length: usize = 0, kind: u8 = 8, refusal: u8 = 9 }
    Answer "answer" 328 { head: Head = 0, operated: Operated = 104, answer: FragmentAnswer = 312 }
    Station "station" 4 { own: u16 = 0, master: u16 = 2 }
    Wrote "wrote" 16 { size: usize = 0, refusal: u8 = 8 }
    Frame "frame" 16 {
        length: usize = 0,
        destination: u16 = 8,
        source: u16 = 10,
        control: u8 = 12,
        refusal: u8 = 13,
        block: u8 = 14,
    }
    Receiver "receiver" 304 { kept: usize = 0, bytes: [u8; FRAME] = 8 }
    Piece "piece" 40 { taken: usize = 0, kept: usize = 8, frame: Frame = 16, waits: u8 = 32 }
    Line "line" 46 {
        accepted: u16 = 0,
        short_frame: u16 = 2,
        start: u16 = 4,
        header_check: u16 = 6,
        length: u16 = 8,
        block_check: u16 = 10,
        not_taken: u16 = 12,
        blocks: [u16; BLOCKS] = 14,
    }
    Taken "taken" 16 {
        length: usize = 0,
        control: u8 = 8,
        kind: u8 = 9,
        refusal: u8 = 10,
        block: u8 = 11,
    }
    Assembly "assembly" 24 {
        length: usize = 0,
        last_length: usize = 8,
        last: u8 = 16,
        last_fir: u8 = 17,
        begun: u8 = 18,
    }
    Segment "segment" 16 { length: usize = 0, kind: u8 = 8, refusal: u8 = 9 }
    Reception "reception" 40 { assembly: Assembly = 0, segment: Segment = 24 }
    Sender "sender" 16 { at: usize = 0, next: u8 = 8 }
    Sent "sent" 16 { size: usize = 0, last: u8 = 8, refusal: u8 = 9 }
    Sending "sending" 32 { sender: Sender = 0, sent: Sent = 16 }
}

macro_rules! calls {
    ($(fn $name:ident($($argument:ident: $type:ty),* $(,)?) -> $result:ty;)*) => {
        extern "C" {
            $(fn $name($($argument: $type),*) -> $result;)*
        }

        /// The exported calls, by name.
        pub const CALLS: &[&str] = &[$(stringify!($name)),*];
    };
}

calls! {
    fn pomarisco_lent_restart(
        setup: Setup,
        classes: *const u8,
        class_count: usize,
        setups: *const AnalogSetup,
        setup_count: usize,
        binaries: *mut u32,
        analogs: *mut u32,
        analog_outputs: *mut u32,
    ) -> Restarted;
    fn pomarisco_lent_reading(
        head: Head,
        binaries: *mut u32,
        analogs: *mut u32,
        events: *mut u64,
        reading: Reading,
    ) -> Took;
    fn pomarisco_lent_table(
        head: Head,
        binaries: *mut u32,
        analogs: *mut u32,
        events: *mut u64,
        readings: *const Reading,
        count: usize,
    ) -> TableTook;
    fn pomarisco_lent_fragment(
        head: Head,
        binaries: *const u32,
        analogs: *const u32,
        events: *mut u64,
        request: *mut u8,
        answer: *mut u8,
        objects: *mut u8,
        analog_outputs: *const u32,
        time: u64,
        fragment: *const u8,
        fragment_length: usize,
        out: *mut u8,
        out_length: usize,
    ) -> Answer;
    fn pomarisco_frame_write(
        out: *mut u8,
        out_length: usize,
        control: u8,
        destination: u16,
        source: u16,
        user: *const u8,
        user_length: usize,
    ) -> Wrote;
    fn pomarisco_frame_read(
        bytes: *const u8,
        length: usize,
        out: *mut u8,
        out_length: usize,
    ) -> Frame;
    fn pomarisco_piece_receive(
        memory: *mut u8,
        kept: usize,
        piece: *const u8,
        piece_length: usize,
        out: *mut u8,
        out_length: usize,
    ) -> Piece;
    fn pomarisco_link_receive(
        line: *mut Line,
        station: Station,
        bytes: *const u8,
        length: usize,
        out: *mut u8,
        out_length: usize,
    ) -> Taken;
    fn pomarisco_link_reply(
        out: *mut u8,
        out_length: usize,
        station: Station,
        control: u8,
    ) -> Wrote;
    fn pomarisco_link_data(
        out: *mut u8,
        out_length: usize,
        station: Station,
        user: *const u8,
        user_length: usize,
    ) -> Wrote;
    fn pomarisco_segment_receive(
        assembly: Assembly,
        segment: *const u8,
        segment_length: usize,
        out: *mut u8,
        out_length: usize,
    ) -> Reception;
    fn pomarisco_segment_send(
        sender: Sender,
        fragment: *const u8,
        fragment_length: usize,
        out: *mut u8,
        out_length: usize,
    ) -> Sending;
}

impl Operated {
    /// How many objects there are, of either kind.
    pub fn count(&self) -> usize {
        self.crobs.count + self.analog_commands.count
    }

    /// Where the objects handed over differ, if they do; what is past the counts does not count.
    pub fn differs_in_objects(&self, other: &Operated) -> Option<String> {
        let counts = [
            self.crobs.count.differs(&other.crobs.count),
            self.analog_commands.count.differs(&other.analog_commands.count),
        ];
        if let Some(found) = counts.into_iter().flatten().next() {
            return Some(format!(" count{found}"));
        }
        let (one, two) = (&self.crobs, &other.crobs);
        let crobs = one.items.iter().zip(&two.items).take(one.count);
        let crobs = crobs.filter_map(|(one, two)| one.differs(two)).next();
        let (one, two) = (&self.analog_commands, &other.analog_commands);
        let commands = one.items.iter().zip(&two.items).take(one.count);
        crobs.or_else(|| commands.filter_map(|(one, two)| one.differs(two)).next())
    }
}

// The calls over slices and arrays. They keep what the header leaves with the host: they are not
// null, what they hold may be read or written, and what may be written overlaps nothing else.

pub fn restart(
    setup: Setup,
    classes: &[u8],
    setups: &[AnalogSetup],
    binaries: &mut [u32; BINARY_WORDS],
    analogs: &mut [u32; ANALOG_WORDS],
    analog_outputs: &mut [u32; OUTPUT_WORDS],
) -> Restarted {
    unsafe {
        pomarisco_lent_restart(
            setup,
            classes.as_ptr(),
            classes.len(),
            setups.as_ptr(),
            setups.len(),
            binaries.as_mut_ptr(),
            analogs.as_mut_ptr(),
            analog_outputs.as_mut_ptr(),
        )
    }
}

pub fn reading(
    head: Head,
    binaries: &mut [u32; BINARY_WORDS],
    analogs: &mut [u32; ANALOG_WORDS],
    events: &mut [u64; EVENT_WORDS],
    reading: Reading,
) -> Took {
    unsafe {
        pomarisco_lent_reading(
            head,
            binaries.as_mut_ptr(),
            analogs.as_mut_ptr(),
            events.as_mut_ptr(),
            reading,
        )
    }
}

pub fn table(
    head: Head,
    binaries: &mut [u32; BINARY_WORDS],
    analogs: &mut [u32; ANALOG_WORDS],
    events: &mut [u64; EVENT_WORDS],
    readings: &[Reading],
) -> TableTook {
    unsafe {
        pomarisco_lent_table(
            head,
            binaries.as_mut_ptr(),
            analogs.as_mut_ptr(),
            events.as_mut_ptr(),
            readings.as_ptr(),
            readings.len(),
        )
    }
}

/// What a fragment is given of the state beside its head.
pub struct FragmentLent<'a> {
    pub binaries: &'a [u32; BINARY_WORDS],
    pub analogs: &'a [u32; ANALOG_WORDS],
    pub events: &'a mut [u64; EVENT_WORDS],
    pub request: &'a mut [u8; FRAGMENT],
    pub answer: &'a mut [u8; KEPT_ANSWER],
    pub latch_objects: &'a mut [u8; OBJECTS],
    pub analog_outputs: &'a [u32; OUTPUT_WORDS],
}

pub fn fragment(
    head: Head,
    lent: FragmentLent,
    time: u64,
    fragment: &[u8],
    out: &mut [u8],
) -> Answer {
    unsafe {
        pomarisco_lent_fragment(
            head,
            lent.binaries.as_ptr(),
            lent.analogs.as_ptr(),
            lent.events.as_mut_ptr(),
            lent.request.as_mut_ptr(),
            lent.answer.as_mut_ptr(),
            lent.latch_objects.as_mut_ptr(),
            lent.analog_outputs.as_ptr(),
            time,
            fragment.as_ptr(),
            fragment.len(),
            out.as_mut_ptr(),
            out.len(),
        )
    }
}

pub fn frame_write(
    out: &mut [u8],
    control: u8,
    destination: u16,
    source: u16,
    user: &[u8],
) -> Wrote {
    let (to, room) = (out.as_mut_ptr(), out.len());
    unsafe {
        pomarisco_frame_write(to, room, control, destination, source, user.as_ptr(), user.len())
    }
}

pub fn frame_read(bytes: &[u8], out: &mut [u8]) -> Frame {
    unsafe { pomarisco_frame_read(bytes.as_ptr(), bytes.len(), out.as_mut_ptr(), out.len()) }
}

pub fn piece_receive(memory: &mut [u8; FRAME], kept: usize, piece: &[u8], out: &mut [u8]) -> Piece {
    let (to, room) = (out.as_mut_ptr(), out.len());
    unsafe {
        pomarisco_piece_receive(memory.as_mut_ptr(), kept, piece.as_ptr(), piece.len(), to, room)
    }
}

pub fn link_receive(line: &mut Line, station: Station, bytes: &[u8], out: &mut [u8]) -> Taken {
    let (to, room) = (out.as_mut_ptr(), out.len());
    unsafe { pomarisco_link_receive(line, station, bytes.as_ptr(), bytes.len(), to, room) }
}

pub fn link_reply(out: &mut [u8], station: Station, control: u8) -> Wrote {
    unsafe { pomarisco_link_reply(out.as_mut_ptr(), out.len(), station, control) }
}

pub fn link_data(out: &mut [u8], station: Station, user: &[u8]) -> Wrote {
    let (to, room) = (out.as_mut_ptr(), out.len());
    unsafe { pomarisco_link_data(to, room, station, user.as_ptr(), user.len()) }
}

pub fn segment_receive(assembly: Assembly, segment: &[u8], out: &mut [u8]) -> Reception {
    let (to, room) = (out.as_mut_ptr(), out.len());
    unsafe { pomarisco_segment_receive(assembly, segment.as_ptr(), segment.len(), to, room) }
}

pub fn segment_send(sender: Sender, fragment: &[u8], out: &mut [u8]) -> Sending {
    let (to, room) = (out.as_mut_ptr(), out.len());
    unsafe { pomarisco_segment_send(sender, fragment.as_ptr(), fragment.len(), to, room) }
}
