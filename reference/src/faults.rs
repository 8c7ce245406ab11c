//! Faults on purpose. With one of them on, the program is wrong in that way and no other; this
//! shows that a comparison can fail. `REFERENCE_FAULT=NAME` turns one on.

use std::sync::atomic::{AtomicUsize, Ordering};

macro_rules! faults {
    ($($case:ident $name:literal $what:literal)*) => {
        #[derive(Clone, Copy, Debug, PartialEq, Eq)]
        pub enum Fault { $($case),* }

        /// Each fault, its name and what it does wrong.
        pub const FAULTS: &[(Fault, &str, &str)] = &[$((Fault::$case, $name, $what)),*];
    };
}

faults! {
    BlockCheckIgnored "block-check-ignored" "a wrong block check is not refused"
    LastWrongBlock "last-wrong-block" "refusal 15 carries the last wrong block"
    HeaderCheckIgnored "header-check-ignored" "a wrong header check is not refused"
    LengthBeforeCheck "length-before-check" "14 is tested before 13"
    LentTestedLast "lent-tested-last" "frame reading tests 33 after 11 to 15"
    PieceMovesTwo "piece-moves-two" "the receiver moves on two bytes after 13"
    PieceMovesOne "piece-moves-one" "the receiver moves on one byte after 15"
    PieceDropsTen "piece-drops-ten" "the receiver keeps nothing after 12"
    PieceSeeks05 "piece-seeks-05" "the receiver moves on to the next 05 after 12"
    PieceEarly12 "piece-early-12" "the receiver refuses 12 at the second byte"
    PieceCountsTwice "piece-counts-twice" "the receiver counts the byte that decided twice"
    PieceLentLast "piece-lent-last" "the receiver tests 33 only at a whole frame"
    PieceCounted "piece-counted" "the receiver's frames and refusals go into the line record"
    PieceKeptByRestart "piece-kept-by-restart" "a restart does not empty the receiver"
    PieceKeptByRefused "piece-kept-by-refused" "a refused setup does not empty the receiver"
    WriteLimit249 "write-limit-249" "frame writing refuses 250 user bytes"
    CountWraps "count-wraps" "a line count goes from 65,535 to 0"
    BlockUncounted "block-uncounted" "a refusal 15 is not counted by its block"
    BlockStopsEarly "block-stops-early" "a block's count stops when that of refusal 15 does"
    NotSupportedUncounted "not-supported-uncounted" "a frame answered NOT_SUPPORTED is not counted"
    FcvIgnored "fcv-ignored" "FCV 1 is taken"
    RefusalSpoils "refusal-spoils" "the station writes user data before it decides"
    SequenceMod16 "sequence-mod-16" "transport sequences are compared modulo 16"
    EmptySegmentForgets "empty-segment-forgets" "21 forgets the unfinished fragment"
    Assembly2047 "assembly-2047" "an assembled fragment of 2,048 is refused 23"
    RepeatForgets "repeat-forgets" "a segment heard again is 22"
    RepeatAppended "repeat-appended" "a segment heard again is stored again"
    RepeatOnce "repeat-once" "a segment heard a third time is 22"
    RepeatUnchecked "repeat-unchecked" "a segment is heard again by its transport byte alone"
    RepeatByLength "repeat-by-length" "a segment is heard again by its transport byte and length"
    RepeatByData "repeat-by-data" "a segment is heard again whatever its sequence"
    RepeatShorter "repeat-shorter" "a segment is heard again if the bytes so far end with its data"
    RepeatOfFirst "repeat-of-first" "the first segment is heard again without its FIR"
    RepeatWithFin "repeat-with-fin" "a segment is heard again with FIN"
    RepeatAfterWhole "repeat-after-whole" "a whole fragment's last segment heard again is ignored"
    RepeatAt2048 "repeat-at-2048" "a segment heard again with 2,048 bytes standing is 23"
    RepeatPastRefused "repeat-past-refused" "a segment heard again after 21 is 22"
    RepeatLentLast "repeat-lent-last" "a segment heard again is ignored before 33 is tested"
    SendFromZero "send-from-zero" "each fragment sent is numbered from 0"
    RefusedMovesClock "refused-moves-clock" "a reading refused 4 sets the clock"
    FlagsBeforeFloat "flags-before-float" "4 is tested before 3"
    FirstReadingRaises "first-reading-raises" "the first reading raises an event"
    Distance32 "distance-32" "whole distances are taken in signed 32 bits"
    ClampedGate "clamped-gate" "a 16-bit point's gate sees the clamped value"
    MinusZeroKept "minus-zero-kept" "gain 1 and offset zero give back minus zero"
    FusedScale "fused-scale" "product and sum are rounded once together"
    InfinityShown "infinity-shown" "an infinite value is not replaced"
    ZerosDiffer "zeros-differ" "plus and minus zero are different for gates"
    LimitReached "limit-reached" "a distance equal to the limit passes"
    SumNotCleared "sum-not-cleared" "a report by flags leaves the sum"
    SumFromReported "sum-from-reported" "the sum adds the distance from the value last reported"
    FlagsUnreported "flags-unreported" "a change of flags alone is no report"
    DropAt255 "drop-at-255" "an event raised while 255 are held is dropped"
    TableOneMore "table-one-more" "a stopped table counts the refused record"
    RestartKeepsClock "restart-keeps-clock" "a restart keeps the clock"
    LongFragment "long-fragment" "a fragment of 2,049 bytes is looked at"
    ConfirmUns31 "confirm-uns-31" "CONFIRM with UNS is 31"
    FragmentLentLast "fragment-lent-last" "a fragment's 33 is tested after 31"
    RefusedConfirmEndsWait "refused-confirm-ends-wait" "CONFIRM refused 32 ends the wait"
    ReleaseAll "release-all" "CONFIRM releases every held event"
    TwinsReleased "twins-released" "CONFIRM releases events that only look like those carried"
    WarningClearedByOldConfirm "warning-cleared-by-old-confirm" "a drop since the response does not keep IIN2.3"
    ConfirmTimePlus1 "confirm-time-plus-1" "CONFIRM is taken one ms late"
    FaultKeepsWait "fault-keeps-wait" "a faulty READ leaves the earlier wait"
    ReadRepeats "read-repeats" "an equal READ is a repeat"
    RepeatPastRead "repeat-past-read" "a READ does not replace the last request"
    RepeatRebuilt "repeat-rebuilt" "a repeat shows today's indications"
    RepeatOperates "repeat-operates" "a repeated OPERATE is carried out again"
    ArmTimeRestarted "arm-time-restarted" "a repeated SELECT restarts the arm time"
    ArmTimePlus1 "arm-time-plus-1" "OPERATE is taken one ms late"
    OperateLate2 "operate-late-2" "a late OPERATE gets status 2"
    LatchKept "latch-kept" "a faulty request leaves the latch armed"
    Header17As28 "header-17-as-28" "OPERATE with qualifier 28 meets a SELECT with 17"
    DuplicateIndexKept "duplicate-index-kept" "an index already in the request gets status 0"
    IndexLowByte "index-low-byte" "only the low byte of a two-byte index is looked at"
    StatusOrder "status-order" "a missing output is tested before the status byte"
    Pulse0Taken "pulse-0-taken" "a pulse with on-time 0 gets status 0"
    Pulse60000Refused "pulse-60000-refused" "a pulse of 60,000 ms gets status 4"
    Pulse60001Taken "pulse-60001-taken" "a pulse of 60,001 ms gets status 0"
    Pulse01Untested "pulse-01-untested" "the on-time of code 01 is not looked at"
    Pulse41Untested "pulse-41-untested" "the on-time of code 41 is not looked at"
    Pulse81Untested "pulse-81-untested" "the on-time of code 81 is not looked at"
    LatchTimed "latch-timed" "the on-time of codes 03 and 04 is tested too"
    PulseAfterIndex "pulse-after-index" "the on-time is tested after the repeated index"
    PulseBeforeStatus "pulse-before-status" "the on-time is tested before the status byte"
    PulseOffTime "pulse-off-time" "the off-time is tested in place of the on-time"
    PulseLowWord "pulse-low-word" "only the low two bytes of the on-time are looked at"
    PulseOnOperate "pulse-on-operate" "a wrong on-time in an OPERATE gets status 4"
    PulseArms "pulse-arms" "a SELECT whose only statuses not 0 come from on-times arms the latch"
    PulseCarried "pulse-carried" "direct operation carries out a pulse that got 4 for its on-time"
    PulseIndexFree "pulse-index-free" "a pulse that got 4 for its on-time does not count as an index already in the request"
    SetLowUntested "set-low-untested" "a set point below its first end gets status 0"
    SetHighUntested "set-high-untested" "a set point above its second end gets status 0"
    SetLowRefused "set-low-refused" "a set point at its first end gets status 4"
    SetHighRefused "set-high-refused" "a set point at its second end gets status 4"
    SetNanTaken "set-nan-taken" "a set point that is not a number gets status 0"
    SetInfinityClamped "set-infinity-clamped" "an infinite set point is tested as the largest finite one of its sign"
    Set32Unsigned "set-32-unsigned" "a 32-bit set point is read without its sign"
    Set16Unsigned "set-16-unsigned" "a 16-bit set point is read without its sign"
    SetSwapped "set-swapped" "a set point is read highest byte first"
    SetByBits "set-by-bits" "float ends and values are compared by their bits"
    SetMinusZeroBelow "set-minus-zero-below" "minus zero is below plus zero as an end and as a value"
    SetKindUntested "set-kind-untested" "a value of another kind gets status 0 within the ends"
    SetKindBeforeStatus "set-kind-before-status" "a set point's kind is tested before the status byte"
    SetValueBeforeStatus "set-value-before-status" "a set point's ends are tested before the status byte"
    SetKindAfterIndex "set-kind-after-index" "a set point's kind is tested after the repeated index"
    SetValueAfterIndex "set-value-after-index" "a set point's ends are tested after the repeated index"
    SetIndexFree "set-index-free" "a set point that got 4 for its value does not count as an index already in the request"
    SetByRelays "set-by-relays" "the number of relays says which set points there are"
    RelayBySets "relay-by-sets" "the number of set points says which relays there are"
    SetUnknownWithout "set-unknown-without" "group 41 is unknown where no set points are set up"
    SetVar4 "set-var-4" "41 var 4 is not an unknown object"
    Set17Only "set-17-only" "set points with qualifier 28 are IIN2.2"
    SetArms "set-arms" "a SELECT whose only statuses not 0 come from values outside their ends arms the latch"
    SetArmsRelays "set-arms-relays" "a SELECT of set points arms the latch for relays"
    SetCarried "set-carried" "direct operation carries out a set point that got 4 for its value"
    SetCarriedTwice "set-carried-twice" "a repeat carries out set points again"
    SetAnswered "set-answered" "function 6 with set points is answered"
    SetOnOperate "set-on-operate" "a value outside its ends in an OPERATE gets status 4"
    OperateOtherVariation "operate-other-variation" "OPERATE is matched without its group and variation"
    OperatePastHeader "operate-past-header" "OPERATE is matched without its header"
    OperateZerosEqual "operate-zeros-equal" "OPERATE with a zero of the other sign meets a SELECT"
    SelectOtherKept "select-other-kept" "a SELECT of the other group leaves the latch as it was"
    RestartKeepsLatch "restart-keeps-latch" "a restart leaves the latch armed"
    EndsCrossedTaken "ends-crossed-taken" "a set point's first end may be above its second"
    EndsEqualRefused "ends-equal-refused" "a set point's ends may not be equal"
    EndsZeroRefused "ends-zero-refused" "a set point's ends +0, -0 are refused"
    EndsInfiniteTaken "ends-infinite-taken" "a set point's end may be infinite"
    EndsNanTaken "ends-nan-taken" "a set point's end may be not a number"
    EndsWideTaken "ends-wide-taken" "a set point's end may be outside its kind"
    Sets17Taken "sets-17-taken" "17 set points may be set up"
    RunCountWrong "run-count-wrong" "a run of events under one header counts one too few from 3 on"
    StaticReported "static-reported" "READ shows the analog value last reported"
    StaticAlone "static-alone" "each static analog has a header of its own"
    EventPastFit "event-past-fit" "READ goes on past the first event that does not fit"
    Fit2047 "fit-2047" "an answer of 2,048 bytes does not fit"
    UnknownObject22 "unknown-object-22" "an unknown object is IIN2.2"
    Headers17 "headers-17" "READ takes 17 headers"
    ClassBitsAllHeld "class-bits-all-held" "class bits count the carried events"
    ConWithoutEvents "con-without-events" "CON is not set for IIN2.3 alone"
    RestartBitKept "restart-bit-kept" "WRITE clears restart after answering"
}

/// 0 for none, else one more than the fault's place.
static ACTIVE: AtomicUsize = AtomicUsize::new(0);

pub fn on(fault: Fault) -> bool {
    ACTIVE.load(Ordering::Relaxed) == fault as usize + 1
}

/// Turns the named fault on; false when there is none of that name.
pub fn turn_on(name: &str) -> bool {
    match FAULTS.iter().find(|(_, n, _)| *n == name) {
        Some((fault, _, _)) => {
            ACTIVE.store(*fault as usize + 1, Ordering::Relaxed);
            true
        }
        None => false,
    }
}
