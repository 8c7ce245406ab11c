/* Pomarisco, a DNP3 outstation, for a host in C. Link with libc_api.a (x86-64 Linux, System V ABI; it wants memcpy and
 * memset only). C11; C++ may include it too.
 *
 * STATE AND OWNERSHIP. The host keeps all state: it allocates one struct pomarisco_outstation for each station, once, and
 * lends it to each call. The library has no state, allocates nothing and keeps no pointer after a call. The struct is a
 * small head, which goes in and out by value, and arrays of numbers, which are changed in place; the functions at the end
 * (pomarisco_restart, _reading, _table, _fragment) do both, and are what a host calls. An outstation may be copied, saved
 * and put back between calls. Calls on different outstations may run at the same time without a lock.
 *
 * EVERY content of every struct and array, and every number, may be passed: each stands for some state, and no content
 * makes a call misbehave.
 *  - A truth is a uint8_t, 0 for false and any other number for true.
 *  - Of a reading and of an analog's setup only the fields named with its kind count; of a wait, a last request or a latch
 *    that is not there, none. Array elements past the count do not count.
 *  - A count of the head above its array's length means all of the array. (Over 64 classes or analog setups lent to restart are refused, 5, and so
 *    are over 16 analog outputs of a setup.)
 * From restart on, changed by calls alone, no count passes its array. What does not count may change in any call, also in a refused
 * one: compare meanings, not bytes.
 *
 * LENT BYTES. `const uint8_t *p, size_t n` is n bytes that the call reads; `uint8_t *p, size_t n` is n bytes that it may
 * write. It writes the output at their front; the bytes after the output keep what they held, and so do all of them when
 * the call is refused. Any n may be given, the calls say which are refused; the bytes may be at any address. Lent
 * readings, classes and analog setups are read only; any number of them may be given.
 *
 * WHAT STAYS WITH THE HOST (nothing checks it):
 *  - p points to n bytes or structs that may be read (or written) for the time of the call; n of them are at most PTRDIFF_MAX bytes;
 *  - an outstation, a line record, lent readings and setups are aligned as C aligns them, and are not NULL. The functions at the end
 *    take NULL with 0; the exported calls do not, so give those some (aligned) address;
 *  - what a call may write overlaps nothing else that it is lent: the arrays of one outstation are lent once each, and the bytes lent
 *    beside an outstation are none of its own;
 *  - no other thread uses an outstation, or writes to lent bytes, during a call: between threads, one lock for each outstation. Writing to
 *    head or arrays between calls gives another state, some state always: do it only where that is meant;
 *  - the stack is deep enough: give the thread POMARISCO_STACK bytes (host/README.md has what each call was measured to use). The
 *    proofs know of no stack;
 *  - the structs are laid out as here: the assertions below hold this file to the library's layout;
 *  - it keeps setup, outstation, line record, receiver, assembly and sender of one station together, and carries out the objects it is handed.
 *
 * REFUSALS. 0 is none. Order of the tests: 1, 33, then by number; 11 for the frame's size comes after 14.
 *
 *   No.  given exactly when                                                          leaves
 *   1    time at or above 2^48, or before the last accepted call's                   the state as it was
 *   2    no such point of that kind                                                  the state as it was
 *   3    float reading not finite                                                    the state as it was
 *   4    host flags above 31                                                         the state as it was
 *   5    setup breaks a limit (see struct pomarisco_setup)                           no outstation (see restart)
 *   11   under 10 bytes, or under the frame's size                                   only the line record counts it
 *   12   not 05 64                                                                   only the line record counts it
 *   13   header check wrong                                                          only the line record counts it
 *   14   length byte under 5                                                         only the line record counts it
 *   15   a block check wrong; carries the first wrong block                          only the line record counts it, also by that block
 *   16   to write: user data over 250, or a fragment of 0 or over 2,048 bytes        all as it was
 *   17   frame not one the station takes                                             only the line record counts it
 *   21   segment with no data, or over 249 bytes of it                               all as it was
 *   22   no FIR and nothing begun, or sequence not next and not a repeat             the unfinished fragment forgotten
 *   23   fragment would pass 2,048 bytes                                             the unfinished fragment forgotten
 *   31   fragment under 2 or over 2,048 bytes; FIR, FIN or CON wrong; UNS outside
 *        CONFIRM; function 128 or more; CONFIRM not 2 bytes                          the state as it was
 *   32   CONFIRM not accepted                                                        the state as it was
 *   33   lent output under 250 (frame read, piece, segment write), 292 (frame
 *        write) or 2,048 (answer, assembly)                                          all as it was
 *
 * A piece off the wire is never refused 11: the receiver waits. By 12 to 15 it moves on, as said at piece_receive, and no line record counts it.
 */
#ifndef POMARISCO_H
#define POMARISCO_H

#include <stddef.h>
#include <stdint.h>
#include <string.h>

#define POMARISCO_BINARIES 64      /* most binary inputs */
#define POMARISCO_ANALOGS 64       /* most analog inputs */
#define POMARISCO_ANALOG_OUTPUTS 16 /* most analog outputs */
#define POMARISCO_EVENTS 256       /* most events held */
#define POMARISCO_CONTROLS 8       /* most objects handed over by one fragment */
#define POMARISCO_FRAGMENT 2048    /* longest fragment; lend so much for an answer and for an assembly */
#define POMARISCO_FRAME 292        /* longest frame; lend so much for a frame to be written, and to a receiver */
#define POMARISCO_USER 250         /* longest user data; lend so much for a frame read or received, and a segment written */
#define POMARISCO_BLOCKS 16        /* most blocks of a frame */
#define POMARISCO_STACK 8192       /* recommended stack, bytes: twice the deepest call as measured */

/* ---- the outstation's state */

struct pomarisco_head {            /* all of the state that is no array. Times in milliseconds */
    uint64_t arm_time;             /* as set up */
    uint64_t confirm_time;         /* as set up */
    uint64_t clock;                /* time of the last accepted call */
    uint64_t wait_time;            /* of the READ that awaits its confirmation */
    uint64_t latch_time;           /* of the SELECT */
    size_t binary_count;           /* installed binary inputs */
    size_t analog_count;           /* installed analog inputs */
    size_t event_count;            /* held events */
    size_t request_len;            /* length of the last accepted request */
    size_t answer_len;             /* length of its answer; 0: there is none, as for a READ */
    size_t latch_len;              /* length of the select latch's objects */
    uint16_t outputs;              /* installed control outputs: relays */
    uint8_t overflow;              /* a truth: IIN2.3, an event was dropped */
    uint8_t restarted;             /* a truth: IIN1.7 */
    uint8_t waiting;               /* a truth: a response awaits its confirmation. The other wait_, showed_ and dropped_ fields count only then */
    uint8_t wait_sequence;         /* the sequence number that confirms it */
    uint8_t showed_overflow;       /* a truth: it showed IIN2.3 */
    uint8_t dropped_since;         /* a truth: an event was dropped since */
    uint8_t request_kept;          /* a truth: there is a last request. Its lengths count only then */
    uint8_t latch_armed;           /* 0: no SELECT holds, and the other latch_ fields do not count; 1: one of relays; any other: one of analog outputs */
    uint8_t latch_sequence;        /* its sequence number */
    uint16_t analog_outputs;       /* installed analog outputs */
};

/* A host allocates one, once. Words of the arrays are numbers (bit 0 is the lowest); pomarisco_binary_at, _analog_at, _analog_output_at and _event_at
 * read them. */
struct pomarisco_outstation {
    struct pomarisco_head head;

    /* Two words an event, oldest first. The first: time, bits 0 to 47; point, 48 to 63. The second: what it shows, bits 0 to 31; flags
     * without the state bit, 32 to 39; class, 40 to 47; kind of what it shows, 48 to 55 (0: a 32-bit value, 1: a 16-bit value, 3: a binary's
     * state, any other: a float's bits); 56 to 63 a truth: it is in the response that awaits confirmation. */
    uint64_t events[2 * POMARISCO_EVENTS];

    /* One word a point: class, bits 0 to 7; flags, 8 to 15; flags last reported, 16 to 23; seen (there was a reading), bit 24; state, bit 25. */
    uint32_t binaries[POMARISCO_BINARIES];

    /* Eight words a point. The first: class, bits 0 to 7; flags, 8 to 15; flags last reported, 16 to 23; seen, bit 24; kind of the value,
     * bits 25 and 26, and of the point, 27 and 28 (0: 32-bit, 1: 16-bit, 2 or 3: float); gate, bits 29 and 30 (as in a setup). Then value as READ
     * shows it, limit, value last reported, previous value, sum of the distances since that report, gain, offset. Of a float point these are
     * floats' bits; of others the reported and the previous value are readings before clamping, and gain and offset do not count. */
    uint32_t analogs[8 * POMARISCO_ANALOGS];

    /* Three words an output: kind (0: 32-bit, 1: 16-bit, any other: float), first end, second end, as the setup gave them. */
    uint32_t analog_outputs[3 * POMARISCO_ANALOG_OUTPUTS];

    uint8_t request[POMARISCO_FRAGMENT]; /* the last accepted request: the first request_len */
    uint8_t answer[113];           /* its answer: the first answer_len */
    uint8_t latch_objects[109];    /* the SELECT's objects with their header: the first latch_len */
};

/* ---- what the host gives */

/* An analog output, set by a master to a value of its kind that is not below its first end and not above its second: the ends themselves are allowed.
 * kind 0: 32-bit; 1: 16-bit, the ends of both int32_t's bits; any other: float, the ends floats' bits. Ends and values are compared as numbers: minus
 * zero is not below zero. pomarisco_output_32, _16 and _float make them. */
struct pomarisco_analog_output {
    uint32_t low;
    uint32_t high;
    uint8_t kind;
};

/* Limits (else 5): addresses 0 to 65,519 and different; arm time at most 64,000 ms; confirm time 1 to 60,000 ms; at most 16
 * outputs (relays), 16 analog outputs, 64 binaries, 64 analogs; classes 0 to 3; gain, offset and a float limit finite, the limit not below 0; an
 * analog output's ends finite, of a 16-bit one -32,768 to 32,767, the first not above the second. All 0 from analog_output_count on: no analog outputs.
 * Relays and analog outputs are numbered apart, both from 0. */
struct pomarisco_setup {
    uint32_t arm_time;
    uint32_t confirm_time;
    uint16_t own;
    uint16_t master;
    uint16_t outputs;
    uint16_t analog_output_count;  /* the first so many of these */
    struct pomarisco_analog_output analog_outputs[POMARISCO_ANALOG_OUTPUTS];
};

/* kind 0: a 32-bit point; 1: a 16-bit point; any other: a float point, for which limit, gain and offset are floats' bits. gate: what change of the value
 * is an event, as below; any number above 3 is as 3. gain and offset count for float points only, the limit for the gates above 1.
 * pomarisco_point_32, _16 and _float make them. */
#define POMARISCO_NEVER 0
#define POMARISCO_ANY_CHANGE 1
#define POMARISCO_BEYOND 2         /* further from the value last reported than the limit */
#define POMARISCO_SUMMED 3         /* the distances since the last report sum up to more than the limit */
struct pomarisco_analog_setup {
    uint32_t limit;
    uint32_t gain;
    uint32_t offset;
    uint8_t class_;
    uint8_t kind;
    uint8_t gate;
};

struct pomarisco_reading {         /* kind 0: a binary's state, bits a truth; 1: a whole reading, bits an int32_t; any other: a float's bits */
    uint64_t time;                 /* milliseconds below 2^48, not before the last accepted call's */
    uint32_t bits;
    uint16_t point;
    uint8_t kind;
    uint8_t flags;                 /* 0 to 31 */
};

struct pomarisco_station {         /* the addresses, as set up */
    uint16_t own;
    uint16_t master;
};

/* ---- what the calls give. refusal: 0, or the number above. A refused call has 0 for size, length, last, addresses, control and the counts of operated */

struct pomarisco_restarted {
    struct pomarisco_head head;
    uint8_t refusal;
};

struct pomarisco_took {
    struct pomarisco_head head;
    uint8_t refusal;
};

struct pomarisco_table_took {      /* taken: how many readings were taken before the refusal */
    size_t taken;
    struct pomarisco_head head;
    uint8_t refusal;
};

/* A control relay output block, and the output it is for. Times in milliseconds. From restart on, each one that a call hands over has an index below
 * the outputs, code 01, 03, 04, 41 or 81 (hex), count 1, status 0 and, with 01, 41 and 81, the pulses, an on_time of 1 to 60,000. */
struct pomarisco_crob {
    uint32_t on_time;
    uint32_t off_time;
    uint16_t index;
    uint8_t code;
    uint8_t count;
    uint8_t status;
};

struct pomarisco_crobs {           /* the first `count`, in the order asked */
    struct pomarisco_crob items[POMARISCO_CONTROLS];
    size_t count;
};

/* A value (a set point) for an analog output. kind 0: a 32-bit value, bits an int32_t; 1: a 16-bit value, bits an int32_t too; 2: a float's bits
 * (pomarisco_bits_whole, _bits_float). From restart on, each one that a call hands over has an index below the analog outputs, the kind of that output,
 * a value that is finite and not outside that output's ends, and status 0. */
struct pomarisco_analog_command {
    uint32_t bits;
    uint16_t index;
    uint8_t kind;
    uint8_t status;
};

struct pomarisco_analog_commands { /* the first `count`, in the order asked */
    struct pomarisco_analog_command items[POMARISCO_CONTROLS];
    size_t count;
};

struct pomarisco_operated {        /* relays' objects or analog outputs', from restart on never both: one count at least is 0 */
    struct pomarisco_crobs crobs;
    struct pomarisco_analog_commands analog_commands;
};

struct pomarisco_fragment_answer { /* kind 0: the answer is the first `length` lent bytes; 1: accepted, not answered; 2: a CONFIRM was accepted; 3: refused */
    size_t length;
    uint8_t kind;
    uint8_t refusal;
};

struct pomarisco_answer {          /* operated: the host is to carry these out, once, also where kind is 1 */
    struct pomarisco_head head;
    struct pomarisco_operated operated;
    struct pomarisco_fragment_answer answer;
};

struct pomarisco_wrote {           /* the frame is the first `size` lent bytes */
    size_t size;
    uint8_t refusal;
};

struct pomarisco_frame {           /* the user data is the first `length` lent bytes; block: the first wrong one, where refusal is 15, else 0 */
    size_t length;
    uint16_t destination;
    uint16_t source;
    uint8_t control;
    uint8_t refusal;
    uint8_t block;
};

struct pomarisco_receiver {        /* kept between pieces off the wire: the first `kept` bytes, at most 291; all 0: nothing kept */
    size_t kept;
    uint8_t bytes[POMARISCO_FRAME];
};

struct pomarisco_piece {           /* taken: how many bytes of the piece were taken, up to the one that decided; kept: how many bytes are kept after it */
    size_t taken;
    size_t kept;
    struct pomarisco_frame frame;  /* as frame_read gives it, never refused by 11; all 0 where the receiver waits */
    uint8_t waits;                 /* 1: the piece is used up and nothing is decided; else 0 */
};

struct pomarisco_line {            /* the line record: accepted frames, then refusals 11, 12, 13, 14, 15, 17; a count stops at 65,535 */
    uint16_t accepted;
    uint16_t short_frame;
    uint16_t start;
    uint16_t header_check;
    uint16_t length;
    uint16_t block_check;
    uint16_t not_taken;
    uint16_t blocks[POMARISCO_BLOCKS]; /* refusals 15 by the first wrong block, counted from 0; each stops at 65,535 for itself */
};

struct pomarisco_taken {           /* kind 0: user data, the first `length` lent bytes; 1: reply with `control`; 2: refused, 15 with the first wrong block */
    size_t length;
    uint8_t control;
    uint8_t kind;
    uint8_t refusal;
    uint8_t block;
};

struct pomarisco_assembly {        /* kept between segments received; all 0: nothing begun */
    size_t length;
    size_t last_length;            /* of the last segment taken: how many of these bytes are its data, its sequence, whether it had FIR */
    uint8_t last;
    uint8_t last_fir;
    uint8_t begun;
};

struct pomarisco_segment {         /* kind 0: the fragment goes on; 1: it is whole, the first `length` lent bytes; 2: refused */
    size_t length;
    uint8_t kind;
    uint8_t refusal;
};

struct pomarisco_reception {
    struct pomarisco_assembly assembly;
    struct pomarisco_segment segment;
};

struct pomarisco_sender {          /* kept between segments sent; all 0: nothing sent */
    size_t at;
    uint8_t next;
};

struct pomarisco_sent {            /* the segment is the first `size` lent bytes; last: it ends the fragment */
    size_t size;
    uint8_t last;
    uint8_t refusal;
};

struct pomarisco_sending {
    struct pomarisco_sender sender;
    struct pomarisco_sent sent;
};

/* ---- the layout that the library was compiled with */

#ifdef __cplusplus
#define POMARISCO_IS(what, n) static_assert((what) == (n), #what)
#else
#define POMARISCO_IS(what, n) _Static_assert((what) == (n), #what)
#endif
#define POMARISCO_SIZE(s, n) POMARISCO_IS(sizeof(struct pomarisco_##s), n)
#define POMARISCO_AT(s, field, n) POMARISCO_IS(offsetof(struct pomarisco_##s, field), n)
POMARISCO_SIZE(head, 104); POMARISCO_AT(head, arm_time, 0); POMARISCO_AT(head, confirm_time, 8); POMARISCO_AT(head, clock, 16); POMARISCO_AT(head, wait_time, 24); POMARISCO_AT(head, latch_time, 32); POMARISCO_AT(head, binary_count, 40); POMARISCO_AT(head, analog_count, 48); POMARISCO_AT(head, event_count, 56); POMARISCO_AT(head, request_len, 64); POMARISCO_AT(head, answer_len, 72); POMARISCO_AT(head, latch_len, 80); POMARISCO_AT(head, outputs, 88); POMARISCO_AT(head, overflow, 90); POMARISCO_AT(head, restarted, 91); POMARISCO_AT(head, waiting, 92); POMARISCO_AT(head, wait_sequence, 93); POMARISCO_AT(head, showed_overflow, 94); POMARISCO_AT(head, dropped_since, 95); POMARISCO_AT(head, request_kept, 96); POMARISCO_AT(head, latch_armed, 97); POMARISCO_AT(head, latch_sequence, 98); POMARISCO_AT(head, analog_outputs, 100);
POMARISCO_SIZE(outstation, 8968); POMARISCO_AT(outstation, head, 0); POMARISCO_AT(outstation, events, 104); POMARISCO_AT(outstation, binaries, 4200); POMARISCO_AT(outstation, analogs, 4456); POMARISCO_AT(outstation, analog_outputs, 6504); POMARISCO_AT(outstation, request, 6696); POMARISCO_AT(outstation, answer, 8744); POMARISCO_AT(outstation, latch_objects, 8857);
POMARISCO_SIZE(analog_output, 12); POMARISCO_AT(analog_output, low, 0); POMARISCO_AT(analog_output, high, 4); POMARISCO_AT(analog_output, kind, 8);
POMARISCO_SIZE(setup, 208); POMARISCO_AT(setup, arm_time, 0); POMARISCO_AT(setup, confirm_time, 4); POMARISCO_AT(setup, own, 8); POMARISCO_AT(setup, master, 10); POMARISCO_AT(setup, outputs, 12); POMARISCO_AT(setup, analog_output_count, 14); POMARISCO_AT(setup, analog_outputs, 16);
POMARISCO_SIZE(analog_setup, 16); POMARISCO_AT(analog_setup, limit, 0); POMARISCO_AT(analog_setup, gain, 4); POMARISCO_AT(analog_setup, offset, 8); POMARISCO_AT(analog_setup, class_, 12); POMARISCO_AT(analog_setup, kind, 13); POMARISCO_AT(analog_setup, gate, 14);
POMARISCO_SIZE(reading, 16); POMARISCO_AT(reading, time, 0); POMARISCO_AT(reading, bits, 8); POMARISCO_AT(reading, point, 12); POMARISCO_AT(reading, kind, 14); POMARISCO_AT(reading, flags, 15);
POMARISCO_SIZE(station, 4); POMARISCO_AT(station, own, 0); POMARISCO_AT(station, master, 2);
POMARISCO_SIZE(restarted, 112); POMARISCO_AT(restarted, head, 0); POMARISCO_AT(restarted, refusal, 104);
POMARISCO_SIZE(took, 112); POMARISCO_AT(took, head, 0); POMARISCO_AT(took, refusal, 104);
POMARISCO_SIZE(table_took, 120); POMARISCO_AT(table_took, taken, 0); POMARISCO_AT(table_took, head, 8); POMARISCO_AT(table_took, refusal, 112);
POMARISCO_SIZE(crob, 16); POMARISCO_AT(crob, on_time, 0); POMARISCO_AT(crob, off_time, 4); POMARISCO_AT(crob, index, 8); POMARISCO_AT(crob, code, 10); POMARISCO_AT(crob, count, 11); POMARISCO_AT(crob, status, 12);
POMARISCO_SIZE(crobs, 136); POMARISCO_AT(crobs, items, 0); POMARISCO_AT(crobs, count, 128);
POMARISCO_SIZE(analog_command, 8); POMARISCO_AT(analog_command, bits, 0); POMARISCO_AT(analog_command, index, 4); POMARISCO_AT(analog_command, kind, 6); POMARISCO_AT(analog_command, status, 7);
POMARISCO_SIZE(analog_commands, 72); POMARISCO_AT(analog_commands, items, 0); POMARISCO_AT(analog_commands, count, 64);
POMARISCO_SIZE(operated, 208); POMARISCO_AT(operated, crobs, 0); POMARISCO_AT(operated, analog_commands, 136);
POMARISCO_SIZE(fragment_answer, 16); POMARISCO_AT(fragment_answer, length, 0); POMARISCO_AT(fragment_answer, kind, 8); POMARISCO_AT(fragment_answer, refusal, 9);
POMARISCO_SIZE(answer, 328); POMARISCO_AT(answer, head, 0); POMARISCO_AT(answer, operated, 104); POMARISCO_AT(answer, answer, 312);
POMARISCO_SIZE(wrote, 16); POMARISCO_AT(wrote, size, 0); POMARISCO_AT(wrote, refusal, 8);
POMARISCO_SIZE(frame, 16); POMARISCO_AT(frame, length, 0); POMARISCO_AT(frame, destination, 8); POMARISCO_AT(frame, source, 10); POMARISCO_AT(frame, control, 12); POMARISCO_AT(frame, refusal, 13); POMARISCO_AT(frame, block, 14);
POMARISCO_SIZE(receiver, 304); POMARISCO_AT(receiver, kept, 0); POMARISCO_AT(receiver, bytes, 8);
POMARISCO_SIZE(piece, 40); POMARISCO_AT(piece, taken, 0); POMARISCO_AT(piece, kept, 8); POMARISCO_AT(piece, frame, 16); POMARISCO_AT(piece, waits, 32);
POMARISCO_SIZE(line, 46); POMARISCO_AT(line, accepted, 0); POMARISCO_AT(line, short_frame, 2); POMARISCO_AT(line, start, 4); POMARISCO_AT(line, header_check, 6); POMARISCO_AT(line, length, 8); POMARISCO_AT(line, block_check, 10); POMARISCO_AT(line, not_taken, 12); POMARISCO_AT(line, blocks, 14);
POMARISCO_SIZE(taken, 16); POMARISCO_AT(taken, length, 0); POMARISCO_AT(taken, control, 8); POMARISCO_AT(taken, kind, 9); POMARISCO_AT(taken, refusal, 10); POMARISCO_AT(taken, block, 11);
POMARISCO_SIZE(assembly, 24); POMARISCO_AT(assembly, length, 0); POMARISCO_AT(assembly, last_length, 8); POMARISCO_AT(assembly, last, 16); POMARISCO_AT(assembly, last_fir, 17); POMARISCO_AT(assembly, begun, 18);
POMARISCO_SIZE(segment, 16); POMARISCO_AT(segment, length, 0); POMARISCO_AT(segment, kind, 8); POMARISCO_AT(segment, refusal, 9);
POMARISCO_SIZE(reception, 40); POMARISCO_AT(reception, assembly, 0); POMARISCO_AT(reception, segment, 24);
POMARISCO_SIZE(sender, 16); POMARISCO_AT(sender, at, 0); POMARISCO_AT(sender, next, 8);
POMARISCO_SIZE(sent, 16); POMARISCO_AT(sent, size, 0); POMARISCO_AT(sent, last, 8); POMARISCO_AT(sent, refusal, 9);
POMARISCO_SIZE(sending, 32); POMARISCO_AT(sending, sender, 0); POMARISCO_AT(sending, sent, 16);
#undef POMARISCO_AT
#undef POMARISCO_SIZE
#undef POMARISCO_IS

/* ---- the exported calls. Arrays of the state are those of one outstation, of its lengths */

#ifdef __cplusplus
extern "C" {
#endif

/* A fresh outstation: a restart keeps only the setup, so the host keeps that. Binary i has the class classes[i], analog i is set up by
 * setups[i]. Writes the words of points and analog outputs, and leaves the other arrays: the head says that they are empty. Refusal 5: the head then
 * has no points and no outputs of either kind, and some words may be stored. The host also sets its receiver, its assembly and its sender to all 0; the
 * line record stays. */
struct pomarisco_restarted pomarisco_lent_restart(struct pomarisco_setup setup, const uint8_t *classes, size_t class_count, const struct pomarisco_analog_setup *setups, size_t setup_count, uint32_t *binaries, uint32_t *analogs, uint32_t *analog_outputs);

/* One reading. Changes the point, the held events with overflow, dropped_since, the clock. Refusals 1 to 4. */
struct pomarisco_took pomarisco_lent_reading(struct pomarisco_head head, uint32_t *binaries, uint32_t *analogs, uint64_t *events, struct pomarisco_reading reading);

/* A table of readings, each as if it came singly, up to the first refused one; that one and those after it change nothing. Refusals 1 to 4,
 * of the reading at `taken`. An empty table changes nothing. */
struct pomarisco_table_took pomarisco_lent_table(struct pomarisco_head head, uint32_t *binaries, uint32_t *analogs, uint64_t *events, const struct pomarisco_reading *readings, size_t count);

/* A fragment from the master at a time. Changes the held events with overflow, wait, last request and latch, restarted, the clock; not the
 * points and not the analog outputs. Writes the answer, at most 2,048 bytes. Hands over the objects that the host is to carry out. Refusals 1, 31 to 33.
 * out_length at least 2,048, else 33, whatever the fragment is. */
struct pomarisco_answer pomarisco_lent_fragment(struct pomarisco_head head, const uint32_t *binaries, const uint32_t *analogs, uint64_t *events, uint8_t *request, uint8_t *answer, uint8_t *latch_objects, const uint32_t *analog_outputs, uint64_t time, const uint8_t *fragment, size_t fragment_length, uint8_t *out, size_t out_length);

/* Writes a frame with this control byte, any addresses. Changes the lent bytes only. out_length at least 292, else 33; user_length at most
 * 250, else 16. */
struct pomarisco_wrote pomarisco_frame_write(uint8_t *out, size_t out_length, uint8_t control, uint16_t destination, uint16_t source, const uint8_t *user, size_t user_length);

/* Reads the frame at the front of the bytes, whoever it is for, and writes its user data; bytes after the frame are not read. Changes the
 * lent bytes only. Refusals 11 to 15, and 33 when out_length is under 250. 15 carries the first wrong block, 0 to 15: block k is user bytes
 * 16k to 16k + 15. */
struct pomarisco_frame pomarisco_frame_read(const uint8_t *bytes, size_t length, uint8_t *out, size_t out_length);

/* Takes a piece off the wire, of any size, up to its first frame or refusal: finds frames in what comes, whoever they are for. `memory` is 292
 * bytes, the same for each piece, as they were left; `kept` is what the call before gave, 0 at the start. `taken` bytes of the piece are done with:
 * give the rest again. Where it waits, all of the piece is taken. After 12, 13 or 14 it moves on one byte, after 15 and after a frame past the frame.
 * Writes a frame's user data; changes the memory. Refusals 12 to 15, and 33 when out_length is under 250: then nothing is taken and the memory
 * stays. The line record is left alone. Memory that holds no frame's beginning, as no call leaves it, is as nothing kept. */
struct pomarisco_piece pomarisco_piece_receive(uint8_t *memory, size_t kept, const uint8_t *piece, size_t piece_length, uint8_t *out, size_t out_length);

/* Takes the frame at the front of the bytes for the station, and counts it in the line record. Writes its user data; for a reply the
 * lent bytes stay. Refusals 11 to 15, 17, and 33 when out_length is under 250 (not counted). 15 carries the first wrong block, and is also
 * counted by it. */
struct pomarisco_taken pomarisco_link_receive(struct pomarisco_line *line, struct pomarisco_station station, const uint8_t *bytes, size_t length, uint8_t *out, size_t out_length);

/* Writes the reply frame that link_receive asked for: control 00 and 0B hex are sent as they are, any other control as NOT_SUPPORTED, 0F hex.
 * Changes the lent bytes only. out_length at least 292, else 33. */
struct pomarisco_wrote pomarisco_link_reply(uint8_t *out, size_t out_length, struct pomarisco_station station, uint8_t control);

/* Writes a frame of user data to the master (control 44 hex). As frame_write. */
struct pomarisco_wrote pomarisco_link_data(uint8_t *out, size_t out_length, struct pomarisco_station station, const uint8_t *user, size_t user_length);

/* Takes a segment into the fragment at the front of the lent bytes, behind what came before: lend the same bytes, as they were left, until it is
 * whole. Changes the assembly and those bytes. A repeat, a segment without FIR that equals the last one taken in every byte, changes neither: the
 * fragment goes on. Its data is compared with what stands in the lent bytes. Refusals 21 to 23, and 33 when out_length is under 2,048. */
struct pomarisco_reception pomarisco_segment_receive(struct pomarisco_assembly assembly, const uint8_t *segment, size_t segment_length, uint8_t *out, size_t out_length);

/* Writes the next segment of a fragment: call again with the sender given back, and the same fragment, until `last`. Changes the sender and
 * the lent bytes. A place at or past the fragment's end begins it anew. Refusal 16, and 33 when out_length is under 250. */
struct pomarisco_sending pomarisco_segment_send(struct pomarisco_sender sender, const uint8_t *fragment, size_t fragment_length, uint8_t *out, size_t out_length);

#ifdef __cplusplus
}
#endif

/* ---- numbers in words */

static inline uint32_t pomarisco_float_bits(float x) {
    uint32_t bits;
    memcpy(&bits, &x, sizeof bits);
    return bits;
}

static inline float pomarisco_bits_float(uint32_t bits) {
    float x;
    memcpy(&x, &bits, sizeof x);
    return x;
}

static inline int32_t pomarisco_bits_whole(uint32_t bits) {
    int32_t z;
    memcpy(&z, &bits, sizeof z);
    return z;
}

/* ---- readings, analog setups and analog outputs */

static inline struct pomarisco_reading pomarisco_reading_of(uint64_t time, uint16_t point, uint8_t kind, uint32_t bits, uint8_t flags) {
    struct pomarisco_reading r;
    r.time = time;
    r.bits = bits;
    r.point = point;
    r.kind = kind;
    r.flags = flags;
    return r;
}

static inline struct pomarisco_reading pomarisco_binary_reading(uint64_t time, uint16_t point, uint8_t state, uint8_t flags) {
    return pomarisco_reading_of(time, point, 0, state, flags);
}

static inline struct pomarisco_reading pomarisco_whole_reading(uint64_t time, uint16_t point, int32_t value, uint8_t flags) {
    return pomarisco_reading_of(time, point, 1, (uint32_t)value, flags);
}

static inline struct pomarisco_reading pomarisco_float_reading(uint64_t time, uint16_t point, float value, uint8_t flags) {
    return pomarisco_reading_of(time, point, 2, pomarisco_float_bits(value), flags);
}

static inline struct pomarisco_analog_setup pomarisco_point_of(uint8_t class_, uint8_t kind, uint32_t gain, uint32_t offset, uint8_t gate, uint32_t limit) {
    struct pomarisco_analog_setup a;
    a.limit = limit;
    a.gain = gain;
    a.offset = offset;
    a.class_ = class_;
    a.kind = kind;
    a.gate = gate;
    return a;
}

/* A point that shows whole readings in 32 bits. */
static inline struct pomarisco_analog_setup pomarisco_point_32(uint8_t class_, uint8_t gate, uint32_t limit) {
    return pomarisco_point_of(class_, 0, 0, 0, gate, limit);
}

/* A point that shows whole readings in 16 bits, clamped. */
static inline struct pomarisco_analog_setup pomarisco_point_16(uint8_t class_, uint8_t gate, uint32_t limit) {
    return pomarisco_point_of(class_, 1, 0, 0, gate, limit);
}

/* A point that shows float readings as reading * gain + offset. */
static inline struct pomarisco_analog_setup pomarisco_point_float(uint8_t class_, float gain, float offset, uint8_t gate, float limit) {
    return pomarisco_point_of(class_, 2, pomarisco_float_bits(gain), pomarisco_float_bits(offset), gate, pomarisco_float_bits(limit));
}

static inline struct pomarisco_analog_output pomarisco_output_of(uint8_t kind, uint32_t low, uint32_t high) {
    struct pomarisco_analog_output a;
    a.low = low;
    a.high = high;
    a.kind = kind;
    return a;
}

/* An analog output that takes 32-bit values from the first end to the second. */
static inline struct pomarisco_analog_output pomarisco_output_32(int32_t low, int32_t high) {
    return pomarisco_output_of(0, (uint32_t)low, (uint32_t)high);
}

/* One that takes 16-bit values. */
static inline struct pomarisco_analog_output pomarisco_output_16(int16_t low, int16_t high) {
    return pomarisco_output_of(1, (uint32_t)(int32_t)low, (uint32_t)(int32_t)high);
}

/* One that takes floats. */
static inline struct pomarisco_analog_output pomarisco_output_float(float low, float high) {
    return pomarisco_output_of(2, pomarisco_float_bits(low), pomarisco_float_bits(high));
}

/* ---- a look at the state. The structs here are this file's alone: the library has none of them */

struct pomarisco_event {           /* kind 0: a 32-bit value; 1: a 16-bit value; 2: a float's bits; 3: a binary's state, 0 or 1 */
    uint64_t time;
    uint32_t bits;                 /* for kinds 0 and 1 see pomarisco_bits_whole, for kind 2 pomarisco_bits_float */
    uint16_t point;
    uint8_t kind;
    uint8_t flags;                 /* without the state bit */
    uint8_t class_;
    uint8_t carried;               /* 1: in the response that awaits its confirmation */
};

struct pomarisco_binary {          /* state and flags as READ shows them, also before the first reading */
    uint8_t class_;
    uint8_t flags;
    uint8_t reported;              /* flags last reported */
    uint8_t seen;                  /* 1: there was a reading */
    uint8_t state;                 /* 0 or 1 */
};

struct pomarisco_analog {          /* value and flags as READ shows them, also before the first reading */
    uint32_t value;                /* bits, by the value's kind as in an event */
    uint32_t limit;
    uint32_t reported;             /* value last reported; this and the next two by the point's kind */
    uint32_t previous;
    uint32_t sum;                  /* of the distances since the last report */
    uint32_t gain;
    uint32_t offset;
    uint8_t class_;
    uint8_t flags;
    uint8_t reported_flags;
    uint8_t seen;                  /* 1: there was a reading */
    uint8_t value_kind;            /* 0: a 32-bit value; 1: a 16-bit value; 2: a float; from restart on the point's */
    uint8_t kind;                  /* 0: a 32-bit point; 1: a 16-bit point; 2: a float point */
    uint8_t gate;                  /* 0: never; 1: any change; 2: beyond the limit; 3: the sum beyond it */
};

/* A value's bits as they are shown: 16-bit values are clamped. */
static inline uint32_t pomarisco_value_bits(uint8_t kind, uint32_t bits) {
    const int32_t z = pomarisco_bits_whole(bits);
    return kind != 1 ? bits : z < -32768 ? (uint32_t)-32768 : z > 32767 ? 32767u : bits;
}

/* How many events are held. */
static inline size_t pomarisco_held(const struct pomarisco_outstation *o) {
    return o->head.event_count < POMARISCO_EVENTS ? o->head.event_count : POMARISCO_EVENTS;
}

/* Event i, from the oldest on; i below POMARISCO_EVENTS. */
static inline struct pomarisco_event pomarisco_event_at(const struct pomarisco_outstation *o, size_t i) {
    const uint64_t a = o->events[2 * i], b = o->events[2 * i + 1];
    const uint8_t kind = (uint8_t)(b >> 48);
    struct pomarisco_event e;
    e.time = a & (((uint64_t)1 << 48) - 1);
    e.point = (uint16_t)(a >> 48);
    e.kind = kind <= 3 ? kind : 2;
    e.bits = kind == 3 ? (uint32_t)((uint32_t)b != 0) : pomarisco_value_bits(kind, (uint32_t)b);
    e.flags = (uint8_t)(b >> 32);
    e.class_ = (uint8_t)(b >> 40);
    e.carried = b >> 56 != 0;
    return e;
}

/* Binary input i, below POMARISCO_BINARIES. */
static inline struct pomarisco_binary pomarisco_binary_at(const struct pomarisco_outstation *o, size_t i) {
    const uint32_t w = o->binaries[i];
    struct pomarisco_binary p;
    p.class_ = (uint8_t)w;
    p.flags = (uint8_t)(w >> 8);
    p.reported = (uint8_t)(w >> 16);
    p.seen = w >> 24 & 1;
    p.state = w >> 25 & 1;
    return p;
}

/* Analog input i, below POMARISCO_ANALOGS. */
static inline struct pomarisco_analog pomarisco_analog_at(const struct pomarisco_outstation *o, size_t i) {
    const uint32_t *w = o->analogs + 8 * i;
    struct pomarisco_analog p;
    p.class_ = (uint8_t)w[0];
    p.flags = (uint8_t)(w[0] >> 8);
    p.reported_flags = (uint8_t)(w[0] >> 16);
    p.seen = w[0] >> 24 & 1;
    p.value_kind = (w[0] >> 25 & 3) < 2 ? w[0] >> 25 & 3 : 2;
    p.kind = (w[0] >> 27 & 3) < 2 ? w[0] >> 27 & 3 : 2;
    p.gate = w[0] >> 29 & 3;
    p.value = pomarisco_value_bits(p.value_kind, w[1]);
    p.limit = w[2];
    p.reported = w[3];
    p.previous = w[4];
    p.sum = w[5];
    p.gain = w[6];
    p.offset = w[7];
    return p;
}

/* Analog output i, below POMARISCO_ANALOG_OUTPUTS, as a setup gives it; kind 2: float. */
static inline struct pomarisco_analog_output pomarisco_analog_output_at(const struct pomarisco_outstation *o, size_t i) {
    const uint32_t *w = o->analog_outputs + 3 * i;
    return pomarisco_output_of((uint8_t)(w[0] < 2 ? w[0] : 2), w[1], w[2]);
}

/* ---- what a host calls. As the exported calls, on one outstation in place; NULL with a length of 0 is taken */

/* Where nothing is lent any address will do. */
static inline const void *pomarisco_from(const void *p, size_t n, const void *some) { return n != 0 ? p : some; }
static inline uint8_t *pomarisco_to(uint8_t *p, size_t n, void *some) { return n != 0 ? p : (uint8_t *)some; }

/* Gives the refusal, 0 for none, as do the next two. After 5 *o has no points and no outputs of either kind. */
static inline uint8_t pomarisco_restart(struct pomarisco_outstation *o, struct pomarisco_setup setup, const uint8_t *classes, size_t class_count, const struct pomarisco_analog_setup *analogs, size_t analog_count) {
    const struct pomarisco_restarted r = pomarisco_lent_restart(setup, (const uint8_t *)pomarisco_from(classes, class_count, o), class_count, (const struct pomarisco_analog_setup *)pomarisco_from(analogs, analog_count, o), analog_count, o->binaries, o->analogs, o->analog_outputs);
    o->head = r.head;
    return r.refusal;
}

static inline uint8_t pomarisco_reading(struct pomarisco_outstation *o, struct pomarisco_reading reading) {
    const struct pomarisco_took r = pomarisco_lent_reading(o->head, o->binaries, o->analogs, o->events, reading);
    o->head = r.head;
    return r.refusal;
}

static inline uint8_t pomarisco_table(struct pomarisco_outstation *o, const struct pomarisco_reading *readings, size_t count, size_t *taken) {
    const struct pomarisco_table_took r = pomarisco_lent_table(o->head, o->binaries, o->analogs, o->events, (const struct pomarisco_reading *)pomarisco_from(readings, count, o), count);
    o->head = r.head;
    *taken = r.taken;
    return r.refusal;
}

static inline struct pomarisco_fragment_answer pomarisco_fragment(struct pomarisco_outstation *o, uint64_t time, const uint8_t *fragment, size_t fragment_length, uint8_t *out, size_t out_length, struct pomarisco_operated *operated) {
    const struct pomarisco_answer r = pomarisco_lent_fragment(o->head, o->binaries, o->analogs, o->events, o->request, o->answer, o->latch_objects, o->analog_outputs, time, (const uint8_t *)pomarisco_from(fragment, fragment_length, o), fragment_length, pomarisco_to(out, out_length, o), out_length);
    o->head = r.head;
    *operated = r.operated;
    return r.answer;
}

/* The calls of the line that may be lent nothing; receiver, assembly and sender in place. */
static inline struct pomarisco_taken pomarisco_link_receive_at(struct pomarisco_line *line, struct pomarisco_station station, const uint8_t *bytes, size_t length, uint8_t *out, size_t out_length) {
    uint8_t none[2] = {0, 0};
    return pomarisco_link_receive(line, station, (const uint8_t *)pomarisco_from(bytes, length, none), length, pomarisco_to(out, out_length, none + 1), out_length);
}

static inline struct pomarisco_piece pomarisco_piece_receive_at(struct pomarisco_receiver *receiver, const uint8_t *piece, size_t piece_length, uint8_t *out, size_t out_length) {
    uint8_t none[2] = {0, 0};
    const struct pomarisco_piece r = pomarisco_piece_receive(receiver->bytes, receiver->kept, (const uint8_t *)pomarisco_from(piece, piece_length, none), piece_length, pomarisco_to(out, out_length, none + 1), out_length);
    receiver->kept = r.kept;
    return r;
}

static inline struct pomarisco_segment pomarisco_segment_receive_at(struct pomarisco_assembly *assembly, const uint8_t *segment, size_t segment_length, uint8_t *out, size_t out_length) {
    uint8_t none[2] = {0, 0};
    const struct pomarisco_reception r = pomarisco_segment_receive(*assembly, (const uint8_t *)pomarisco_from(segment, segment_length, none), segment_length, pomarisco_to(out, out_length, none + 1), out_length);
    *assembly = r.assembly;
    return r.segment;
}

static inline struct pomarisco_sent pomarisco_segment_send_at(struct pomarisco_sender *sender, const uint8_t *fragment, size_t fragment_length, uint8_t *out, size_t out_length) {
    uint8_t none[2] = {0, 0};
    const struct pomarisco_sending r = pomarisco_segment_send(*sender, (const uint8_t *)pomarisco_from(fragment, fragment_length, none), fragment_length, pomarisco_to(out, out_length, none + 1), out_length);
    *sender = r.sender;
    return r.sent;
}

#endif
