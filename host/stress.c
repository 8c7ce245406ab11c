/* Random calls in one long run over the exported calls, every array that is lent in a heap block of its exact size: for sanitizers and valgrind.
 * `stress SEED N` prints, every 100,000 calls, a number into which the answer, every lent byte and the head after each call are folded, and every
 * 1,000 calls the whole state; then how many calls came to what. `pair --stress SEED N` (host/rust) prints the same from the second program.
 * Frames to be read are frames that were written, changed or not; pieces off the wire are cut from them, with noise between.
 *
 * host/rust/src/stress.rs makes the same calls in the same order. Who changes one changes the other. */
#include <inttypes.h>
#include <stdio.h>
#include <stdlib.h>
#include <string.h>

#include "pomarisco.h"

enum { WHOLE = 1000, LINE = 100000, MOST_POINTS = 264, MOST_READINGS = 300, MOST_BYTES = 4096, FILL = 0xA5 };
enum { CONFIRM = 38, OPERATE = 67 }; /* where a fragment's kinds begin, of 100 */
#define TIME_END ((uint64_t)1 << 48)
#define LENGTH(a) (sizeof(a) / sizeof((a)[0]))

/* Lent lengths: of an answer, an assembly, a frame to be written, user data or a segment. The first of each six is the usual one. */
static const size_t lengths[] = {
    2048, 0, 1, 2047, 2049, 4096, /* answer */
    2048, 0, 1, 2047, 2049, 4096, /* assembly */
    292, 0, 1, 291, 293, 400,     /* frame */
    250, 0, 1, 249, 251, 300,     /* user data */
};
enum { ANSWER = 0, ASSEMBLY = 6, FRAME_OUT = 12, USER_OUT = 18 };

static void *block(size_t n) {
    void *p = malloc(n);
    if (p == NULL) {
        fputs("stress: no memory\n", stderr);
        exit(2);
    }
    return p;
}

/* A copy in a block of its own. */
static void *copy(const void *from, size_t n) {
    void *p = block(n);
    if (n != 0) {
        memcpy(p, from, n);
    }
    return p;
}

/* ---- the random source, xorshift64* */

static uint64_t source;

static uint32_t any(void) {
    source ^= source << 13;
    source ^= source >> 7;
    source ^= source << 17;
    return (uint32_t)((source * 0x2545F4914F6CDD1Du) >> 32);
}

static uint32_t below(uint32_t n) { return (uint32_t)(((uint64_t)any() * n) >> 32); }

static int chance(uint32_t percent) { return below(100) < percent; }

#define PICK(...) pick((const uint32_t[]){__VA_ARGS__}, LENGTH(((const uint32_t[]){__VA_ARGS__})))
static uint32_t pick(const uint32_t *of, size_t n) { return of[below((uint32_t)n)]; }

/* ---- the sum */

static uint64_t sum;

static uint64_t folded(uint64_t from, uint64_t number) {
    const uint64_t mixed = (from ^ number) * 0x9E3779B97F4A7C15u;
    return mixed ^ (mixed >> 29);
}

static void fold(uint64_t number) { sum = folded(sum, number); }

/* The length, then eight bytes at a time, the last ones filled up with 0. */
static uint64_t folded_bytes(uint64_t from, const uint8_t *p, size_t n) {
    from = folded(from, n);
    for (size_t i = 0; i < n; i += 8) {
        uint8_t eight[8] = {0};
        memcpy(eight, p + i, n - i < 8 ? n - i : 8);
        uint64_t number = 0;
        for (int k = 7; k >= 0; k--) {
            number = number << 8 | eight[k];
        }
        from = folded(from, number);
    }
    return from;
}

static void fold_bytes(const uint8_t *p, size_t n) { sum = folded_bytes(sum, p, n); }

static uint8_t truth(uint8_t n) { return n != 0; }

static size_t least(size_t a, size_t b) { return a < b ? a : b; }

/* The one head that stands for all of the same meaning. */
static struct pomarisco_head plain_head(struct pomarisco_head h) {
    h.binary_count = least(h.binary_count, POMARISCO_BINARIES);
    h.analog_count = least(h.analog_count, POMARISCO_ANALOGS);
    h.event_count = least(h.event_count, POMARISCO_EVENTS);
    h.analog_outputs = (uint16_t)least(h.analog_outputs, POMARISCO_ANALOG_OUTPUTS);
    h.overflow = truth(h.overflow);
    h.restarted = truth(h.restarted);
    h.waiting = truth(h.waiting);
    if (h.waiting == 0) {
        h.wait_time = 0;
        h.wait_sequence = h.showed_overflow = h.dropped_since = 0;
    }
    h.showed_overflow = truth(h.showed_overflow);
    h.dropped_since = truth(h.dropped_since);
    h.request_kept = truth(h.request_kept);
    if (h.request_kept == 0) {
        h.request_len = h.answer_len = 0;
    }
    h.request_len = least(h.request_len, POMARISCO_FRAGMENT);
    h.answer_len = least(h.answer_len, 113);
    h.latch_armed = (uint8_t)least(h.latch_armed, 2);
    if (h.latch_armed == 0) {
        h.latch_time = 0;
        h.latch_sequence = 0;
        h.latch_len = 0;
    }
    h.latch_len = least(h.latch_len, 109);
    return h;
}

static void fold_head(const struct pomarisco_head *h) {
    fold(h->arm_time);
    fold(h->confirm_time);
    fold(h->clock);
    fold(h->wait_time);
    fold(h->latch_time);
    fold(h->binary_count);
    fold(h->analog_count);
    fold(h->event_count);
    fold(h->request_len);
    fold(h->answer_len);
    fold(h->latch_len);
    fold(h->outputs);
    fold(h->overflow);
    fold(h->restarted);
    fold(h->waiting);
    fold(h->wait_sequence);
    fold(h->showed_overflow);
    fold(h->dropped_since);
    fold(h->request_kept);
    fold(h->latch_armed);
    fold(h->latch_sequence);
    fold(h->analog_outputs);
}

/* Every NaN's bits stand for the one NaN. */
static uint32_t plain_float(uint32_t bits) { return (bits & 0x7FFFFFFF) > 0x7F800000 ? 0x7FC00000 : bits; }

/* What is shown, by its kind: 0 a 32-bit number, 1 a 16-bit one, else a float. */
static uint32_t plain_value(uint32_t kind, uint32_t bits) {
    if (kind == 0) {
        return bits;
    }
    if (kind == 1) {
        const int32_t z = pomarisco_bits_whole(bits);
        return z < -32768 ? 0xFFFF8000 : z > 32767 ? 32767 : bits;
    }
    return plain_float(bits);
}

/* A point's first word; flags last reported before the first reading are not said. */
static uint32_t unseen_reported(uint32_t word) { return (word >> 24 & 1) == 0 ? word & 0xFF00FFFF : word; }

static void fold_analog(const uint32_t *w) {
    const uint32_t value_kind = w[0] >> 25 & 3, shown = value_kind < 2 ? value_kind : 2;
    const uint32_t point_kind = w[0] >> 27 & 3, kind = point_kind < 2 ? point_kind : 2;
    const uint32_t gate = w[0] >> 29 & 3;
    fold(unseen_reported((w[0] & 0x01FFFFFF) | shown << 25 | kind << 27 | gate << 29));
    fold(plain_value(shown, w[1]));
    fold(gate < 2 ? 0 : kind < 2 ? w[2] : plain_float(w[2]));
    for (int i = 3; i < 6; i++) {
        fold(kind < 2 ? w[i] : plain_float(w[i]));
    }
    for (int i = 6; i < 8; i++) {
        fold(kind < 2 ? 0 : plain_float(w[i]));
    }
}

static void fold_output(const uint32_t *w) {
    const uint32_t kind = w[0] < 2 ? w[0] : 2;
    fold(kind);
    for (int i = 1; i < 3; i++) {
        fold(kind < 2 ? w[i] : plain_float(w[i]));
    }
}

static void fold_event(const uint64_t *w) {
    const uint32_t bits = (uint32_t)w[1], kind = (uint32_t)(w[1] >> 48 & 0xFF), shown = kind < 4 ? kind : 2;
    const uint64_t number = shown == 3 ? bits != 0 : plain_value(shown, bits);
    fold(w[0]);
    fold(number | (w[1] & (uint64_t)0xFFFF << 32) | (uint64_t)shown << 48 | (uint64_t)(w[1] >> 56 != 0) << 56);
}

/* ---- the outstation, each array in a block of its own */

static struct pomarisco_head head;
static uint64_t *events;
static uint32_t *binaries, *analogs, *analog_outputs;
static uint8_t *request, *answer, *latch_objects;
static uint8_t *out[LENGTH(lengths)];

static void fold_arrays(const struct pomarisco_head *h) {
    for (size_t i = 0; i < h->binary_count; i++) {
        fold(unseen_reported(binaries[i] & 0x03FFFFFF));
    }
    for (size_t i = 0; i < h->analog_count; i++) {
        fold_analog(analogs + 8 * i);
    }
    for (size_t i = 0; i < h->analog_outputs; i++) {
        fold_output(analog_outputs + 3 * i);
    }
    for (size_t i = 0; i < h->event_count; i++) {
        fold_event(events + 2 * i);
    }
    fold_bytes(request, h->request_len);
    fold_bytes(answer, h->answer_len);
    fold_bytes(latch_objects, h->latch_len);
}

/* ---- a call and what it comes to */

enum kind { RESTART, READING, TABLE, FRAGMENT, FRAME_WRITE, LINK_DATA, LINK_REPLY, FRAME_READ, LINK_RECEIVE, SEGMENT, SEND, PIECE };

static struct {
    enum kind kind;
    struct pomarisco_setup setup;
    uint8_t classes[MOST_POINTS];
    struct pomarisco_analog_setup setups[MOST_POINTS];
    struct pomarisco_reading readings[MOST_READINGS];
    uint8_t bytes[MOST_BYTES];
    size_t class_count, setup_count, reading_count, length;
    uint64_t time;
    uint8_t control;
    uint16_t destination, source;
    size_t out; /* place in lengths */
} call;

static struct {
    uint8_t refusal, kind;
    size_t taken, length;
    uint64_t more; /* the sum of the other numbers: of a frame read, a line record, an assembly, segments sent, bytes kept */
    struct pomarisco_operated operated;
} result;

/* The line's state. The receiver's memory is in a block of its own. */
static struct pomarisco_station station;
static struct pomarisco_line line;
static uint8_t *received;
static size_t kept;
static struct pomarisco_assembly assembly;
static struct pomarisco_sender sender;

static uint64_t frame_sum(const struct pomarisco_frame *f) { return f->control | (uint64_t)f->block << 8 | (uint64_t)f->destination << 16 | (uint64_t)f->source << 32; }

/* The calls of frames, link and segments. */
static void line_call(void) {
    const size_t n = call.length, lent = lengths[call.out];
    uint8_t *bytes = copy(call.bytes, n), *to = out[call.out];
    if (call.kind == FRAME_READ) {
        const struct pomarisco_frame r = pomarisco_frame_read(bytes, n, to, lent);
        result.length = r.length;
        result.refusal = r.refusal;
        result.more = frame_sum(&r);
    } else if (call.kind == PIECE) {
        const struct pomarisco_piece r = pomarisco_piece_receive(received, kept, bytes, n, to, lent);
        kept = r.kept;
        result.taken = r.taken;
        result.length = r.frame.length;
        result.refusal = r.frame.refusal;
        result.kind = r.frame.refusal != 0 ? 2 : r.waits != 0;
        result.more = folded_bytes(frame_sum(&r.frame), received, least(kept, POMARISCO_FRAME));
    } else if (call.kind == LINK_RECEIVE) {
        const struct pomarisco_taken r = pomarisco_link_receive(&line, station, bytes, n, to, lent);
        result.kind = r.kind;
        result.length = r.length;
        result.refusal = r.refusal;
        const uint16_t counted[] = {line.accepted, line.short_frame, line.start, line.header_check, line.length, line.block_check, line.not_taken};
        result.more = folded(folded(0, r.control), r.block);
        for (size_t i = 0; i < LENGTH(counted); i++) {
            result.more = folded(result.more, counted[i]);
        }
        for (size_t k = 0; k < POMARISCO_BLOCKS; k++) {
            result.more = folded(result.more, line.blocks[k]);
        }
    } else if (call.kind == SEGMENT) {
        const struct pomarisco_reception r = pomarisco_segment_receive(assembly, bytes, n, to, lent);
        assembly = r.assembly;
        result.kind = r.segment.kind;
        result.length = r.segment.length;
        result.refusal = r.segment.refusal;
        result.more = assembly.begun | (uint64_t)assembly.last_fir << 8 | (uint64_t)assembly.last << 16 | (uint64_t)assembly.length << 24 | (uint64_t)assembly.last_length << 44;
    } else if (call.kind == SEND) {
        for (;;) {
            const struct pomarisco_sending r = pomarisco_segment_send(sender, bytes, n, to, lent);
            sender = r.sender;
            result.refusal = r.sent.refusal;
            if (result.refusal != 0) {
                break;
            }
            result.more = folded_bytes(folded(result.more, r.sent.size), to, lent);
            if (r.sent.last != 0) {
                break;
            }
        }
        result.more = folded(result.more, sender.next);
    } else {
        const struct pomarisco_wrote r = call.kind == LINK_DATA ? pomarisco_link_data(to, lent, station, bytes, n)
            : call.kind == LINK_REPLY                           ? pomarisco_link_reply(to, lent, station, call.control)
                                                                : pomarisco_frame_write(to, lent, call.control, call.destination, call.source, bytes, n);
        result.length = r.size;
        result.refusal = r.refusal;
    }
    free(bytes);
}

static void make_call(void) {
    memset(&result, 0, sizeof result);
    if (call.kind == RESTART) {
        uint8_t *classes = copy(call.classes, call.class_count);
        struct pomarisco_analog_setup *setups = copy(call.setups, call.setup_count * sizeof *setups);
        const struct pomarisco_restarted r = pomarisco_lent_restart(call.setup, classes, call.class_count, setups, call.setup_count, binaries, analogs, analog_outputs);
        head = r.head;
        result.refusal = r.refusal;
        station = (struct pomarisco_station){call.setup.own, call.setup.master};
        kept = 0;
        memset(&assembly, 0, sizeof assembly);
        memset(&sender, 0, sizeof sender);
        free(classes);
        free(setups);
    } else if (call.kind == READING) {
        const struct pomarisco_took r = pomarisco_lent_reading(head, binaries, analogs, events, call.readings[0]);
        head = r.head;
        result.refusal = r.refusal;
        result.taken = r.refusal == 0;
    } else if (call.kind == TABLE) {
        struct pomarisco_reading *readings = copy(call.readings, call.reading_count * sizeof *readings);
        const struct pomarisco_table_took r = pomarisco_lent_table(head, binaries, analogs, events, readings, call.reading_count);
        head = r.head;
        result.refusal = r.refusal;
        result.taken = r.taken;
        free(readings);
    } else if (call.kind != FRAGMENT) {
        line_call();
    } else {
        uint8_t *bytes = copy(call.bytes, call.length);
        const struct pomarisco_answer r = pomarisco_lent_fragment(head, binaries, analogs, events, request, answer, latch_objects, analog_outputs, call.time, bytes, call.length, out[call.out], lengths[call.out]);
        head = r.head;
        result.refusal = r.answer.refusal;
        result.kind = r.answer.kind;
        result.length = r.answer.length;
        result.operated = r.operated;
        free(bytes);
    }
    if (call.kind == RESTART && result.refusal != 0) {
        memset(&head, 0, sizeof head); /* there is no outstation */
    }
}

static void fold_result(void) {
    fold(call.kind);
    fold(result.refusal);
    fold(result.taken);
    if (call.kind >= FRAGMENT) {
        fold(result.kind);
        fold(result.length);
        fold(result.more);
        fold_bytes(out[call.out], lengths[call.out]);
        fold(result.operated.crobs.count);
        for (size_t i = 0; i < result.operated.crobs.count; i++) {
            const struct pomarisco_crob *c = &result.operated.crobs.items[i];
            fold(c->on_time);
            fold(c->off_time);
            fold(c->index);
            fold(c->code);
            fold(c->count);
            fold(c->status);
        }
        fold(result.operated.analog_commands.count);
        for (size_t i = 0; i < result.operated.analog_commands.count; i++) {
            const struct pomarisco_analog_command *c = &result.operated.analog_commands.items[i];
            fold(c->bits);
            fold(c->index);
            fold(c->kind);
            fold(c->status);
        }
    }
}

/* ---- counts */

enum count {
    RESTART_TAKEN,
    RESTART_REFUSED,
    READING_TAKEN,
    READING_TIME,
    READING_POINT,
    READING_FINITE,
    READING_FLAGS,
    TABLE_TAKEN,
    TABLE_STOPPED,
    TABLE_READINGS,
    FRAGMENT_TIME,
    FRAGMENT_SHAPE,
    CONFIRM_REFUSED,
    FRAGMENT_LENT,
    CONFIRM_ACCEPTED,
    REPEAT,
    READ_CON,
    READ_PLAIN,
    READ_FAULT,
    WRITE,
    SELECT_RELAYS,
    SELECT_SETS,
    SELECT_OTHER,
    OPERATE_RELAYS,
    OPERATE_SETS,
    OPERATE_OTHER,
    OPERATE_ZERO,
    OPERATE_VARIATION,
    OPERATE_GROUP,
    DIRECT_RELAYS,
    DIRECT_SETS,
    DIRECT_OTHER,
    NO_RESPONSE,
    OTHER_FUNCTION,
    RELAYS,
    SETS_32,
    SETS_16,
    SETS_FLOAT,
    FULL,
    DROPPED,
    CLEARED,
    LONG,
    LONGEST,
    FRAME_WRITTEN,
    FRAME_REFUSED,
    READ_FRAME,
    READ_REFUSED,
    LINK_USER,
    LINK_ASKS,
    LINK_REFUSED,
    SEGMENT_MORE,
    SEGMENT_AGAIN,
    SEGMENT_WHOLE,
    SEGMENT_REFUSED,
    SENT,
    SEND_REFUSED,
    PIECE_FRAME,
    PIECE_WAITS,
    PIECE_REFUSED,
    PIECE_LENT,
    COUNTS
};

static const char *const names[COUNTS] = {
    "restart taken",
    "restart refused 5",
    "reading taken",
    "reading refused 1",
    "reading refused 2",
    "reading refused 3",
    "reading refused 4",
    "table taken whole",
    "table stopped",
    "readings taken in tables",
    "fragment refused 1",
    "fragment refused 31",
    "CONFIRM refused 32",
    "fragment refused 33",
    "CONFIRM accepted",
    "repeat",
    "READ that awaits a CONFIRM",
    "READ without CON",
    "READ with a fault",
    "WRITE",
    "SELECT that armed the latch for relays",
    "SELECT that armed the latch for analog outputs",
    "SELECT that did not",
    "OPERATE of relays carried out",
    "OPERATE of analog outputs carried out",
    "OPERATE not carried out",
    "OPERATE with a zero of the other sign not carried out",
    "OPERATE with another variation not carried out",
    "OPERATE of the other group not carried out",
    "DIRECT OPERATE of relays carried out",
    "DIRECT OPERATE of analog outputs carried out",
    "DIRECT OPERATE not carried out",
    "DIRECT OPERATE NO RESPONSE",
    "another function",
    "relays' objects handed to the host",
    "32-bit set points handed to the host",
    "16-bit set points handed to the host",
    "float set points handed to the host",
    "256 events held after the call",
    "IIN2.3 set by the call",
    "IIN2.3 cleared by the call",
    "answer of over 2,000 bytes",
    "answer of 2,048 bytes",
    "frame written",
    "frame refused 16 or 33",
    "frame read",
    "frame read refused",
    "link_receive: user data",
    "link_receive: reply",
    "link_receive refused",
    "segment_receive: goes on",
    "segment_receive: a repeat ignored",
    "segment_receive: whole",
    "segment_receive refused",
    "fragment sent in segments",
    "segment_send refused",
    "piece_receive: frame",
    "piece_receive: waits",
    "piece_receive refused",
    "piece_receive refused 33",
};

static uint64_t counts[COUNTS];

/* ---- what the host knows */

static struct {
    uint64_t now; /* time of the last accepted call, or where times are to begin */
    int none;     /* a refused setup left no outstation */
    struct pomarisco_setup setup;
    uint8_t classes[POMARISCO_BINARIES];
    struct pomarisco_analog_setup setups[POMARISCO_ANALOGS];
    uint32_t binaries, analogs, outputs, analog_outputs;
    uint64_t arm_time, confirm_time;
    uint8_t states[64], kinds[64];
    uint32_t limits[64], given[64];
    uint8_t sequence;
    int waiting;
    uint8_t wait_sequence;
    uint64_t wait_time;
    int selected;
    uint8_t select_sequence;
    uint64_t select_time;
    uint8_t objects[POMARISCO_FRAGMENT], request[POMARISCO_FRAGMENT];
    size_t objects_length, request_length;
    enum count other; /* in what an OPERATE differs from the SELECT, where it is counted */
    uint32_t filling; /* calls left in which the buffer is to fill */
    uint8_t overflow;
    uint8_t frame[POMARISCO_FRAME]; /* the frame written last */
    size_t frame_length;
    int begun; /* a fragment is, and this sequence is next */
    uint8_t next_segment;
    uint8_t segment[POMARISCO_USER]; /* the segment taken last */
    size_t segment_length;
    uint8_t wire[POMARISCO_FRAME + 20]; /* what is still to come off the wire */
    size_t wire_length;
} host = {.none = 1};

#define FLOATS 0, 0x80000000, 0x3F800000, 0x3FC00000, 0x40000000, 0xBF800000, 0x42C80000, 0x7F7FFFFF, 0xFF7FFFFF, 0x00000001, 0x00800000, 0x3DCCCCCD
#define NOT_FINITE 0x7F800000, 0xFF800000, 0x7FC00000, 0x7F800001, 0xFFC12345
#define WHOLES 0, 100, 32767, 32768, 0xFFFF8000, 0xFFFF7FFF, 0x7FFFFFFF, 0x80000000, 0xFFFFFFFF
#define WHOLE_LIMITS 0, 1, 5, 100, 0x7FFFFFFF, 0xFFFFFFFF
#define FLOAT_LIMITS 0, 0x80000000, 0x3F000000, 0x3F800000, 0x41200000, 0x00000001, 0x7F7FFFFF
#define GAINS 0x3F800000, 0x3F800000, 0x40000000, 0x3DCCCCCD, 0xBF800000, 0x7F7FFFFF, 0x3F800001, 0
#define OFFSETS 0, 0, 0x80000000, 0x3F800000, 0xBF800002, 0x3DCCCCCD
#define CODES 0x01, 0x03, 0x04, 0x41, 0x81
#define PULSES 1, 100, 59999, 60000
#define NO_PULSES 0, 60001, 65536, 65537

/* Ends of analog outputs, by their kind. */
enum { ENDS = 8 };
static const uint32_t ends[3][ENDS][2] = {
    {{0x80000000, 0x7FFFFFFF}, {0, 0}, {0x80000000, 0x80000000}, {0x7FFFFFFF, 0x7FFFFFFF}, {0xFFFFFED4, 0xFFFFFF00}, {254, 257}, {0xFFFFFF9C, 100}, {0xFFFF0000, 65536}},
    {{0xFFFF8000, 32767}, {0, 0}, {0xFFFF8000, 0xFFFF8000}, {32767, 32767}, {0xFFFFFED4, 0xFFFFFF00}, {254, 257}, {0xFFFFFF9C, 100}, {0xFFFFFFFF, 1}},
    {{0xFF7FFFFF, 0x7F7FFFFF}, {0, 0x80000000}, {0x80000000, 0}, {0x3F800000, 0x3F800000}, {0x80000001, 0x00000001}, {0xBF800000, 0x3F800000}, {0xC2C80000, 0x42C80000}, {0, 0x3F800000}},
};

/* ---- restart */

static uint32_t some_points(void) {
    switch (below(5)) {
    case 0: return 0;
    case 1: return 1 + below(3);
    case 2: return below(65);
    default: return 64;
    }
}

static uint8_t some_class(void) { return chance(10) ? 0 : (uint8_t)(1 + below(3)); }

static struct pomarisco_analog_setup some_analog(void) {
    struct pomarisco_analog_setup a;
    memset(&a, 0, sizeof a);
    a.class_ = some_class();
    uint32_t kind = below(3);
    uint32_t gate = below(4);
    const uint32_t whole = PICK(WHOLE_LIMITS);
    const uint32_t real = PICK(FLOAT_LIMITS);
    a.limit = kind < 2 ? whole : real;
    a.gain = PICK(GAINS);
    a.offset = PICK(OFFSETS);
    /* Any other number is a float's, and any other the sum's. */
    if (kind == 2 && chance(20)) {
        kind = 2 + below(254);
    }
    if (gate == 3 && chance(20)) {
        gate = 3 + below(253);
    }
    a.kind = (uint8_t)kind;
    a.gate = (uint8_t)gate;
    return a;
}

static struct pomarisco_analog_output some_output(uint32_t kind) {
    const uint32_t *pair = ends[kind][below(ENDS)];
    /* Any other number is a float's. */
    if (kind == 2 && chance(20)) {
        kind = 2 + below(254);
    }
    return pomarisco_output_of((uint8_t)kind, pair[0], pair[1]);
}

/* Of all kinds, or all of one; those past the count are anything. */
static void some_outputs(struct pomarisco_setup *s) {
    const uint32_t one = below(6);
    for (uint32_t i = 0; i < POMARISCO_ANALOG_OUTPUTS; i++) {
        if (i < s->analog_output_count) {
            s->analog_outputs[i] = some_output(one < 3 ? one : below(3));
        } else {
            const uint32_t low = any(), high = any();
            s->analog_outputs[i] = pomarisco_output_of((uint8_t)below(256), low, high);
        }
    }
}

/* The first end above the second, one that 16 bits do not hold, or one that is not finite. */
static struct pomarisco_analog_output wrong_output(uint32_t fault) {
    const uint32_t by = below(1000), not_finite = PICK(NOT_FINITE), other = below(254);
    const int first = chance(50);
    if (fault == 15) {
        return pomarisco_output_of((uint8_t)below(3), 1, 0);
    }
    if (fault == 16) {
        return first ? pomarisco_output_of(1, 0xFFFF7FFF - by, 0) : pomarisco_output_of(1, 0, 32768 + by);
    }
    return pomarisco_output_of((uint8_t)(2 + other), first ? not_finite : 0, first ? 0x7F7FFFFF : not_finite);
}

static void some_restart(int broken) {
    call.kind = RESTART;
    /* Each count of the line record. */
    const uint16_t n = (uint16_t)PICK(0, 65530);
    line = (struct pomarisco_line){n, n, n, n, n, n, n, {n, n, n, n, n, n, n, n, n, n, n, n, n, n, n, n}};
    struct pomarisco_setup *s = &call.setup;
    s->arm_time = PICK(0, 1, 10, 1000, 64000);
    s->confirm_time = PICK(1, 10, 1000, 5000, 60000);
    const uint32_t own = below(65520);
    s->own = (uint16_t)own;
    s->master = (uint16_t)((own + 1 + below(100)) % 65520);
    s->outputs = (uint16_t)PICK(0, 1, 8, 16, 16);
    s->analog_output_count = (uint16_t)PICK(0, 1, 8, 16, 16);
    call.class_count = some_points();
    call.setup_count = some_points();
    const uint32_t fault = broken ? 1 + below(17) : 0;
    switch (fault) {
    case 1: call.class_count = 65 + below(MOST_POINTS - 64); break;
    case 2: call.setup_count = 65 + below(MOST_POINTS - 64); break;
    case 3: s->outputs = (uint16_t)(17 + below(65519)); break;
    case 4: s->own = (uint16_t)(65520 + below(16)); break;
    case 5: s->master = (uint16_t)(65520 + below(16)); break;
    case 6: s->master = s->own; break;
    case 7: s->arm_time = 64001 + below(1000); break;
    case 8: s->confirm_time = 0; break;
    case 9: s->confirm_time = 60001 + below(1000); break;
    case 14: s->analog_output_count = (uint16_t)(17 + below(65519)); break;
    default: break;
    }
    for (size_t i = 0; i < call.class_count; i++) {
        call.classes[i] = some_class();
    }
    for (size_t i = 0; i < call.setup_count; i++) {
        call.setups[i] = some_analog();
    }
    some_outputs(s);
    if (fault == 10 && call.class_count > 0) {
        const uint32_t place = below((uint32_t)call.class_count);
        call.classes[place] = (uint8_t)(4 + below(252));
    }
    if (fault > 10 && fault < 14 && call.setup_count > 0) {
        struct pomarisco_analog_setup *a = &call.setups[below((uint32_t)call.setup_count)];
        switch (fault) {
        case 11: a->class_ = (uint8_t)(4 + below(252)); break;
        case 12: a->gain = PICK(NOT_FINITE); break;
        default: a->limit = 0x80000001 + below(0x7FFFFFFF); break;
        }
    }
    if (fault > 14 && s->analog_output_count > 0) {
        const uint32_t place = below(s->analog_output_count);
        s->analog_outputs[place] = wrong_output(fault);
    }
}

/* With the setup that was taken last. */
static void same_restart(void) {
    call.kind = RESTART;
    call.setup = host.setup;
    call.class_count = host.binaries;
    call.setup_count = host.analogs;
    memcpy(call.classes, host.classes, sizeof host.classes);
    memcpy(call.setups, host.setups, sizeof host.setups);
}

static void restarted(void) {
    host.none = result.refusal != 0;
    if (host.none) {
        counts[RESTART_REFUSED]++;
        return;
    }
    counts[RESTART_TAKEN]++;
    host.setup = call.setup;
    memcpy(host.classes, call.classes, sizeof host.classes);
    memcpy(host.setups, call.setups, sizeof host.setups);
    host.binaries = (uint32_t)call.class_count;
    host.analogs = (uint32_t)call.setup_count;
    host.outputs = call.setup.outputs;
    host.analog_outputs = call.setup.analog_output_count;
    host.arm_time = call.setup.arm_time;
    host.confirm_time = call.setup.confirm_time;
    for (size_t i = 0; i < call.setup_count; i++) {
        host.kinds[i] = call.setups[i].kind;
        host.limits[i] = call.setups[i].limit;
    }
    memset(host.states, 0, sizeof host.states);
    memset(host.given, 0, sizeof host.given);
    host.waiting = 0;
    host.selected = 0;
    host.request_length = 0;
    host.begun = 0;
    host.wire_length = 0;
    host.filling = 0;
    host.overflow = 0;
    /* Mostly from 0; sometimes to the end of time. */
    switch (below(20)) {
    case 0: host.now = TIME_END - 1 - below(100000); break;
    case 1: host.now = (uint64_t)any() << 8; break;
    default: host.now = 0; break;
    }
}

/* ---- readings */

static uint64_t some_time(void) {
    const uint32_t which = below(1000);
    const uint64_t by = which < 10 ? 1 + below(3) : which < 12 ? any() : which < 700 ? 0 : which < 950 ? below(4) : which < 990 ? below(200) : below(100000);
    if (which < 10 && host.now >= by) {
        return host.now - by;
    }
    return which >= 10 && which < 12 ? TIME_END + by : host.now + by;
}

static uint32_t some_whole(size_t i) {
    const uint32_t last = host.given[i], limit = host.limits[i];
    switch (below(8)) {
    case 0: return last;
    case 1: return last + 1;
    case 2: return last - 1;
    case 3: return last + limit;
    case 4: return last + limit + 1;
    case 5: return last - limit - below(2);
    case 6: return PICK(WHOLES);
    default: return below(200);
    }
}

static uint32_t some_float(size_t i) {
    const uint32_t last = host.given[i];
    switch (below(9)) {
    case 0: return last;
    case 1: return last + 1;
    case 2: return last ^ 0x80000000;
    case 3: return host.limits[i];
    case 4: return 0x3F800000 + (below(64) << 17);
    case 5: return any();
    case 6: return chance(20) ? PICK(NOT_FINITE) : PICK(FLOATS);
    default: return PICK(FLOATS);
    }
}

static struct pomarisco_reading some_reading(uint64_t time) {
    uint32_t point, kind, bits;
    const uint32_t points = host.binaries + host.analogs;
    if (points == 0 || chance(1)) {
        const uint32_t low = below(70);
        point = PICK(low, low, 64, 255, 256, 65535);
        kind = below(4);
        bits = any();
    } else {
        const uint32_t place = below(points);
        if (place < host.binaries) {
            host.states[place] ^= (uint8_t)chance(70);
            point = place;
            kind = 0;
            const uint32_t on = PICK(1, 1, 2, 0x80000000);
            bits = host.states[place] ? on : 0;
        } else {
            point = place - host.binaries;
            if (host.kinds[point] < 2) {
                kind = 1;
                bits = some_whole(point);
            } else {
                kind = chance(10) ? 2 + below(254) : 2;
                bits = some_float(point);
            }
            host.given[point] = bits;
        }
    }
    if (chance(1)) {
        kind = below(4);
    }
    const uint32_t which = below(100);
    const uint32_t flags = which < 90 ? 1 : which < 99 ? below(32) : below(256);
    return pomarisco_reading_of(time, (uint16_t)point, (uint8_t)kind, bits, (uint8_t)flags);
}

/* One reading, or many. */
static void some_table(int many) {
    call.kind = many ? TABLE : READING;
    call.reading_count = 1;
    if (many) {
        switch (below(20)) {
        case 0: call.reading_count = 0; break;
        case 1: call.reading_count = 128; break;
        case 2: call.reading_count = below(300); break;
        default: call.reading_count = 1 + below(20); break;
        }
    }
    uint64_t time = some_time();
    for (size_t i = 0; i < call.reading_count; i++) {
        call.readings[i] = some_reading(time);
        if (i % 8 == 7) {
            time += below(2);
        }
    }
}

static void took(void) {
    if (call.kind == READING) {
        counts[result.refusal == 0 ? READING_TAKEN : result.refusal == 1 ? READING_TIME : result.refusal == 2 ? READING_POINT : result.refusal == 3 ? READING_FINITE : READING_FLAGS]++;
    } else {
        counts[result.refusal == 0 ? TABLE_TAKEN : TABLE_STOPPED]++;
        counts[TABLE_READINGS] += result.taken;
    }
    if (result.taken > 0) {
        host.now = call.readings[result.taken - 1].time;
    }
}

/* ---- fragments */

static void put(uint32_t byte) { call.bytes[call.length++] = (uint8_t)byte; }

static void put4(uint32_t number) {
    for (int i = 0; i < 4; i++) {
        put(number >> 8 * i & 0xFF);
    }
}

static void put_bytes(const uint8_t *from, size_t n) {
    memcpy(call.bytes + call.length, from, n);
    call.length += n;
}

static void begin(uint32_t function) {
    host.sequence = (host.sequence + 1) % 16;
    put(0xC0 | host.sequence);
    put(function);
}

static void put3(uint32_t group, uint32_t variation, uint32_t qualifier) {
    put(group);
    put(variation);
    put(qualifier);
}

static void some_header(void) {
    const uint32_t which = below(12);
    if (which < 7) {
        put3(60, which < 2 ? 1 : which < 4 ? 2 : which < 6 ? 3 : 4, 6);
        return;
    }
    if (which == 11) {
        if (chance(80)) {
            put3(60, 2, 6);
            return;
        }
        const uint32_t group = PICK(1, 2, 30, 32, 60, 80, 0);
        const uint32_t variation = below(6);
        put3(group, variation, PICK(0, 1, 6, 7, 8, 0x17, 0x28));
        return;
    }
    const int analog = which == 8 || which == 10;
    const uint32_t points = analog ? host.analogs : host.binaries;
    const uint32_t two = chance(50) ? 2 : 0;
    put(analog ? 30 : 1);
    put(analog ? 0 : two);
    if (which < 9) {
        put(6);
        return;
    }
    uint32_t start = 0, stop = 0;
    if (points > 0) {
        start = below(points);
        stop = start + below(points - start);
    }
    if (chance(4)) {
        stop = points;
    }
    if (chance(4)) {
        start = stop + 1;
    }
    if (chance(50)) {
        put3(0, start, stop);
    } else {
        put3(1, start, 0);
        put(stop);
        put(0);
    }
}

/* Mostly one that a pulse may have, often next to a limit. */
static uint32_t some_on_time(void) {
    const uint32_t pulse = PICK(PULSES);
    if (chance(85)) {
        return pulse;
    }
    const uint32_t none = PICK(NO_PULSES);
    return chance(60) ? none : any();
}

static void some_relays(void) {
    const uint32_t count = chance(50) ? 1 : 1 + below(8);
    const int wide = chance(40);
    put3(12, 1, wide ? 0x28 : 0x17);
    put(count);
    if (wide) {
        put(0);
    }
    const uint32_t most = host.outputs > 0 ? host.outputs : 1;
    const uint32_t base = below(most);
    for (uint32_t i = 0; i < count; i++) {
        uint32_t index = (base + i) % most;
        if (chance(3)) {
            index = PICK(0, 15, 16, 17, 255);
        }
        put(index);
        if (wide) {
            put(chance(2) ? 1 : 0);
        }
        uint32_t code = PICK(CODES);
        if (chance(3)) {
            code = below(256);
        }
        put(code);
        put(chance(3) ? below(4) : 1);
        put4(some_on_time());
        put4(below(1000));
        put(chance(2) ? below(256) : 0);
    }
}

static uint32_t output_kind(uint32_t place) {
    const uint8_t kind = host.setup.analog_outputs[place].kind;
    return kind < 2 ? kind : 2;
}

/* A float: mostly an end of its output or a zero within them. */
static uint32_t some_set_float(uint32_t low, uint32_t high) {
    const int inside = chance(90);
    const uint32_t which = below(8);
    if (inside) {
        const int zero = pomarisco_bits_float(low) <= 0.0f && 0.0f <= pomarisco_bits_float(high);
        return which < 2 || (which >= 4 && !zero) ? low : which < 4 ? high : PICK(0, 0x80000000);
    }
    switch (which) {
    case 0: return low - 1;
    case 1: return low + 1;
    case 2: return high - 1;
    case 3: return high + 1;
    case 4: return low ^ 0x80000000;
    case 5: return PICK(NOT_FINITE);
    case 6: return PICK(FLOATS);
    default: return any();
    }
}

/* A whole value: mostly within the ends of its output, often an end; else next to one, or one that is cut to 16 bits. */
static uint32_t some_set_whole(uint32_t low, uint32_t high) {
    const int inside = chance(90);
    const uint32_t which = below(8);
    if (inside) {
        return which < 2 ? low : which < 4 ? high : low + below(high - low + 1);
    }
    switch (which) {
    case 0:
    case 1: return low - 1;
    case 2:
    case 3: return high + 1;
    case 4: return low ^ 0x8000;
    case 5: return 0 - high;
    case 6: return high + 65536;
    default: return any();
    }
}

/* The next output of this kind; where there is no other, the same. */
static uint32_t next_alike(uint32_t place, uint32_t kind) {
    for (uint32_t i = 1; i < host.analog_outputs; i++) {
        const uint32_t next = (place + i) % host.analog_outputs;
        if (output_kind(next) == kind) {
            return next;
        }
    }
    return place;
}

/* Mostly for different outputs of the header's kind. */
static void some_set_points(void) {
    const uint32_t count = chance(50) ? 1 : 1 + below(8);
    const int wide = chance(40);
    const uint32_t most = host.analog_outputs > 0 ? host.analog_outputs : 1;
    uint32_t place = below(most), kind = below(3);
    if (host.analog_outputs > 0 && chance(97)) {
        kind = output_kind(place);
    }
    put3(41, kind + 1, wide ? 0x28 : 0x17);
    put(count);
    if (wide) {
        put(0);
    }
    for (uint32_t i = 0; i < count; i++) {
        uint32_t index = place;
        if (chance(3)) {
            index = PICK(0, 15, 16, 17, 255);
        }
        put(index);
        if (wide) {
            put(chance(2) ? 1 : 0);
        }
        uint32_t bits = any();
        if (index < host.analog_outputs) {
            const struct pomarisco_analog_output *o = &host.setup.analog_outputs[index];
            bits = kind == 2 ? some_set_float(o->low, o->high) : some_set_whole(o->low, o->high);
        }
        put(bits & 0xFF);
        put(bits >> 8 & 0xFF);
        if (kind != 1) {
            put(bits >> 16 & 0xFF);
            put(bits >> 24);
        }
        put(chance(2) ? below(256) : 0);
        place = next_alike(place, kind);
    }
}

static void some_control(void) {
    if (chance(host.analog_outputs > 0 ? 50 : 8)) {
        some_set_points();
    } else {
        some_relays();
    }
}

/* The selected objects as with qualifier 28: they are not those selected. */
static void widened(void) {
    const size_t each = host.objects[0] == 12 ? 12 : host.objects[1] == 2 ? 4 : 6;
    for (size_t i = 0; i < host.objects_length; i++) {
        put(i == 2 ? 0x28 : host.objects[i]);
        /* After the count and after each index. */
        if (i >= 3 && (i == 3 || (i - 4) % each == 0)) {
            put(0);
        }
    }
}

/* The selected objects, each float zero with the other sign. */
static void other_zeros(void) {
    put_bytes(host.objects, host.objects_length);
    const size_t width = host.objects[2] == 0x17 ? 1 : 2, each = width + 5;
    for (size_t at = 5 + width; host.objects[0] == 41 && host.objects[1] == 3 && at + each <= call.length; at += each) {
        uint8_t *value = call.bytes + at + width;
        if ((value[0] | value[1] | value[2] | (value[3] & 0x7F)) == 0) {
            value[3] ^= 0x80;
            host.other = OPERATE_ZERO;
        }
    }
}

/* The selected objects under the other variation of that size, where there is one. */
static void other_variation(void) {
    put_bytes(host.objects, host.objects_length);
    if (host.objects[0] == 41 && (host.objects[1] == 1 || host.objects[1] == 3)) {
        call.bytes[3] ^= 2;
        host.other = OPERATE_VARIATION;
    }
}

static void other_group(void) {
    host.other = OPERATE_GROUP;
    if (host.objects[0] == 12) {
        some_set_points();
    } else {
        some_relays();
    }
}

/* The OPERATE of what was selected, or one that differs from it. */
static void selected(void) {
    const uint32_t how = host.objects_length > 3 ? below(100) : 100;
    if (how < 4 && host.objects[2] == 0x17) {
        widened();
    } else if (how >= 4 && how < 8) {
        other_group();
    } else if (how >= 8 && how < 20) {
        other_zeros();
    } else if (how >= 20 && how < 24) {
        other_variation();
    } else {
        put_bytes(host.objects, host.objects_length);
    }
}

/* A time next to the end of what is awaited, where that is still to come. */
static void at_end(uint64_t since, uint64_t limit) {
    const uint32_t which = below(10);
    const uint64_t end = since + limit + (which < 2 ? 0 : 1);
    if (which < 4 && end >= host.now) {
        call.time = end;
    }
}

/* One call in so many is lent another length. */
static void lend(size_t first, uint32_t one_in) {
    call.out = first;
    if (below(one_in) == 0) {
        call.out += 1 + below(5);
    }
}

static void some_fragment(void) {
    call.kind = FRAGMENT;
    call.time = some_time();
    host.other = COUNTS;
    uint32_t which = below(100);
    /* What is awaited comes soon, as a master would send it. */
    if (host.waiting && chance(30)) {
        which = CONFIRM;
    } else if (host.selected && chance(30)) {
        which = OPERATE;
    }
    if (which < CONFIRM) {
        begin(1);
        const int few = chance(80);
        const uint32_t headers = few ? 1 + below(3) : below(18);
        for (uint32_t i = 0; i < headers; i++) {
            some_header();
        }
    } else if (which <= 44) {
        uint32_t control = 0xC0u | host.wait_sequence;
        if (!host.waiting || chance(8)) {
            control = 0xC0u | below(32);
        }
        put(control);
        put(0);
        if (chance(1)) {
            put(0);
        }
        if (host.waiting) {
            at_end(host.wait_time, host.confirm_time);
        }
    } else if (which <= 50) {
        begin(2);
        put3(80, 1, 0);
        put3(7, 7, 0);
        if (chance(25)) {
            const uint32_t place = 2 + below(6);
            call.bytes[place] = (uint8_t)below(256);
        }
    } else if (which < OPERATE) {
        begin(3);
        some_control();
    } else if (which <= 72) {
        if (host.selected) {
            host.sequence = (host.select_sequence + 1) % 16;
            put(0xC0u | host.sequence);
            put(4);
            selected();
            at_end(host.select_time, host.arm_time);
        } else {
            begin(4);
            some_control();
        }
    } else if (which <= 80) {
        begin(chance(50) ? 5 : 6);
        some_control();
    } else if (which <= 90) {
        put_bytes(host.request, host.request_length);
    } else if (which <= 93) {
        begin(7 + below(121));
        const uint32_t n = below(20);
        for (uint32_t i = 0; i < n; i++) {
            put(below(256));
        }
    } else if (which <= 95) {
        const size_t length = PICK(0, 1, 2, 2047, 2048, 2049, 3000);
        begin(below(8));
        while (call.length < length) {
            put(below(256));
        }
        call.length = length;
    } else if (which <= 97) {
        put(below(256));
        put(below(256));
        const uint32_t n = below(30);
        for (uint32_t i = 0; i < n; i++) {
            put(below(256));
        }
    } else {
        /* The last request with one byte changed, or cut. */
        put_bytes(host.request, host.request_length);
        if (call.length > 0) {
            const uint32_t place = below((uint32_t)call.length);
            if (chance(50)) {
                call.bytes[place] ^= (uint8_t)(1u << below(8));
            } else {
                call.length = place;
            }
        }
    }
    lend(ANSWER, 60);
}

static void answered(void) {
    if (result.kind == 3) {
        counts[result.refusal == 1 ? FRAGMENT_TIME : result.refusal == 31 ? FRAGMENT_SHAPE : result.refusal == 32 ? CONFIRM_REFUSED : FRAGMENT_LENT]++;
        return;
    }
    host.now = call.time;
    if (result.kind == 2) {
        host.waiting = 0;
        counts[CONFIRM_ACCEPTED]++;
        return;
    }
    const struct pomarisco_analog_commands *sets = &result.operated.analog_commands;
    const size_t relays = result.operated.crobs.count;
    counts[RELAYS] += relays;
    for (size_t i = 0; i < sets->count; i++) {
        counts[SETS_32 + least(sets->items[i].kind, 2)]++;
    }
    const uint8_t sequence = call.bytes[0] % 16, function = call.bytes[1];
    if (function != 1 && call.length == host.request_length && memcmp(call.bytes, host.request, call.length) == 0) {
        counts[REPEAT]++;
        return;
    }
    memcpy(host.request, call.bytes, call.length);
    host.request_length = call.length;
    host.sequence = sequence;
    host.waiting = 0;
    host.selected = 0;
    const int done = relays + sets->count > 0;
    if (result.length > 2000) {
        counts[LONG]++;
    }
    if (result.length == 2048) {
        counts[LONGEST]++;
    }
    const uint8_t *bytes = out[call.out];
    switch (function) {
    case 1:
        if (bytes[0] & 0x20) {
            host.waiting = 1;
            host.wait_sequence = sequence;
            host.wait_time = call.time;
            counts[READ_CON]++;
        } else {
            counts[(bytes[3] & 7) == 0 ? READ_PLAIN : READ_FAULT]++;
        }
        break;
    case 2: counts[WRITE]++; break;
    case 3:
        host.selected = 1;
        host.select_sequence = sequence;
        host.select_time = call.time;
        host.objects_length = call.length - 2;
        memcpy(host.objects, call.bytes + 2, host.objects_length);
        counts[head.latch_armed == 0 ? SELECT_OTHER : head.latch_armed == 1 ? SELECT_RELAYS : SELECT_SETS]++;
        break;
    case 4:
        counts[!done ? OPERATE_OTHER : relays > 0 ? OPERATE_RELAYS : OPERATE_SETS]++;
        if (!done && host.other != COUNTS) {
            counts[host.other]++;
        }
        break;
    case 5: counts[!done ? DIRECT_OTHER : relays > 0 ? DIRECT_RELAYS : DIRECT_SETS]++; break;
    case 6: counts[NO_RESPONSE]++; break;
    default: counts[OTHER_FUNCTION]++; break;
    }
}

/* ---- the line */

static void put_some(uint32_t count) {
    for (uint32_t i = 0; i < count; i++) {
        put(below(256));
    }
}

static void some_frame(void) {
    const uint32_t which = below(10);
    call.kind = which == 0 ? LINK_DATA : which == 1 ? LINK_REPLY : FRAME_WRITE;
    const uint32_t other = below(256);
    const uint32_t some = 1 + below(250);
    uint32_t control = 0xC4, count = some;
    /* User data, a request that has none, or any. */
    switch (below(4)) {
    case 0:
    case 1: break;
    case 2:
        control = PICK(0xC0, 0xC9, 0xC2);
        count = 0;
        break;
    default:
        control = PICK(0xC4, 0xC0, 0xD4, 0x84, 0x44, 0x0B, 0x00, other);
        count = PICK(0, 1, 15, 16, 17, 249, 250, 251, 300);
        break;
    }
    call.control = (uint8_t)control;
    /* As a master writes it. */
    call.destination = host.setup.own;
    call.source = host.setup.master;
    if (chance(4)) {
        call.destination = (uint16_t)below(65536);
    }
    if (chance(4)) {
        call.source = (uint16_t)below(65536);
    }
    put_some(count);
    lend(FRAME_OUT, 20);
}

static void same_frame(void) {
    call.kind = chance(30) ? FRAME_READ : LINK_RECEIVE;
    put_bytes(host.frame, host.frame_length);
    const uint32_t length = (uint32_t)call.length;
    if (length > 0 && chance(25)) {
        /* One bit turned, or two: in two blocks the first decides. */
        for (int turned = chance(20) ? 2 : 1; turned > 0; turned--) {
            const uint32_t place = below(length);
            call.bytes[place] ^= (uint8_t)(1u << below(8));
        }
    }
    if (chance(8)) {
        call.length = below(length + 1);
    }
    if (chance(10)) {
        put_some(3);
    }
    lend(USER_OUT, 20);
}

/* The segment taken last, as it was, with one bit turned, with another FIR or FIN, or without its first byte of data. */
static void same_segment(void) {
    put_bytes(host.segment, host.segment_length);
    const uint32_t length = (uint32_t)call.length;
    if (chance(15)) {
        const uint32_t place = below(length);
        call.bytes[place] ^= (uint8_t)(1u << below(8));
    } else if (chance(10)) {
        call.bytes[0] ^= (uint8_t)PICK(0x40, 0x80);
    } else if (length > 2 && chance(10)) {
        call.length--;
        memmove(call.bytes + 1, call.bytes + 2, call.length - 1);
    }
    lend(ASSEMBLY, 30);
}

static void some_segment(void) {
    call.kind = SEGMENT;
    if (host.segment_length > 0 && chance(20)) {
        same_segment();
        return;
    }
    uint32_t sequence = host.next_segment;
    if (chance(2)) {
        sequence = below(64);
    }
    const int first = host.begun ? chance(1) : chance(95);
    const int last = chance(12);
    put(sequence | (first ? 0x40 : 0) | (last ? 0x80 : 0));
    const uint32_t some = 1 + below(249);
    put_some(PICK(249, 249, 249, 249, 249, some, some, some));
    if (chance(3)) {
        call.length = PICK(0, 1);
    } else if (chance(2)) {
        put_some(249);
    }
    lend(ASSEMBLY, 30);
}

/* Noise that may look like a start, then the frame written last, changed or not. */
static void line_comes(void) {
    const uint32_t noise = chance(30) ? below(20) : 0;
    for (uint32_t i = 0; i < noise; i++) {
        const uint32_t other = below(256);
        host.wire[i] = (uint8_t)PICK(0x05, 0x05, 0x64, 0x64, other);
    }
    memcpy(host.wire + noise, host.frame, host.frame_length);
    host.wire_length = noise + host.frame_length;
    if (host.frame_length > 0 && chance(25)) {
        const uint32_t place = below((uint32_t)host.frame_length);
        host.wire[noise + place] ^= (uint8_t)(1u << below(8));
    }
}

static void some_piece(void) {
    call.kind = PIECE;
    if (host.wire_length == 0) {
        line_comes();
    }
    const uint32_t length = (uint32_t)host.wire_length;
    const uint32_t some = below(length + 1);
    const uint32_t few = below(12);
    const uint32_t size = PICK(length, length, some, few, 1);
    put_bytes(host.wire, least(size, length));
    lend(USER_OUT, 20);
}

static void some_line(void) {
    const uint32_t which = below(14);
    if (which < 3) {
        some_frame();
    } else if (which < 6) {
        same_frame();
    } else if (which < 9) {
        some_segment();
    } else if (which < 13) {
        some_piece();
    } else {
        call.kind = SEND;
        const uint32_t some = below(2049);
        put_some(PICK(0, 1, 249, 250, 498, some, some, 2048, 2049, 3000));
        lend(USER_OUT, 20);
    }
}

static void heard(void) {
    const int refused = result.refusal != 0;
    switch (call.kind) {
    case FRAME_READ: counts[refused ? READ_REFUSED : READ_FRAME]++; break;
    case LINK_RECEIVE: counts[result.kind == 0 ? LINK_USER : result.kind == 1 ? LINK_ASKS : LINK_REFUSED]++; break;
    case SEGMENT: {
        /* Of the last sequence again, and without FIR: nothing else of it goes on. */
        const uint8_t first = call.length > 0 ? call.bytes[0] : 0;
        const int again = (first & 0x40) == 0 && (first % 64 + 1) % 64 == host.next_segment;
        counts[result.kind == 0 ? again ? SEGMENT_AGAIN : SEGMENT_MORE : result.kind == 1 ? SEGMENT_WHOLE : SEGMENT_REFUSED]++;
        /* 21 and 33 leave what is begun. */
        if (result.refusal != 21 && result.refusal != 33) {
            host.begun = result.kind == 0;
        }
        if (!refused) {
            host.next_segment = (call.bytes[0] % 64 + 1) % 64;
            host.segment_length = call.length;
            memcpy(host.segment, call.bytes, call.length);
        }
        break;
    }
    case SEND: counts[refused ? SEND_REFUSED : SENT]++; break;
    case PIECE:
        counts[result.kind == 0 ? PIECE_FRAME : result.kind == 1 ? PIECE_WAITS : result.refusal == 33 ? PIECE_LENT : PIECE_REFUSED]++;
        host.wire_length -= result.taken;
        memmove(host.wire, host.wire + result.taken, host.wire_length);
        break;
    default:
        if (refused) {
            counts[FRAME_REFUSED]++;
            break;
        }
        host.frame_length = result.length;
        memcpy(host.frame, out[call.out], result.length);
        counts[FRAME_WRITTEN]++;
        break;
    }
}

/* ---- the run */

static void some_call(void) {
    call.class_count = call.setup_count = call.reading_count = call.length = call.out = 0;
    if (host.none) {
        some_restart(0);
        return;
    }
    const uint32_t which = below(1000);
    if (which == 0) {
        if (chance(20)) {
            same_restart();
        } else {
            some_restart(chance(30));
        }
        return;
    }
    if (host.filling == 0 && below(2000) == 0) {
        host.filling = 200 + below(600);
    }
    if (host.filling > 0) {
        host.filling--;
    }
    if (host.filling > 0 && which < 960) {
        some_table(which < 100);
    } else if (which < 480) {
        some_table(0);
    } else if (which < 510) {
        some_table(1);
    } else if (which < 570) {
        some_line();
    } else {
        some_fragment();
    }
}

static void came_to(const struct pomarisco_head *h) {
    switch (call.kind) {
    case RESTART: restarted(); break;
    case READING:
    case TABLE: took(); break;
    case FRAGMENT: answered(); break;
    default: heard(); break;
    }
    if (h->event_count == POMARISCO_EVENTS) {
        counts[FULL]++;
    }
    if (h->overflow > host.overflow) {
        counts[DROPPED]++;
    }
    if (h->overflow < host.overflow) {
        counts[CLEARED]++;
    }
    host.overflow = h->overflow;
}

int main(int argc, char **argv) {
    if (argc != 3) {
        fputs("usage: stress SEED N\n", stderr);
        return 2;
    }
    const uint64_t seed = strtoull(argv[1], NULL, 10), calls = strtoull(argv[2], NULL, 10);
    source = seed ^ 0x9E3779B97F4A7C15u;
    if (source == 0) {
        source = 1;
    }
    /* The contents that a restart leaves as they were must not matter. */
    events = memset(block(512 * sizeof *events), FILL, 512 * sizeof *events);
    binaries = memset(block(64 * sizeof *binaries), FILL, 64 * sizeof *binaries);
    analogs = memset(block(512 * sizeof *analogs), FILL, 512 * sizeof *analogs);
    analog_outputs = memset(block(48 * sizeof *analog_outputs), FILL, 48 * sizeof *analog_outputs);
    request = memset(block(2048), FILL, 2048);
    answer = memset(block(113), FILL, 113);
    latch_objects = memset(block(109), FILL, 109);
    received = memset(block(POMARISCO_FRAME), FILL, POMARISCO_FRAME);
    for (size_t i = 0; i < LENGTH(lengths); i++) {
        out[i] = memset(block(lengths[i]), FILL, lengths[i]);
    }
    for (uint64_t number = 1; number <= calls; number++) {
        some_call();
        make_call();
        const struct pomarisco_head h = plain_head(head);
        fold_result();
        fold_head(&h);
        if (number % WHOLE == 0 || number == calls) {
            fold_arrays(&h);
        }
        came_to(&h);
        if (number % LINE == 0 || number == calls) {
            printf("%" PRIu64 " %016" PRIX64 "\n", number, sum);
        }
    }
    for (int i = 0; i < COUNTS; i++) {
        printf("%10" PRIu64 "  %s\n", counts[i], names[i]);
    }
    free(events);
    free(binaries);
    free(analogs);
    free(analog_outputs);
    free(request);
    free(answer);
    free(latch_objects);
    free(received);
    for (size_t i = 0; i < LENGTH(lengths); i++) {
        free(out[i]);
    }
    return 0;
}
