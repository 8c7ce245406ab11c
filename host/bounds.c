/* What pomarisco.h says at its edges, from C: nothing lent as NULL, memory at any address up to the end of a page, a stack of POMARISCO_STACK
 * bytes, any content of the outstation, its analog outputs, the receiver and the assembly, set points at the ends, a segment heard twice, a line cut into
 * any pieces, two threads, and that the functions on an outstation do what the exported calls do. Ends with `N passed, M failed`. */
#define _GNU_SOURCE
#include <pthread.h>
#include <stdio.h>
#include <stdlib.h>
#include <string.h>
#include <sys/mman.h>
#include <ucontext.h>

#include "pomarisco.h"

enum { PAGE = 4096, TABLE = 128 };

static int passed, failed;

static void expect(int good, const char *what) {
    if (good) passed++;
    else {
        failed++;
        printf("FAILED %s\n", what);
    }
}

static struct pomarisco_setup setup = {.arm_time = 5000, .confirm_time = 5000, .own = 1, .master = 2, .outputs = 16, .analog_output_count = POMARISCO_ANALOG_OUTPUTS};
static const struct pomarisco_station station = {.own = 1, .master = 2};
static uint8_t classes[POMARISCO_BINARIES];
static struct pomarisco_analog_setup analogs[POMARISCO_ANALOGS];
static struct pomarisco_outstation full;
static struct pomarisco_reading table[TABLE];
static const uint8_t events[] = {0xC3, 0x01, 60, 2, 6, 60, 3, 6, 60, 4, 6, 60, 1, 6};
static uint8_t longest_frame[POMARISCO_FRAME];
static const uint8_t operate[] = {0xC4, 5, 12, 1, 0x17, 1, 5, 3, 1, 0, 0, 0, 0, 0, 0, 0, 0, 0};
static const uint8_t set[] = {0xC5, 5, 41, 2, 0x17, 2, 4, 0x18, 0xFC, 0, 7, 0xE8, 3, 0}; /* analog outputs 4 and 7: -1,000 and 1,000, their ends */

/* The same numbers throughout: the bytes between a struct's fields are nobody's. */
static int same_state(const struct pomarisco_outstation *a, const struct pomarisco_outstation *b) {
    const size_t from = offsetof(struct pomarisco_outstation, events), to = offsetof(struct pomarisco_outstation, latch_objects) + sizeof a->latch_objects;
    return memcmp(&a->head, &b->head, offsetof(struct pomarisco_head, latch_sequence) + 1) == 0 && a->head.analog_outputs == b->head.analog_outputs && memcmp((const uint8_t *)a + from, (const uint8_t *)b + from, to - from) == 0;
}

static size_t handed_over(const struct pomarisco_operated *o) { return o->crobs.count + o->analog_commands.count; }

/* Memory that ends where a page begins that may not be touched. */
static uint8_t *at_end(size_t n) {
    const size_t size = (n + PAGE - 1) / PAGE * PAGE;
    uint8_t *room = mmap(NULL, size + PAGE, PROT_READ | PROT_WRITE, MAP_PRIVATE | MAP_ANONYMOUS, -1, 0);
    if (room == MAP_FAILED || mprotect(room + size, PAGE, PROT_NONE) != 0) exit(2);
    return room + size - n;
}

/* All points and outputs there can be, of every kind, and all held places used. */
static int prepare(void) {
    for (int i = 0; i < POMARISCO_ANALOG_OUTPUTS; i++)
        setup.analog_outputs[i] = i % 3 == 0 ? pomarisco_output_32(-100000, 100000) : i % 3 == 1 ? pomarisco_output_16(-1000, 1000) : pomarisco_output_float(-1.5f, 1.5f);
    for (int i = 0; i < 64; i++) {
        classes[i] = (uint8_t)(1 + i % 3);
        analogs[i] = i % 3 == 0 ? pomarisco_point_32(1, POMARISCO_SUMMED, 5) : i % 3 == 1 ? pomarisco_point_16(1, POMARISCO_SUMMED, 5) : pomarisco_point_float(1, 2.5f, 0.25f, POMARISCO_SUMMED, 1.5f);
    }
    static const uint8_t user[POMARISCO_USER] = {0xC0, 0xC1, 0x17};
    if (pomarisco_frame_write(longest_frame, sizeof longest_frame, 0xC4, 1, 2, user, sizeof user).size != POMARISCO_FRAME) return 0;
    if (pomarisco_restart(&full, setup, classes, 64, analogs, 64) != 0) return 0;
    for (int round = 0; round < 6; round++) {
        size_t taken;
        for (int i = 0; i < TABLE; i++) {
            const uint16_t point = (uint16_t)(i % 64);
            const uint8_t flags = (uint8_t)round;
            table[i] = i < 64 ? pomarisco_binary_reading(1000, point, (uint8_t)(round % 2), flags) : point % 3 == 2 ? pomarisco_float_reading(1000, point, (float)(i * round), flags) : pomarisco_whole_reading(1000, point, i * 100 * round, flags);
        }
        if (pomarisco_table(&full, table, TABLE, &taken) != 0 || taken != TABLE) return 0;
    }
    return full.head.event_count == POMARISCO_EVENTS && full.head.overflow == 1;
}

/* ---- nothing lent, as NULL */

static void null_pointers(void) {
    static uint8_t out[POMARISCO_FRAGMENT], before[POMARISCO_FRAGMENT];
    static struct pomarisco_outstation s, empty;
    struct pomarisco_operated operated;
    struct pomarisco_line line = {0};
    struct pomarisco_receiver receiver = {0}, begun = {0};
    struct pomarisco_assembly assembly = {0};
    struct pomarisco_sender sender = {0};
    size_t taken = 7;
    memset(out, 0x5C, sizeof out);
    memcpy(before, out, sizeof out);
    s = full;
    struct pomarisco_fragment_answer a = pomarisco_fragment(&s, 1000, NULL, 0, NULL, 0, &operated);
    expect(a.refusal == 33 && a.kind == 3 && handed_over(&operated) == 0, "fragment: NULL twice");
    a = pomarisco_fragment(&s, 1000, events, sizeof events, NULL, 0, &operated);
    expect(a.refusal == 33 && a.kind == 3 && handed_over(&operated) == 0, "fragment: NULL for the answer");
    a = pomarisco_fragment(&s, 1000, NULL, 0, out, sizeof out, &operated);
    expect(a.refusal == 31 && a.kind == 3 && handed_over(&operated) == 0, "fragment: NULL for the fragment");
    expect(pomarisco_table(&s, NULL, 0, &taken) == 0 && taken == 0, "table: NULL for the readings");
    expect(pomarisco_link_receive_at(&line, station, NULL, 0, NULL, 0).refusal == 33 && line.short_frame == 0, "link_receive: NULL twice");
    expect(pomarisco_link_receive_at(&line, station, NULL, 0, out, sizeof out).refusal == 11 && line.short_frame == 1, "link_receive: NULL for the bytes");
    struct pomarisco_piece p = pomarisco_piece_receive_at(&receiver, NULL, 0, NULL, 0);
    expect(p.frame.refusal == 33 && p.taken == 0 && p.kept == 0 && p.waits == 0, "piece_receive: NULL twice");
    p = pomarisco_piece_receive_at(&receiver, NULL, 0, out, sizeof out);
    expect(p.frame.refusal == 0 && p.taken == 0 && p.kept == 0 && p.waits == 1 && p.frame.length == 0, "piece_receive: NULL for the piece");
    p = pomarisco_piece_receive_at(&begun, longest_frame, 12, out, sizeof out);
    receiver = begun;
    expect(p.waits == 1 && p.taken == 12 && begun.kept == 12, "piece_receive: a frame's beginning");
    p = pomarisco_piece_receive_at(&begun, longest_frame + 12, 280, NULL, 0);
    expect(p.frame.refusal == 33 && p.taken == 0 && p.kept == 12 && begun.kept == 12 && memcmp(begun.bytes, receiver.bytes, sizeof begun.bytes) == 0, "piece_receive: NULL for the user data");
    p = pomarisco_piece_receive_at(&begun, NULL, 0, out, sizeof out);
    expect(p.waits == 1 && p.taken == 0 && p.kept == 12 && memcmp(begun.bytes, longest_frame, 12) == 0, "piece_receive: NULL for the piece, 12 bytes kept");
    expect(pomarisco_segment_receive_at(&assembly, NULL, 0, NULL, 0).refusal == 33, "segment_receive: NULL twice");
    expect(pomarisco_segment_receive_at(&assembly, NULL, 0, out, sizeof out).refusal == 21, "segment_receive: NULL for the segment");
    expect(pomarisco_segment_send_at(&sender, NULL, 0, NULL, 0).refusal == 33, "segment_send: NULL twice");
    expect(pomarisco_segment_send_at(&sender, NULL, 0, out, sizeof out).refusal == 16, "segment_send: NULL for the fragment");
    expect(memcmp(out, before, sizeof out) == 0, "refused calls leave the lent bytes");
    expect(same_state(&s, &full), "refused calls and an empty table leave the state");
    memset(&empty, 0x5C, sizeof empty);
    expect(pomarisco_restart(&empty, setup, NULL, 0, NULL, 0) == 0 && empty.head.binary_count == 0 && empty.head.analog_count == 0 && empty.head.outputs == 16 && empty.head.analog_outputs == 16, "restart: NULL twice");
}

/* ---- any address */

/* The same results at eight addresses in a row. All that is lent ends where a page begins that may not be touched. */
static void addresses(void) {
    static uint8_t first[3][POMARISCO_FRAGMENT];
    uint8_t *room = at_end(4 * PAGE) + 4 * PAGE, *input = at_end(4 * PAGE) + 4 * PAGE, *kept_at = at_end(PAGE) + PAGE;
    struct pomarisco_outstation *s = (struct pomarisco_outstation *)at_end(sizeof *s);
    struct pomarisco_reading *readings = (struct pomarisco_reading *)at_end(sizeof table);
    int same = 1;
    for (size_t shift = 0; shift < 8; shift++) {
        struct pomarisco_operated operated;
        struct pomarisco_line line = {0};
        struct pomarisco_assembly assembly = {0};
        struct pomarisco_sender sender = {0};
        size_t taken;
        /* The ends are fixed, so the lengths move the starts. */
        uint8_t *out = room - POMARISCO_FRAGMENT - shift, *frame = room - POMARISCO_FRAME - shift, *data = room - POMARISCO_USER - shift;
        *s = full;
        memcpy(readings, table, sizeof table);
        same &= pomarisco_table(s, readings, TABLE, &taken) == 0 && taken == TABLE;
        memcpy(input - sizeof events, events, sizeof events);
        const struct pomarisco_fragment_answer a = pomarisco_fragment(s, 1000, input - sizeof events, sizeof events, out, POMARISCO_FRAGMENT + shift, &operated);
        same &= a.kind == 0 && a.length > 1000;
        if (shift == 0) memcpy(first[0], out, a.length);
        same &= memcmp(first[0], out, a.length) == 0;
        memcpy(input - sizeof set, set, sizeof set);
        same &= pomarisco_fragment(s, 1000, input - sizeof set, sizeof set, out, POMARISCO_FRAGMENT + shift, &operated).length == 2 + sizeof set;
        same &= operated.analog_commands.count == 2 && memcmp(out + 4, set + 2, sizeof set - 2) == 0;

        uint8_t *user = input - POMARISCO_USER;
        for (size_t i = 0; i < POMARISCO_USER; i++) user[i] = (uint8_t)(i * 7 + 0xC0);
        const struct pomarisco_wrote w = pomarisco_frame_write(frame, POMARISCO_FRAME + shift, 0xC4, 1, 2, user, POMARISCO_USER);
        same &= w.refusal == 0 && w.size == POMARISCO_FRAME;
        if (shift == 0) memcpy(first[1], frame, w.size);
        same &= memcmp(first[1], frame, w.size) == 0;

        uint8_t *bytes = input - POMARISCO_FRAME;
        memcpy(bytes, first[1], POMARISCO_FRAME);
        const struct pomarisco_taken t = pomarisco_link_receive(&line, station, bytes, POMARISCO_FRAME, data, POMARISCO_USER + shift);
        same &= t.kind == 0 && t.length == POMARISCO_USER && line.accepted == 1;
        if (shift == 0) memcpy(first[2], data, t.length);
        same &= memcmp(first[2], data, t.length) == 0;

        /* In two pieces, cut in another place each time. */
        uint8_t *memory = kept_at - POMARISCO_FRAME - shift;
        memset(data, 0x5C, POMARISCO_USER);
        struct pomarisco_piece p = pomarisco_piece_receive(memory, 0, bytes, 100 + shift, data, POMARISCO_USER + shift);
        same &= p.waits == 1 && p.taken == 100 + shift && p.kept == 100 + shift && memcmp(memory, bytes, p.kept) == 0 && data[0] == 0x5C;
        p = pomarisco_piece_receive(memory, p.kept, bytes + p.taken, POMARISCO_FRAME - p.taken, data, POMARISCO_USER + shift);
        same &= p.waits == 0 && p.taken == POMARISCO_FRAME - 100 - shift && p.kept == 0 && p.frame.refusal == 0 && p.frame.length == POMARISCO_USER && memcmp(first[2], data, p.frame.length) == 0;

        memcpy(user, first[2], POMARISCO_USER);
        user[0] = 0xC0;
        const struct pomarisco_segment g = pomarisco_segment_receive_at(&assembly, user, POMARISCO_USER, out, POMARISCO_FRAGMENT + shift);
        same &= g.kind == 1 && g.length == POMARISCO_USER - 1 && memcmp(out, user + 1, g.length) == 0;
        const struct pomarisco_sent x = pomarisco_segment_send_at(&sender, user + 1, POMARISCO_USER - 1, data, POMARISCO_USER + shift);
        same &= x.refusal == 0 && x.last == 1 && x.size == POMARISCO_USER && memcmp(data, user, x.size) == 0;
    }
    expect(same, "the same at any address, up to the end of a page");
}

/* ---- exported calls, and on an outstation */

static int same_crob(const struct pomarisco_crob *a, const struct pomarisco_crob *b) {
    return a->on_time == b->on_time && a->off_time == b->off_time && a->index == b->index && a->code == b->code && a->count == b->count && a->status == b->status;
}

static int same_operated(const struct pomarisco_operated *a, const struct pomarisco_operated *b) {
    int same = a->crobs.count == b->crobs.count && a->analog_commands.count == b->analog_commands.count;
    for (size_t i = 0; same && i < a->crobs.count; i++) same = same_crob(&a->crobs.items[i], &b->crobs.items[i]);
    return same && memcmp(a->analog_commands.items, b->analog_commands.items, a->analog_commands.count * sizeof a->analog_commands.items[0]) == 0;
}

/* A fragment by the exported call and on an outstation. */
static struct pomarisco_operated fragment_in_place(const uint8_t *bytes, size_t n) {
    static uint8_t one[POMARISCO_FRAGMENT], two[POMARISCO_FRAGMENT];
    static struct pomarisco_outstation s, t;
    struct pomarisco_operated operated;
    s = t = full;
    const struct pomarisco_fragment_answer a = pomarisco_fragment(&s, 2000, bytes, n, one, sizeof one, &operated);
    const struct pomarisco_answer b = pomarisco_lent_fragment(t.head, t.binaries, t.analogs, t.events, t.request, t.answer, t.latch_objects, t.analog_outputs, 2000, bytes, n, two, sizeof two);
    expect(a.kind == b.answer.kind && a.length == b.answer.length && memcmp(one, two, sizeof one) == 0, "fragment: the same answer");
    expect(same_operated(&operated, &b.operated), "fragment: the same objects");
    expect(s.head.clock == 2000 && b.head.clock == 2000 && t.head.clock == 1000 && s.head.request_len == n && memcmp(s.request, bytes, n) == 0, "fragment: the head is given back");
    expect(memcmp(s.binaries, full.binaries, sizeof s.binaries) == 0 && memcmp(s.analogs, full.analogs, sizeof s.analogs) == 0, "fragment: the points stay");
    expect(memcmp(s.analog_outputs, full.analog_outputs, sizeof s.analog_outputs) == 0 && s.head.analog_outputs == full.head.analog_outputs, "fragment: the analog outputs stay");
    expect(memcmp(s.events, t.events, sizeof s.events) == 0 && memcmp(s.request, t.request, sizeof s.request) == 0 && memcmp(s.answer, t.answer, sizeof s.answer) == 0, "fragment: the same arrays");
    return operated;
}

static void in_place(void) {
    static struct pomarisco_outstation s, t;
    struct pomarisco_operated operated = fragment_in_place(operate, sizeof operate);
    expect(operated.crobs.count == 1 && operated.crobs.items[0].index == 5 && operated.analog_commands.count == 0, "fragment: a relay's object");
    operated = fragment_in_place(set, sizeof set);
    const struct pomarisco_analog_command *c = operated.analog_commands.items;
    expect(operated.crobs.count == 0 && operated.analog_commands.count == 2, "fragment: two analog outputs' objects");
    expect(c[0].index == 4 && c[0].kind == 1 && pomarisco_bits_whole(c[0].bits) == -1000 && c[0].status == 0, "fragment: the first one");
    expect(c[1].index == 7 && c[1].kind == 1 && pomarisco_bits_whole(c[1].bits) == 1000 && c[1].status == 0, "fragment: the second one");

    s = t = full;
    const struct pomarisco_reading change = pomarisco_binary_reading(3000, 5, 0, 3), none = pomarisco_binary_reading(3000, 64, 0, 1);
    expect(pomarisco_reading(&s, change) == 0, "reading");
    t.head = pomarisco_lent_reading(t.head, t.binaries, t.analogs, t.events, change).head;
    expect(s.head.clock == 3000 && t.head.clock == 3000 && memcmp(s.binaries, t.binaries, sizeof s.binaries) == 0 && pomarisco_binary_at(&s, 5).flags == 3, "reading: the same");
    s = full;
    expect(pomarisco_reading(&s, none) == 2 && same_state(&s, &full), "reading: refused, nothing changed");
    size_t taken;
    struct pomarisco_reading two_readings[2] = {change, none};
    expect(pomarisco_table(&s, two_readings, 2, &taken) == 2 && taken == 1 && s.head.clock == 3000, "table: up to the refused reading");
}

/* A restart with just this analog output: its refusal, 255 where the words or the head are not as it says. */
static uint8_t restart_with(struct pomarisco_outstation *s, struct pomarisco_analog_output output) {
    struct pomarisco_setup one = setup;
    one.analog_output_count = 1;
    one.analog_outputs[0] = output;
    memset(s, 0x5C, sizeof *s);
    const uint8_t refusal = pomarisco_restart(s, one, classes, 64, analogs, 64);
    const int nothing = s->head.binary_count == 0 && s->head.analog_count == 0 && s->head.outputs == 0 && s->head.analog_outputs == 0;
    const int stored = s->head.analog_outputs == 1 && s->analog_outputs[0] == output.kind && s->analog_outputs[1] == output.low && s->analog_outputs[2] == output.high;
    return (refusal == 0 ? stored : nothing) ? refusal : 255;
}

static void refused_setups(void) {
    static struct pomarisco_outstation s;
    static uint8_t many[300];
    static struct pomarisco_analog_setup many_analogs[65];
    struct pomarisco_setup wrong = setup;
    wrong.master = wrong.own;
    s = full;
    expect(pomarisco_restart(&s, wrong, classes, 64, analogs, 64) == 5 && s.head.binary_count == 0 && s.head.analog_count == 0 && s.head.outputs == 0 && s.head.analog_outputs == 0, "restart: addresses");
    expect(pomarisco_restart(&s, setup, many, 65, analogs, 64) == 5 && pomarisco_restart(&s, setup, many, sizeof many, analogs, 64) == 5, "restart: over 64 binaries");
    expect(pomarisco_restart(&s, setup, classes, 64, many_analogs, 65) == 5, "restart: over 64 analogs");
    many[63] = 4;
    expect(pomarisco_restart(&s, setup, many, 64, NULL, 0) == 5 && s.head.binary_count == 0, "restart: a class");
    many_analogs[0] = pomarisco_point_float(1, 1.0f, 0.0f, POMARISCO_BEYOND, -0.5f);
    expect(pomarisco_restart(&s, setup, classes, 64, many_analogs, 1) == 5 && s.head.analog_count == 0, "restart: a limit below 0");
    expect(pomarisco_reading(&s, pomarisco_binary_reading(1, 0, 0, 1)) == 2, "restart: a refused one has no points");
}

/* How many analog outputs a setup may say. */
static void output_counts(void) {
    static const uint16_t counts[] = {17, 18, 255, 256, 272, 65535};
    static struct pomarisco_outstation s;
    static uint8_t out[POMARISCO_FRAGMENT];
    struct pomarisco_operated operated;
    struct pomarisco_setup none = setup, past = setup;
    const struct pomarisco_analog_output last[3] = {pomarisco_analog_output_at(&full, 13), pomarisco_analog_output_at(&full, 14), pomarisco_analog_output_at(&full, 15)};
    expect(full.head.analog_outputs == 16 && last[0].kind == 1 && last[1].kind == 2 && last[2].kind == 0, "16 analog outputs: their kinds");
    expect(pomarisco_bits_whole(last[0].high) == 1000 && pomarisco_bits_float(last[1].low) == -1.5f && pomarisco_bits_whole(last[2].low) == -100000, "16 analog outputs: their ends");
    int refused = 1;
    for (size_t i = 0; i < sizeof counts / sizeof counts[0]; i++) {
        past.analog_output_count = counts[i];
        refused &= pomarisco_restart(&s, past, classes, 64, analogs, 64) == 5 && s.head.analog_outputs == 0;
    }
    expect(refused, "restart: over 16 analog outputs");
    /* What stands past the count does not count. */
    past.analog_output_count = 15;
    past.analog_outputs[15] = pomarisco_output_32(1, 0);
    expect(pomarisco_restart(&s, past, classes, 64, analogs, 64) == 0 && s.head.analog_outputs == 15, "restart: a wrong output past the count");
    past.analog_output_count = 16;
    expect(pomarisco_restart(&s, past, classes, 64, analogs, 64) == 5, "restart: the same output, counted");
    none.analog_output_count = 0;
    expect(pomarisco_restart(&s, none, classes, 64, analogs, 64) == 0 && s.head.analog_outputs == 0, "restart: no analog outputs");
    pomarisco_fragment(&s, 1000, set, sizeof set, out, sizeof out, &operated);
    expect(handed_over(&operated) == 0 && out[2 + sizeof set - 1] == 4, "a set point without analog outputs");
    const struct pomarisco_setup old = {.arm_time = 5000, .confirm_time = 5000, .own = 1, .master = 2, .outputs = 4};
    expect(pomarisco_restart(&s, old, classes, 64, analogs, 64) == 0 && s.head.outputs == 4 && s.head.analog_outputs == 0, "restart: a setup that says nothing of analog outputs");
}

/* Which ends an analog output may have. */
static void output_ends(void) {
    static const uint32_t floats[][2] = {{0, 0x80000000}, {0x80000000, 0}, {0xFF7FFFFF, 0x7F7FFFFF}, {1, 1}, {0x80000001, 1}, {0xC0000000, 0xBF800000}};
    static const uint32_t no_floats[][2] = {{0x7F800000, 0x7F800000}, {0xFF800000, 0}, {0, 0x7F800000}, {0x7FC00000, 0}, {0, 0xFFC00001}, {1, 0}, {1, 0x80000001}, {0x3F800001, 0x3F800000}, {0xBF800000, 0xC0000000}};
    static struct pomarisco_outstation s;
    int good = 1;
    expect(restart_with(&s, pomarisco_output_32(INT32_MIN, INT32_MAX)) == 0 && restart_with(&s, pomarisco_output_32(7, 7)) == 0 && restart_with(&s, pomarisco_output_32(-1, 0)) == 0, "restart: 32-bit ends");
    expect(restart_with(&s, pomarisco_output_32(7, 6)) == 5 && restart_with(&s, pomarisco_output_32(0, -1)) == 5 && restart_with(&s, pomarisco_output_32(INT32_MAX, INT32_MIN)) == 5, "restart: 32-bit ends, the first above the second");
    expect(restart_with(&s, pomarisco_output_16(INT16_MIN, INT16_MAX)) == 0 && restart_with(&s, pomarisco_output_16(-7, -7)) == 0, "restart: 16-bit ends");
    expect(restart_with(&s, pomarisco_output_16(1, 0)) == 5 && restart_with(&s, pomarisco_output_16(0, -1)) == 5, "restart: 16-bit ends, the first above the second");
    expect(restart_with(&s, pomarisco_output_of(1, (uint32_t)-32769, 0)) == 5 && restart_with(&s, pomarisco_output_of(1, 0, 32768)) == 5 && restart_with(&s, pomarisco_output_of(1, 0xFFFF, 0xFFFF)) == 5 && restart_with(&s, pomarisco_output_of(1, 0x10000, 0x10000)) == 5, "restart: ends that 16 bits do not hold");
    for (int kind = 2; kind < 256; kind++) {
        for (size_t i = 0; i < sizeof floats / sizeof floats[0]; i++) good &= restart_with(&s, pomarisco_output_of((uint8_t)kind, floats[i][0], floats[i][1])) == 0 && pomarisco_analog_output_at(&s, 0).kind == 2;
        for (size_t i = 0; i < sizeof no_floats / sizeof no_floats[0]; i++) good &= restart_with(&s, pomarisco_output_of((uint8_t)kind, no_floats[i][0], no_floats[i][1])) == 5;
    }
    expect(good, "restart: float ends, for every kind above 1");
}

/* ---- any content */

static uint64_t seed = 1;

static uint64_t any(void) {
    seed ^= seed << 13;
    seed ^= seed >> 7;
    seed ^= seed << 17;
    return seed;
}

/* Random bytes for a state: every call returns, and counts stay or are put right. The outstation ends where a page begins that may not be touched. */
static void any_content(void) {
    static uint8_t out[POMARISCO_FRAGMENT], fragment[POMARISCO_FRAGMENT];
    struct pomarisco_outstation *s = (struct pomarisco_outstation *)at_end(sizeof *s);
    struct pomarisco_operated operated;
    int good = 1, answered = 0, relays = 0, set_points = 0;
    for (int round = 0; round < 3000; round++) {
        uint8_t *bytes = (uint8_t *)s;
        size_t taken;
        for (size_t i = 0; i < sizeof *s; i++) bytes[i] = (uint8_t)any();
        /* Half of them with counts near their arrays, and a clock that lets calls in. */
        if (round % 2 == 0) {
            s->head.clock %= 2000;
            s->head.binary_count %= 130;
            s->head.analog_count %= 130;
            s->head.event_count %= 520;
            s->head.request_len %= 4100;
            s->head.answer_len %= 230;
            s->head.latch_len %= 220;
            s->head.analog_outputs %= 20;
        }
        /* Some with a latch that an OPERATE meets where it is armed for it, of relays or of analog outputs. */
        const uint8_t *selected = round % 16 == 3 ? set : round % 16 == 11 ? operate : NULL;
        if (selected != NULL) {
            s->head.latch_len = (selected == set ? sizeof set : sizeof operate) - 2;
            memcpy(s->latch_objects, selected + 2, s->head.latch_len);
            s->head.latch_armed %= 4;
            s->head.clock = s->head.latch_time = 2000;
        }
        for (size_t i = 0; i < sizeof fragment; i++) fragment[i] = (uint8_t)any();
        if (round % 4 < 2) memcpy(fragment, events, sizeof events);
        fragment[0] = (uint8_t)(0xC0 | (fragment[0] & 15));
        size_t n = round % 4 < 2 ? sizeof events : any() % (sizeof fragment + 1);
        if (selected != NULL) {
            n = 2 + s->head.latch_len;
            fragment[0] = (uint8_t)(0xC0 | (s->head.latch_sequence + 1) % 16);
            fragment[1] = 4;
            memcpy(fragment + 2, s->latch_objects, n - 2);
        }
        const uint8_t armed = s->head.latch_armed;
        const struct pomarisco_fragment_answer a = pomarisco_fragment(s, 2000, fragment, n, out, sizeof out, &operated);
        good &= a.kind <= 3 && a.length <= sizeof out && operated.crobs.count <= POMARISCO_CONTROLS && operated.analog_commands.count <= POMARISCO_CONTROLS && (a.kind == 3) == (a.refusal != 0);
        good &= operated.crobs.count == 0 || operated.analog_commands.count == 0;
        answered += a.kind == 0;
        if (selected != NULL) {
            good &= operated.crobs.count == (selected == operate && armed == 1 ? 1 : 0) && operated.analog_commands.count == (selected == set && armed > 1 ? 2 : 0);
            relays += operated.crobs.count != 0;
            set_points += operated.analog_commands.count != 0;
        }
        good &= pomarisco_table(s, table, TABLE, &taken) <= 4 && taken <= TABLE;
        for (size_t i = 0; i < POMARISCO_EVENTS; i++) good &= pomarisco_event_at(s, i).kind <= 3;
    }
    expect(good && answered > 100 && relays > 10 && set_points > 10, "any content of the outstation");
}

/* ---- set points */

/* The status of a set point in SELECT and direct operation, whatever the outputs are. */
static uint8_t by_definition(const struct pomarisco_outstation *s, const struct pomarisco_analog_command *asked, size_t place) {
    const struct pomarisco_analog_command c = asked[place];
    const size_t installed = s->head.analog_outputs < POMARISCO_ANALOG_OUTPUTS ? s->head.analog_outputs : POMARISCO_ANALOG_OUTPUTS;
    if (c.status != 0) return 3;
    if (c.index >= installed) return 4;
    const struct pomarisco_analog_output o = pomarisco_analog_output_at(s, c.index);
    if (o.kind != c.kind) return 4;
    if (o.kind < 2 && (pomarisco_bits_whole(c.bits) < pomarisco_bits_whole(o.low) || pomarisco_bits_whole(c.bits) > pomarisco_bits_whole(o.high))) return 4;
    if (o.kind == 2) {
        const float value = pomarisco_bits_float(c.bits);
        const int finite = (c.bits & 0x7F800000) != 0x7F800000;
        if (!finite || !(pomarisco_bits_float(o.low) <= value) || !(value <= pomarisco_bits_float(o.high))) return 4;
    }
    for (size_t i = 0; i < place; i++)
        if (asked[i].index == c.index) return 8;
    return 0;
}

/* Mostly an end; else a neighbour of one, a zero, or anything. */
static uint32_t some_value(const struct pomarisco_analog_output *o) {
    const uint32_t values[] = {o->low, o->high, o->low + 1, o->low - 1, o->high + 1, o->high - 1, 0, 0x80000000, 0x7F800000, 0x7FC00000, (uint32_t)any()};
    return values[any() % (any() % 8 == 0 ? sizeof values / sizeof values[0] : 2)];
}

/* Words of an output: mostly of this kind, with ends that a setup may give; else ends next to each other, or anything. */
static void some_output(uint32_t *w, uint32_t kind) {
    enum { ENDS = 5 };
    static const uint32_t ends[3][ENDS][2] = {
        {{0, 0}, {0x80000000, 0x7FFFFFFF}, {(uint32_t)-300, (uint32_t)-256}, {0x7FFFFFFF, 0x7FFFFFFF}, {(uint32_t)-70000, 70000}},
        {{0, 0}, {(uint32_t)-32768, 32767}, {(uint32_t)-300, (uint32_t)-256}, {32767, 32767}, {254, 257}},
        {{0, 0x80000000}, {0xFF7FFFFF, 0x7F7FFFFF}, {0xBF800000, 0x3F800000}, {0x80000001, 1}, {0x80000000, 0x80000000}},
    };
    static const uint32_t around[] = {0, 0x80000000, 100, (uint32_t)-100, 0x3F800000, 0xBF800000, 0x7F7FFFFF, 0xFF7FFFFF, 0x7F800000, 0x7FC00000, 32767, (uint32_t)-32768};
    const uint32_t *pair = ends[kind < 2 ? kind : 2][any() % ENDS];
    w[0] = kind;
    w[1] = pair[0];
    w[2] = pair[1];
    if (any() % 8 != 0) return;
    if (any() % 4 == 0) w[0] = (uint32_t)any();
    w[1] = around[any() % 12] + (uint32_t)(any() % 3) - 1;
    w[2] = any() % 4 == 0 ? (uint32_t)any() : any() % 2 == 0 ? w[1] + (uint32_t)(any() % 3) : around[any() % 12];
}

/* Asks for one to eight set points of one kind; writes them as a request has them, and gives the request's length. */
static size_t some_request(const struct pomarisco_outstation *s, uint8_t function, uint8_t *to, struct pomarisco_analog_command *asked, size_t *count) {
    const size_t first = any() % POMARISCO_ANALOG_OUTPUTS, width = 1 + any() % 2;
    const uint8_t kind = any() % 8 == 0 ? (uint8_t)(any() % 3) : pomarisco_analog_output_at(s, first).kind;
    *count = any() % 2 == 0 ? 1 : 1 + any() % POMARISCO_CONTROLS;
    memcpy(to, (const uint8_t[]){0xC7, function, 41, (uint8_t)(kind + 1), width == 1 ? 0x17 : 0x28, (uint8_t)*count, 0}, 7);
    size_t n = 5 + width;
    for (size_t i = 0; i < *count; i++) {
        struct pomarisco_analog_command *c = &asked[i];
        c->index = (uint16_t)(any() % 16 == 0 ? any() % 20 : (first + i) % POMARISCO_ANALOG_OUTPUTS);
        if (i > 0 && any() % 16 == 0) c->index = asked[i - 1].index;
        if (width == 2 && any() % 30 == 0) c->index = (uint16_t)(c->index + 256);
        const struct pomarisco_analog_output o = pomarisco_analog_output_at(s, c->index % POMARISCO_ANALOG_OUTPUTS);
        c->kind = kind;
        c->bits = some_value(&o);
        if (kind == 1) c->bits = (uint32_t)(int16_t)c->bits;
        c->status = any() % 30 == 0 ? (uint8_t)any() : 0;
        for (size_t k = 0; k < width; k++) to[n++] = (uint8_t)(c->index >> 8 * k);
        for (size_t k = 0; k < (kind == 1 ? 2 : 4); k++) to[n++] = (uint8_t)(c->bits >> 8 * k);
        to[n++] = c->status;
    }
    return n;
}

/* The OPERATE after a SELECT that armed the latch: the same bytes are carried out; a zero of the other sign (1), or another variation (2), is another object. */
static int operated_as(struct pomarisco_outstation *s, uint8_t *request, size_t n, const struct pomarisco_analog_command *asked, size_t count, int other) {
    static uint8_t out[POMARISCO_FRAGMENT];
    const size_t each = (n - (request[4] == 0x17 ? 6 : 7)) / count;
    struct pomarisco_operated operated;
    request[0] = 0xC8;
    request[1] = 4;
    for (size_t i = 0; other == 1 && i < count; i++)
        if (asked[i].bits << 1 == 0) request[n - (count - 1 - i) * each - 2] ^= 0x80;
    if (other == 2) request[3] ^= 2;
    pomarisco_fragment(s, 1000, request, n, out, sizeof out, &operated);
    if (other != 0) return handed_over(&operated) == 0 && out[n + 1] == 2;
    return operated.crobs.count == 0 && operated.analog_commands.count == count && memcmp(operated.analog_commands.items, asked, count * sizeof asked[0]) == 0 && out[n + 1] == 0;
}

/* Any outputs and any count of them; SELECT, OPERATE and direct operation: as the definition says. */
static void any_outputs(void) {
    static uint8_t out[POMARISCO_FRAGMENT], request[2 + 109];
    static struct pomarisco_outstation s;
    int good = 1, armed = 0, direct = 0, eight = 0, zeros = 0, reached[9] = {0};
    s = full;
    for (int round = 0; round < 60000; round++) {
        struct pomarisco_analog_command asked[POMARISCO_CONTROLS];
        struct pomarisco_operated operated;
        size_t count, right = 0, zero = 0;
        s.head = full.head;
        s.head.analog_outputs = (uint16_t)(any() % 2 == 0 ? any() : any() % 18);
        /* Often all of one kind, so that more than one object may be right. */
        const uint32_t one = (uint32_t)(any() % 4);
        for (size_t i = 0; i < POMARISCO_ANALOG_OUTPUTS; i++) some_output(s.analog_outputs + 3 * i, round % 4 == 0 ? (uint32_t)(any() % 4) : one);
        const uint8_t function = (const uint8_t[]){3, 3, 5, 6}[any() % 4];
        const size_t n = some_request(&s, function, request, asked, &count), each = (n - (request[4] == 0x17 ? 6 : 7)) / count;
        const struct pomarisco_fragment_answer a = pomarisco_fragment(&s, 1000, request, n, out, sizeof out, &operated);
        good &= a.kind == (function == 6) && operated.crobs.count == 0 && (function == 6 || (a.length == n + 2 && out[3] % 8 == 0));
        for (size_t i = 0; i < count; i++) {
            const uint8_t status = by_definition(&s, asked, i);
            if (function != 6) good &= out[n + 1 - (count - 1 - i) * each] == status;
            if (function != 3 && status == 0) good &= right < operated.analog_commands.count && memcmp(&operated.analog_commands.items[right], &asked[i], sizeof asked[i]) == 0;
            reached[status]++;
            right += status == 0;
            zero += asked[i].kind == 2 && asked[i].bits << 1 == 0;
        }
        good &= operated.analog_commands.count == (function == 3 ? 0 : right) && (s.head.latch_armed != 0) == (function == 3 && right == count);
        direct += function != 3 && right > 0;
        if (s.head.latch_armed == 0) continue;
        const int other = zero > 0 && any() % 2 == 0 ? 1 : asked[0].kind != 1 && any() % 8 == 0 ? 2 : 0;
        good &= s.head.latch_armed > 1 && s.head.latch_len == n - 2 && memcmp(s.latch_objects, request + 2, n - 2) == 0;
        good &= operated_as(&s, request, n, asked, count, other);
        armed++;
        eight += count == POMARISCO_CONTROLS;
        zeros += other == 1;
    }
    expect(good, "any analog outputs: set points by their definition");
    expect(armed > 1000 && direct > 1000 && eight > 20 && zeros > 1000 && reached[0] > 1000 && reached[3] > 1000 && reached[4] > 1000 && reached[8] > 1000, "any analog outputs: each outcome reached");
}

/* ---- the receiver */

/* A byte at a time by the single-frame rule, 11 being more to come. */
static struct pomarisco_piece by_frame_read(uint8_t *memory, size_t kept, const uint8_t *piece, size_t n, uint8_t *out, size_t length) {
    uint8_t user[POMARISCO_USER];
    struct pomarisco_piece p = {.kept = kept, .frame = {.refusal = 33}};
    if (length < POMARISCO_USER) return p;
    p.kept = kept < POMARISCO_FRAME ? kept : POMARISCO_FRAME;
    if (pomarisco_frame_read(memory, p.kept, user, sizeof user).refusal != 11) p.kept = 0;
    while (p.taken < n) {
        memory[p.kept++] = piece[p.taken++];
        p.frame = pomarisco_frame_read(memory, p.kept, user, sizeof user);
        if (p.frame.refusal == 11) continue;
        if (p.frame.refusal == 0) memcpy(out, user, p.frame.length);
        p.kept = p.frame.refusal >= 12 && p.frame.refusal <= 14 ? p.kept - 1 : 0;
        memmove(memory, memory + 1, p.kept);
        return p;
    }
    memset(&p.frame, 0, sizeof p.frame);
    p.waits = 1;
    return p;
}

static int same_frame(const struct pomarisco_frame *a, const struct pomarisco_frame *b) {
    return a->length == b->length && a->destination == b->destination && a->source == b->source && a->control == b->control && a->refusal == b->refusal && a->block == b->block;
}

/* A frame of up to 250 bytes, one bit in ten of them turned, and up to 11 bytes of noise that may look like a start. Sometimes a header with a right
 * check and a length byte under 5: a block of a frame is sealed as a header is. */
static size_t some_line(uint8_t *to) {
    uint8_t user[POMARISCO_USER] = {0x05, 0x64, (uint8_t)(any() % 5)}, frame[POMARISCO_FRAME];
    if (any() % 20 == 0) {
        pomarisco_frame_write(frame, sizeof frame, 0xC4, 1, 2, user, 8);
        memcpy(to, frame + 10, 10);
        return 10;
    }
    static const uint8_t likely[] = {0x05, 0x64, 0x05, 0x64, 0x00, 0xFF};
    const size_t n = any() % 3 == 0 ? any() % (POMARISCO_USER + 1) : any() % 20, noise = any() % 2 == 0 ? any() % 12 : 0;
    for (size_t i = 0; i < n; i++) user[i] = (uint8_t)any();
    const size_t size = pomarisco_frame_write(frame, sizeof frame, (uint8_t)any(), (uint16_t)any(), (uint16_t)any(), user, n).size;
    if (any() % 10 == 0) frame[any() % size] ^= (uint8_t)(1u << any() % 8);
    memcpy(to, frame, size);
    for (size_t i = 0; i < noise; i++) to[size + i] = likely[any() % sizeof likely];
    return size + noise;
}

/* Any memory and any count, any piece, any length lent: as the single-frame rule says. The memory, the piece and what is lent end where a page begins. */
static void any_receiver(void) {
    enum { LENT = 300, PIECE = 700 };
    static uint8_t line[2 * PIECE], memory_too[POMARISCO_FRAME + PIECE], out_too[LENT], before[POMARISCO_FRAME];
    uint8_t *memory = at_end(POMARISCO_FRAME), *pieces = at_end(PIECE) + PIECE, *lent = at_end(LENT) + LENT;
    int good = 1, frames = 0, waits = 0, lent_less = 0, refusals[4] = {0};
    for (int round = 0; round < 40000; round++) {
        for (size_t i = 0; i < POMARISCO_FRAME; i++) memory[i] = (uint8_t)any();
        size_t n = some_line(line);
        n += some_line(line + n);
        /* A frame's beginning is kept, and what comes goes on with it; or anything. */
        const size_t begun = any() % (POMARISCO_FRAME < n ? POMARISCO_FRAME : n);
        size_t kept = begun;
        if (round % 4 != 0) memcpy(memory, line, begun);
        if (round % 8 == 1 || round % 8 == 5) kept = (size_t)any() >> any() % 64;
        if (n - begun > PIECE) n = begun + PIECE;
        const size_t given = round % 16 == 2 ? 0 : n - begun, length = round % 8 == 3 || round % 8 == 5 ? any() % LENT : POMARISCO_USER + any() % 3;
        uint8_t *piece = pieces - given, *out = lent - length;
        memcpy(piece, line + begun, given);
        memset(out, 0x5C, length);
        memset(out_too, 0x5C, length);
        memcpy(before, memory, sizeof before);
        memcpy(memory_too, memory, POMARISCO_FRAME);
        const struct pomarisco_piece p = pomarisco_piece_receive(memory, kept, piece, given, out, length), q = by_frame_read(memory_too, kept, piece, given, out_too, length);
        good &= p.taken == q.taken && p.kept == q.kept && p.waits == q.waits && same_frame(&p.frame, &q.frame) && memcmp(out, out_too, length) == 0;
        good &= p.frame.refusal == 33 ? memcmp(memory, before, sizeof before) == 0 : p.kept < POMARISCO_FRAME && memcmp(memory, memory_too, p.kept) == 0;
        frames += !p.waits && p.frame.refusal == 0;
        waits += p.waits;
        if (p.frame.refusal >= 12 && p.frame.refusal <= 15) refusals[p.frame.refusal - 12]++;
        lent_less += p.frame.refusal == 33;
    }
    expect(good, "any content of the receiver");
    expect(frames > 1000 && waits > 1000 && lent_less > 1000 && refusals[0] > 1000 && refusals[1] > 100 && refusals[2] > 100 && refusals[3] > 100, "any content of the receiver: each outcome reached");
}

/* ---- the assembly */

static int same_assembly(const struct pomarisco_assembly *a, const struct pomarisco_assembly *b) {
    return a->length == b->length && a->last_length == b->last_length && a->last == b->last && a->last_fir == b->last_fir && a->begun == b->begun;
}

/* Puts 2,048 bytes together in segments that end at this place, the last one with n bytes: it stands there. */
static struct pomarisco_assembly stand(uint8_t *lent, uint8_t *segments, size_t n) {
    struct pomarisco_assembly a = {0};
    uint8_t head = 0x40 | 60;
    for (size_t left = POMARISCO_FRAGMENT; left > 0; head = (head + 1) % 64) {
        const size_t most = left > n ? left - n : n, size = most < POMARISCO_USER ? most : POMARISCO_USER - 1;
        uint8_t *segment = segments - size - 1;
        segment[0] = head;
        for (size_t i = 1; i <= size; i++) segment[i] = (uint8_t)(i * 11 + left);
        pomarisco_segment_receive_at(&a, segment, size + 1, lent, POMARISCO_FRAGMENT);
        left -= size;
    }
    return a;
}

/* With this assembly the segment is 22, and the fragment is forgotten. */
static int forgets(struct pomarisco_assembly a, const uint8_t *segment, size_t n, uint8_t *lent) {
    static const struct pomarisco_assembly nothing = {0};
    const struct pomarisco_segment s = pomarisco_segment_receive_at(&a, segment, n, lent, POMARISCO_FRAGMENT);
    return s.kind == 2 && s.refusal == 22 && same_assembly(&a, &nothing);
}

/* The last segment heard again with all 2,048 bytes standing, so that it is compared to the end of what is lent: segment and lent bytes end where a page
 * begins that may not be touched. Then with a byte or a number that the host altered between the two calls. */
static void repeats(void) {
    static const size_t sizes[] = {1, 2, 248, 249};
    static uint8_t before[POMARISCO_FRAGMENT];
    uint8_t *lent = at_end(POMARISCO_FRAGMENT), *segments = at_end(POMARISCO_USER) + POMARISCO_USER;
    int ignored = 1, lent_altered = 1, number_altered = 1;
    for (size_t k = 0; k < sizeof sizes / sizeof sizes[0]; k++) {
        const size_t n = sizes[k];
        const struct pomarisco_assembly kept = stand(lent, segments, n);
        const uint8_t *segment = segments - n - 1;
        struct pomarisco_assembly a = kept;
        memcpy(before, lent, sizeof before);
        ignored &= kept.length == POMARISCO_FRAGMENT && kept.last_length == n && kept.last == segment[0] && kept.last_fir == 0 && kept.begun == 1;
        for (int round = 0; round < 3; round++) {
            const struct pomarisco_segment s = pomarisco_segment_receive_at(&a, segment, n + 1, lent, POMARISCO_FRAGMENT);
            ignored &= s.kind == 0 && s.length == 0 && s.refusal == 0 && same_assembly(&a, &kept) && memcmp(lent, before, sizeof before) == 0;
        }
        for (size_t at = POMARISCO_FRAGMENT - n; at < POMARISCO_FRAGMENT; at++) {
            lent[at] ^= 0x10;
            lent_altered &= forgets(kept, segment, n + 1, lent);
            lent[at] ^= 0x10;
        }
        lent[POMARISCO_FRAGMENT - n - 1] ^= 0x10; /* a byte of an earlier one */
        lent_altered &= pomarisco_segment_receive_at(&a, segment, n + 1, lent, POMARISCO_FRAGMENT).kind == 0 && same_assembly(&a, &kept);
        struct pomarisco_assembly altered[] = {kept, kept, kept, kept, kept};
        altered[0].last_length++;
        altered[1].last_length--;
        altered[2].last_fir = 1;
        altered[3].last ^= 0x20;
        altered[4].begun = 0;
        for (size_t i = 0; i < sizeof altered / sizeof altered[0]; i++) number_altered &= forgets(altered[i], segment, n + 1, lent);
    }
    expect(ignored, "a segment heard twice is ignored, at the end of what is lent");
    expect(lent_altered, "a segment heard twice is compared with the lent bytes as they stand");
    expect(number_altered, "a segment heard twice: another number in the assembly");
}

/* The last segment as any assembly and lent bytes have it; what fits of it. */
static size_t last_segment(const struct pomarisco_assembly *a, const uint8_t *lent, size_t length, uint8_t *to, size_t room) {
    const size_t end = a->length < length ? a->length : length, start = a->last_length < a->length ? a->length - a->last_length : 0;
    const size_t n = start < end ? end - start : 0;
    to[0] = (uint8_t)((a->last_fir != 0 ? 0x40 : 0) | a->last % 64);
    memcpy(to + 1, lent + end - n, n < room - 1 ? n : room - 1);
    return n + 1;
}

/* Any numbers in the assembly, any length lent, and segments that the lent bytes have or nearly: a repeat is what the definition says it is, whatever the
 * numbers, and nothing is read past what is lent. */
static void any_assembly(void) {
    enum { ROOM = 300, LENT = POMARISCO_FRAGMENT + 8 };
    static uint8_t again[ROOM], before[LENT];
    uint8_t *end = at_end(LENT) + LENT, *segments = at_end(ROOM) + ROOM;
    int good = 1, ignored = 0, past = 0, forgotten = 0;
    for (int round = 0; round < 40000; round++) {
        const size_t length = round % 8 == 0 ? any() % LENT : POMARISCO_FRAGMENT + any() % 8;
        uint8_t *lent = end - length;
        for (size_t i = 0; i < length; i++) lent[i] = (uint8_t)any();
        struct pomarisco_assembly a = {.last = (uint8_t)any(), .last_fir = any() % 4 == 0 ? (uint8_t)any() : 0, .begun = any() % 8 != 0 ? (uint8_t)any() : 0};
        a.length = any() % 4 == 0 ? (size_t)any() >> any() % 64 : any() % 4 == 0 ? POMARISCO_FRAGMENT + any() % 20 : any() % (POMARISCO_FRAGMENT + 1);
        a.last_length = any() % 4 == 0 ? (size_t)any() >> any() % 64 : (a.length > length ? a.length - length : 0) + any() % 252;
        size_t n = last_segment(&a, lent, length, again, sizeof again);
        if (n > ROOM) n = 1 + any() % POMARISCO_USER;
        const uint64_t change = any() % 8;
        if (change == 0) again[any() % n] ^= (uint8_t)(1u << any() % 8);
        if (change == 1) n--;
        if (change == 2 && n < ROOM) n++;
        if (change == 3) again[0] &= 0x3F;
        uint8_t *segment = segments - n, last[ROOM];
        memcpy(segment, again, n);
        const size_t size = last_segment(&a, lent, length, last, sizeof last);
        const int repeat = length >= POMARISCO_FRAGMENT && n >= 2 && n <= POMARISCO_USER && (segment[0] & 0x40) == 0 && a.begun != 0 && n == size && memcmp(segment, last, n) == 0;
        struct pomarisco_assembly left = a, same = a;
        same.begun = a.begun != 0;
        same.last_fir = a.last_fir != 0;
        memcpy(before, lent, length);
        const struct pomarisco_segment s = pomarisco_segment_receive_at(&left, segment, n, lent, length);
        /* The sequence is never the next one, but for a bit that was turned: nothing else goes on. */
        const int next = n > 0 && segment[0] % 64 == (a.last % 64 + 1) % 64;
        if (repeat) good &= s.kind == 0 && s.length == 0 && s.refusal == 0;
        else if (length < POMARISCO_FRAGMENT) good &= s.kind == 2 && s.refusal == 33;
        else if (n < 2 || n > POMARISCO_USER) good &= s.kind == 2 && s.refusal == 21;
        else if ((segment[0] & 0x40) == 0 && !next) good &= s.kind == 2 && s.refusal == 22 && left.begun == 0 && left.length == 0 && left.last_length == 0;
        if (repeat || s.refusal == 33 || s.refusal == 21) good &= same_assembly(&left, &same);
        if (repeat || s.kind == 2) good &= memcmp(lent, before, length) == 0;
        ignored += repeat;
        past += repeat && a.length > length;
        forgotten += s.refusal == 22 && a.begun != 0;
    }
    expect(good, "any content of the assembly");
    expect(ignored > 1000 && past > 100 && forgotten > 1000, "any content of the assembly: each outcome reached");
}

/* What the receiver told of a line cut into pieces of 1 to `most` bytes, 0 for the whole line, and its end state, in one number. */
static uint64_t told(const uint8_t *line, size_t n, size_t most) {
    struct pomarisco_receiver receiver = {0};
    uint8_t user[POMARISCO_USER];
    uint64_t sum = 1;
    for (size_t at = 0; at < n;) {
        const size_t some = most == 0 ? n : 1 + any() % most, end = at + some < n ? at + some : n;
        while (at < end) {
            const struct pomarisco_piece p = pomarisco_piece_receive_at(&receiver, line + at, end - at, user, sizeof user);
            at += p.taken;
            if (p.waits) continue;
            sum = sum * 31 + p.frame.refusal;
            sum = sum * 31 + (p.frame.block | (uint64_t)p.frame.control << 8 | (uint64_t)p.frame.destination << 16 | (uint64_t)p.frame.source << 32);
            for (size_t i = 0; i < p.frame.length; i++) sum = sum * 31 + user[i];
        }
    }
    for (size_t i = 0; i < receiver.kept; i++) sum = sum * 31 + receiver.bytes[i];
    return sum * 31 + receiver.kept;
}

static void cuts(void) {
    static uint8_t line[64 * (POMARISCO_FRAME + 12)];
    int same = 1;
    for (int round = 0; round < 100; round++) {
        size_t n = 0;
        for (int i = 0; i < 40; i++) n += some_line(line + n);
        const uint64_t whole = told(line, n, 0);
        same &= whole == told(line, n, 1) && whole == told(line, n, 20) && whole == told(line, n, 600);
    }
    expect(same, "a line cut into any pieces is told the same");
}

/* ---- two threads, each with its own */

static void *many_calls(void *where) {
    struct pomarisco_outstation *s = where;
    uint8_t out[POMARISCO_FRAGMENT];
    struct pomarisco_operated operated;
    size_t taken;
    *s = full;
    for (int i = 0; i < 2000; i++) {
        pomarisco_table(s, table, TABLE, &taken);
        pomarisco_fragment(s, 2000, i % 2 == 0 ? events : operate, i % 2 == 0 ? sizeof events : sizeof operate, out, sizeof out, &operated);
        pomarisco_fragment(s, 2000, set, sizeof set, out, sizeof out, &operated);
    }
    return NULL;
}

static void threads(void) {
    static struct pomarisco_outstation one, two, alone;
    pthread_t a, b;
    expect(pthread_create(&a, NULL, many_calls, &one) == 0 && pthread_create(&b, NULL, many_calls, &two) == 0 && pthread_join(a, NULL) == 0 && pthread_join(b, NULL) == 0, "two threads");
    many_calls(&alone);
    expect(same_state(&one, &alone) && same_state(&two, &alone), "two threads: as one alone");
}

/* ---- the stack */

static ucontext_t back, there;
static int deep_good;

static void deep(void) {
    static uint8_t out[POMARISCO_FRAGMENT];
    static struct pomarisco_outstation s;
    static struct pomarisco_receiver receiver;
    struct pomarisco_operated operated;
    size_t taken;
    s = full;
    deep_good = pomarisco_piece_receive_at(&receiver, longest_frame, sizeof longest_frame, out, sizeof out).frame.length == POMARISCO_USER && pomarisco_table(&s, table, TABLE, &taken) == 0 && pomarisco_reading(&s, table[3]) == 0 && pomarisco_fragment(&s, 4000, events, sizeof events, out, sizeof out, &operated).kind == 0 && pomarisco_fragment(&s, 4000, operate, sizeof operate, out, sizeof out, &operated).kind == 0 && pomarisco_fragment(&s, 4000, set, sizeof set, out, sizeof out, &operated).kind == 0 && pomarisco_restart(&s, setup, classes, 64, analogs, 64) == 0;
}

/* Just so much, with a page below that may not be touched: a deeper call would end the program by a signal. */
static void stack(void) {
    uint8_t *room = mmap(NULL, PAGE + POMARISCO_STACK, PROT_READ | PROT_WRITE, MAP_PRIVATE | MAP_ANONYMOUS, -1, 0);
    if (room == MAP_FAILED || mprotect(room, PAGE, PROT_NONE) != 0) exit(2);
    getcontext(&there);
    there.uc_stack.ss_sp = room + PAGE;
    there.uc_stack.ss_size = POMARISCO_STACK;
    there.uc_link = &back;
    makecontext(&there, deep, 0);
    swapcontext(&back, &there);
    expect(deep_good, "a stack of POMARISCO_STACK bytes");
}

int main(void) {
    expect(prepare(), "a full outstation");
    null_pointers();
    addresses();
    in_place();
    refused_setups();
    output_counts();
    output_ends();
    any_content();
    any_outputs();
    any_receiver();
    repeats();
    any_assembly();
    cuts();
    threads();
    stack();
    printf("%d passed, %d failed\n", passed, failed);
    return failed != 0;
}
