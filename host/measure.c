/* Checks the header's layout on a live outstation, then measures the stack and the time of each call.
 *
 * Stack: each call runs on a stack of its own, painted before; what is no longer painted was used. Time: the best of many rounds. */
#define _GNU_SOURCE
#include <stdio.h>
#include <string.h>
#include <time.h>
#include <ucontext.h>

#include "pomarisco.h"

enum { STACK = 1 << 17, PAINT = 0x5C, OUTPUTS = 14 };

static struct pomarisco_setup setup = {.arm_time = 5001, .confirm_time = 6002, .own = 1, .master = 2, .outputs = 15, .analog_output_count = OUTPUTS};
static const struct pomarisco_station station = {.own = 1, .master = 2};
static uint8_t classes[64];
static struct pomarisco_analog_setup analogs[63];
static struct pomarisco_outstation outstation, full;
static struct pomarisco_reading table[128];
static struct pomarisco_operated operated;
static struct pomarisco_line line_record;
static struct pomarisco_receiver receiver;
static struct pomarisco_assembly assembly;
static struct pomarisco_sender sender;
static struct pomarisco_fragment_answer answer;
static uint8_t frame[POMARISCO_FRAME], user[POMARISCO_USER], out[POMARISCO_FRAGMENT], refusal;
static const uint8_t events[] = {0xC3, 0x01, 60, 2, 6, 60, 3, 6, 60, 4, 6}, class_0[] = {0xC3, 0x01, 60, 1, 6};
static const uint8_t operate[] = {0xC4, 5, 12, 1, 0x17, 1, 5, 3, 1, 0, 0, 0, 0, 0, 0, 0, 0, 0};
static uint8_t selects[sizeof operate], longest[POMARISCO_FRAGMENT], controls[2 + 109];
enum { SELECT, OPERATE, DIRECT }; /* eight set points, by each */
static uint8_t sets[3][2 + 5 + 8 * 7];
static size_t taken, frame_size;
static int wrong;

static void expect(int good, const char *what) {
    if (!good) {
        printf("wrong: %s\n", what);
        wrong = 1;
    }
}

/* 64 binaries, 63 analogs of the three kinds, 14 analog outputs: eight for floats, three for each other kind. */
static void prepare(void) {
    for (int i = 0; i < OUTPUTS; i++) setup.analog_outputs[i] = i < 8 ? pomarisco_output_float(-1.5f, 2.5f) : i < 11 ? pomarisco_output_32(-70000, 80000 + i) : pomarisco_output_16(-300, (int16_t)(256 + i));
    for (int i = 0; i < 64; i++) classes[i] = (uint8_t)(1 + i % 3);
    for (int i = 0; i < 63; i++) {
        const uint8_t class_ = (uint8_t)(1 + i % 3), gate = (uint8_t)(i % 4);
        const uint32_t limit = 70000u + (uint32_t)i;
        analogs[i] = i % 3 == 0 ? pomarisco_point_32(class_, gate, limit) : i % 3 == 1 ? pomarisco_point_16(class_, gate, limit) : pomarisco_point_float(class_, 2.5f, 0.25f, gate, 1.5f);
    }
    memset(&outstation, PAINT, sizeof outstation);
    expect(pomarisco_restart(&outstation, setup, classes, 64, analogs, 63) == 0, "restart");
    memcpy(selects, operate, sizeof selects);
    selects[1] = 3;
    /* The longest fragments: a request that is no READ, and a SELECT of eight objects, relays' and analog outputs'. */
    memset(longest, 0, sizeof longest);
    longest[0] = 0xC5;
    longest[1] = 2;
    memcpy(controls, (const uint8_t[]){0xC6, 3, 12, 1, 0x28, 8, 0}, 7);
    for (int how = SELECT; how <= DIRECT; how++) {
        memcpy(sets[how], (const uint8_t[]){(uint8_t)(0xC6 + how), (uint8_t)(3 + how), 41, 3, 0x28, 8, 0}, 7);
        for (int i = 0; i < 8; i++) memcpy(sets[how] + 7 + 7 * i, (const uint8_t[]){(uint8_t)i, 0, 0, 0, 0x20, 0x40, 0}, 7); /* 2.5, the second end */
    }
    for (int i = 0; i < 8; i++) memcpy(controls + 7 + 13 * i, (const uint8_t[]){(uint8_t)i, 0, 3, 1, 0, 0, 0, 0, 0, 0, 0, 0, 0}, 13);
}

static void layout(void) {
    const struct pomarisco_head *h = &outstation.head;
    expect(h->arm_time == 5001 && h->confirm_time == 6002 && h->clock == 0 && h->outputs == 15 && h->analog_outputs == OUTPUTS, "times, outputs");
    expect(h->binary_count == 64 && h->analog_count == 63 && h->event_count == 0 && h->overflow == 0, "counts");
    expect(h->restarted == 1 && h->latch_armed == 0 && h->request_kept == 0 && h->waiting == 0, "restarted");
    for (size_t i = 0; i < 64; i++) {
        const struct pomarisco_binary p = pomarisco_binary_at(&outstation, i);
        expect(p.class_ == 1 + i % 3 && p.seen == 0 && p.state == 0 && p.flags == 2 && p.reported == 2, "a binary");
    }
    for (size_t i = 0; i < 63; i++) {
        const struct pomarisco_analog a = pomarisco_analog_at(&outstation, i);
        expect(a.class_ == 1 + i % 3 && a.kind == i % 3 && a.seen == 0 && a.flags == 2 && a.value_kind == i % 3 && a.value == 0, "an analog");
        expect(a.gate == i % 4, "a gate");
        if (a.gate >= 2) expect(a.kind == 2 ? a.limit == pomarisco_float_bits(1.5f) : a.limit == 70000u + i, "a limit");
        if (a.kind == 2) expect(a.gain == pomarisco_float_bits(2.5f) && a.offset == pomarisco_float_bits(0.25f), "a scale");
    }
    for (size_t i = 0; i < OUTPUTS; i++) {
        const struct pomarisco_analog_output a = pomarisco_analog_output_at(&outstation, i), s = setup.analog_outputs[i];
        expect(a.kind == (i < 8 ? 2 : i < 11 ? 0 : 1) && a.low == s.low && a.high == s.high, "an analog output");
    }

    /* Readings: first values, then changes of flags, which are events. */
    for (uint8_t flags = 1; flags <= 9; flags = (uint8_t)(flags + 8))
        for (int i = 0; i < 63; i++) {
            const uint64_t time = 1000u * flags + (uint64_t)i;
            const struct pomarisco_reading r = i % 3 == 2 ? pomarisco_float_reading(time, (uint16_t)i, 8.0f, flags) : pomarisco_whole_reading(time, (uint16_t)i, -40000 - i, flags);
            expect(pomarisco_reading(&outstation, r) == 0, "a reading");
        }
    expect(h->clock == 9062 && pomarisco_held(&outstation) == 63 && h->overflow == 0, "events");
    for (size_t i = 0; i < 63; i++) {
        const struct pomarisco_event e = pomarisco_event_at(&outstation, i);
        const struct pomarisco_analog a = pomarisco_analog_at(&outstation, i);
        const int over = i % 3 == 1 ? 32 : 0, z = -40000 - (int)i;
        expect(e.time == 9000 + i && e.point == i && e.flags == (9 | over) && e.class_ == 1 + i % 3 && e.kind == i % 3 && e.carried == 0, "an event");
        expect(e.kind == 2 ? pomarisco_bits_float(e.bits) == 20.25f : pomarisco_bits_whole(e.bits) == (e.kind == 0 ? z : -32768), "an event's value");
        expect(a.seen == 1 && a.flags == (9 | over) && a.reported_flags == (9 | over) && a.value == e.bits, "a point");
        expect(a.kind == 2 ? pomarisco_bits_float(a.previous) == 20.25f : pomarisco_bits_whole(a.previous) == z && a.reported == a.previous, "a point's track");
    }
    expect(pomarisco_reading(&outstation, pomarisco_binary_reading(9063, 7, 1, 3)) == 0, "a binary reading");
    const struct pomarisco_binary b = pomarisco_binary_at(&outstation, 7);
    expect(b.class_ == 2 && b.seen == 1 && b.state == 1 && b.flags == 3 && b.reported == 3, "a read binary");
    expect(pomarisco_reading(&outstation, pomarisco_binary_reading(9064, 7, 0, 3)) == 0 && pomarisco_held(&outstation) == 64, "a change of state");
    const struct pomarisco_event e = pomarisco_event_at(&outstation, 63);
    expect(e.kind == 3 && e.bits == 0 && e.time == 9064 && e.point == 7 && e.flags == 3 && e.class_ == 2, "a binary's event");

    answer = pomarisco_fragment(&outstation, 10000, events, sizeof events, out, sizeof out, &operated);
    expect(answer.kind == 0 && answer.length > 4 && out[0] == 0xE3 && h->waiting == 1 && h->wait_time == 10000 && h->wait_sequence == 3 && h->showed_overflow == 0, "wait");
    expect(pomarisco_event_at(&outstation, 63).carried == 1, "carried");
    answer = pomarisco_fragment(&outstation, 10000, operate, sizeof operate, out, sizeof out, &operated);
    const struct pomarisco_crob *crob = &operated.crobs.items[0];
    expect(operated.crobs.count == 1 && crob->index == 5 && crob->code == 3 && crob->count == 1 && crob->status == 0 && operated.analog_commands.count == 0, "operated");
    expect(h->request_kept == 1 && h->request_len == 18 && memcmp(outstation.request, operate, 18) == 0 && h->answer_len == answer.length && memcmp(outstation.answer, out, answer.length) == 0, "last request");
    answer = pomarisco_fragment(&outstation, 10001, selects, sizeof selects, out, sizeof out, &operated);
    expect(h->latch_armed == 1 && h->latch_sequence == 4 && h->latch_time == 10001 && h->latch_len == 16 && memcmp(outstation.latch_objects, operate + 2, 16) == 0, "latch");

    answer = pomarisco_fragment(&outstation, 10002, sets[SELECT], sizeof sets[SELECT], out, sizeof out, &operated);
    expect(h->latch_armed > 1 && h->latch_sequence == 6 && h->latch_time == 10002 && h->latch_len == sizeof sets[SELECT] - 2 && memcmp(outstation.latch_objects, sets[SELECT] + 2, h->latch_len) == 0, "latch for analog outputs");
    expect(operated.crobs.count == 0 && operated.analog_commands.count == 0, "selected");
    answer = pomarisco_fragment(&outstation, 10002, sets[OPERATE], sizeof sets[OPERATE], out, sizeof out, &operated);
    expect(operated.crobs.count == 0 && operated.analog_commands.count == 8, "operated, analog outputs");
    const struct pomarisco_analog_command *c = operated.analog_commands.items;
    for (size_t i = 0; i < 8; i++) expect(c[i].index == i && c[i].kind == 2 && pomarisco_bits_float(c[i].bits) == 2.5f && c[i].status == 0, "a set point");
    static const uint8_t shorts[] = {0xC8, 5, 41, 2, 0x17, 1, 13, 0xD4, 0xFE, 0}, longs[] = {0xC9, 5, 41, 1, 0x17, 1, 10, 0x90, 0xEE, 0xFE, 0xFF, 0};
    answer = pomarisco_fragment(&outstation, 10002, shorts, sizeof shorts, out, sizeof out, &operated);
    expect(operated.analog_commands.count == 1 && c->index == 13 && c->kind == 1 && pomarisco_bits_whole(c->bits) == -300, "a 16-bit set point");
    answer = pomarisco_fragment(&outstation, 10002, longs, sizeof longs, out, sizeof out, &operated);
    expect(operated.analog_commands.count == 1 && c->index == 10 && c->kind == 0 && pomarisco_bits_whole(c->bits) == -70000, "a 32-bit set point");
}

static void fill(void) {
    for (uint64_t i = 0; i < 400; i++) pomarisco_reading(&outstation, pomarisco_binary_reading(20000 + i, (uint16_t)(i % 64), (uint8_t)(i / 64 % 2), 1));
    expect(outstation.head.event_count == 256 && outstation.head.overflow == 1, "full");
    answer = pomarisco_fragment(&outstation, 20400, selects, sizeof selects, out, sizeof out, &operated);
    /* A response with events is out, so that a CONFIRM is taken. */
    answer = pomarisco_fragment(&outstation, 20500, events, sizeof events, out, sizeof out, &operated);
    full = outstation;
    for (size_t i = 0; i < 128; i++) {
        const uint16_t point = (uint16_t)(i / 2 % 63);
        table[i] = i % 2 == 0 ? pomarisco_binary_reading(20600, point, (uint8_t)(i / 4 % 2), 1) : point % 3 == 2 ? pomarisco_float_reading(20600, point, 3.0f, 1) : pomarisco_whole_reading(20600, point, 1000000, 1);
    }
    frame_size = pomarisco_frame_write(frame, sizeof frame, 0xC4, 1, 2, user, sizeof user).size;
    expect(frame_size == 292, "frame");
    struct pomarisco_piece p = pomarisco_piece_receive_at(&receiver, frame, 100, out, sizeof out);
    expect(p.waits == 1 && p.taken == 100 && p.kept == 100 && p.frame.length == 0 && receiver.kept == 100 && memcmp(receiver.bytes, frame, 100) == 0, "a receiver that waits");
    p = pomarisco_piece_receive_at(&receiver, frame + 100, 192, out, sizeof out);
    expect(p.waits == 0 && p.taken == 192 && p.kept == 0 && receiver.kept == 0, "a receiver that delivers");
    expect(p.frame.length == 250 && p.frame.control == 0xC4 && p.frame.destination == 1 && p.frame.source == 2 && p.frame.refusal == 0 && p.frame.block == 0, "a frame received");
}

static void fragment_call(const uint8_t *f, size_t n) { answer = pomarisco_fragment(&outstation, 20700, f, n, out, sizeof out, &operated); }

static void nothing(void) {}
static void restart(void) { refusal = pomarisco_restart(&outstation, setup, classes, 64, analogs, 63); }
static void reading(void) { refusal = pomarisco_reading(&outstation, pomarisco_binary_reading(20600, 3, 0, 1)); }
static void whole_reading(void) { refusal = pomarisco_reading(&outstation, pomarisco_whole_reading(20600, 3, 900000, 1)); }
static void float_reading(void) { refusal = pomarisco_reading(&outstation, pomarisco_float_reading(20600, 2, 900000.0f, 1)); }
static void tables(void) { refusal = pomarisco_table(&outstation, table, 128, &taken); }
static void read_events(void) { fragment_call(events, sizeof events); }
static void read_class_0(void) { fragment_call(class_0, sizeof class_0); }
static void control(void) { fragment_call(operate, sizeof operate); }
static void select_one(void) { fragment_call(selects, sizeof selects); }
static void select_eight(void) { fragment_call(controls, sizeof controls); }
static void select_set_points(void) { fragment_call(sets[SELECT], sizeof sets[SELECT]); }
static void operate_set_points(void) { fragment_call(sets[OPERATE], sizeof sets[OPERATE]); }
static void direct_set_points(void) { fragment_call(sets[DIRECT], sizeof sets[DIRECT]); }
static void longest_request(void) { fragment_call(longest, sizeof longest); }
static void confirm(void) { fragment_call((const uint8_t[]){0xC3, 0}, 2); }
static void frame_write(void) { refusal = pomarisco_frame_write(frame, sizeof frame, 0xC4, 1, 2, user, sizeof user).refusal; }
static void frame_read(void) { refusal = pomarisco_frame_read(frame, frame_size, out, sizeof out).refusal; }
static void receive(const uint8_t *piece, size_t n) { refusal = pomarisco_piece_receive_at(&receiver, piece, n, out, sizeof out).frame.refusal; }
static void piece_receive(void) { receive(frame, frame_size); }
static void second_half(void) { receive(frame + frame_size / 2, frame_size - frame_size / 2); }
static void one_byte(void) { receive(frame + frame_size / 2, 1); }
static void link_receive(void) { refusal = pomarisco_link_receive_at(&line_record, station, frame, frame_size, out, sizeof out).refusal; }
static void link_reply(void) { refusal = pomarisco_link_reply(frame, sizeof frame, station, 0).refusal; }
static void link_data(void) { refusal = pomarisco_link_data(frame, sizeof frame, station, user, sizeof user).refusal; }
static void segment_receive(void) { assembly.begun = 0; user[0] = 0xC0; refusal = pomarisco_segment_receive_at(&assembly, user, sizeof user, out, sizeof out).refusal; }
static void segment_again(void) { refusal = pomarisco_segment_receive_at(&assembly, user, sizeof user, out, sizeof out).refusal; }
static void segment_send(void) { sender.at = 0; refusal = pomarisco_segment_send_at(&sender, user, sizeof user, out, sizeof out).refusal; }

/* The state after a SELECT, of which the same again is a repeat, and the same with OPERATE carries out. */
static void after_select(void) {
    outstation = full;
    select_one();
}

static void operate_selected(void) {
    uint8_t f[sizeof selects];
    memcpy(f, selects, sizeof f);
    f[0] = 0xC5;
    f[1] = 4;
    fragment_call(f, sizeof f);
}

static void as_full(void) { outstation = full; }

static void after_set_points(void) {
    as_full();
    select_set_points();
}

static void nothing_kept(void) { receiver.kept = 0; }

static void half_kept(void) {
    nothing_kept();
    receive(frame, frame_size / 2);
}

/* A first segment and one that goes on: the same again is a repeat. */
static void two_segments(void) {
    user[0] = 0x40;
    segment_again();
    user[0] = 0x01;
    segment_again();
}

/* The call is all that runs on this stack: what is no longer painted it used, with the caller's arguments and result. */
static size_t stack_of(void (*call)(void)) {
    static uint8_t stack[STACK];
    static ucontext_t back, there;
    memset(stack, PAINT, sizeof stack);
    getcontext(&there);
    there.uc_stack.ss_sp = stack;
    there.uc_stack.ss_size = sizeof stack;
    there.uc_link = &back;
    makecontext(&there, call, 0);
    swapcontext(&back, &there);
    size_t unused = 0;
    while (unused < STACK && stack[unused] == PAINT) unused++;
    return STACK - unused;
}

static double now(void) {
    struct timespec t;
    clock_gettime(CLOCK_MONOTONIC, &t);
    return (double)t.tv_sec * 1e6 + (double)t.tv_nsec / 1e3;
}

static double time_of(void (*before)(void), void (*call)(void)) {
    double best = 1e9;
    for (int round = 0; round < 1000; round++) {
        before();
        const double begin = now();
        call();
        const double spent = now() - begin;
        if (spent < best) best = spent;
    }
    return best;
}

int main(void) {
    static const struct { const char *name; void (*before)(void), (*call)(void); } calls[] = {
        {"restart", as_full, restart}, {"reading, binary", as_full, reading}, {"reading, whole", as_full, whole_reading}, {"reading, float", as_full, float_reading},
        {"table of 128", as_full, tables}, {"fragment: READ events", as_full, read_events}, {"fragment: READ class 0", as_full, read_class_0},
        {"fragment: CONFIRM", as_full, confirm}, {"fragment: SELECT of 1", as_full, select_one}, {"fragment: SELECT of 8", as_full, select_eight},
        {"fragment: SELECT repeated", after_select, select_one}, {"fragment: OPERATE", after_select, operate_selected},
        {"fragment: DIRECT OPERATE", as_full, control}, {"fragment: SELECT of 8 set points", as_full, select_set_points},
        {"fragment: OPERATE of 8 set points", after_set_points, operate_set_points}, {"fragment: DIRECT OPERATE of 8 set points", as_full, direct_set_points},
        {"fragment: WRITE, 2048 bytes", as_full, longest_request}, {"frame_write", as_full, frame_write},
        {"frame_read", as_full, frame_read}, {"piece_receive, a frame", nothing_kept, piece_receive}, {"piece_receive, its 2nd half", half_kept, second_half},
        {"piece_receive, a byte of it", half_kept, one_byte}, {"link_receive", as_full, link_receive}, {"link_reply", as_full, link_reply}, {"link_data", as_full, link_data},
        {"segment_receive", as_full, segment_receive}, {"segment_receive, a repeat", two_segments, segment_again}, {"segment_send", as_full, segment_send}};
    prepare();
    layout();
    fill();
    printf("layout %s, outstation %zu bytes\n", wrong ? "wrong" : "ok", sizeof outstation);
    const size_t base = stack_of(nothing);
    const double clock_read = time_of(nothing, nothing);
    for (size_t i = 0; i < sizeof calls / sizeof calls[0]; i++) {
        calls[i].before();
        refusal = answer.refusal = 0;
        const size_t stack = stack_of(calls[i].call) - base;
        expect(refusal == 0 && answer.refusal == 0, calls[i].name);
        printf("%-40s %6zu bytes of stack %8.2f us\n", calls[i].name, stack, time_of(calls[i].before, calls[i].call) - clock_read);
    }
    return wrong;
}
