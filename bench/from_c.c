/* The work of bench/ordinary done by the proved outstation as a host in C calls it, over pomarisco.h: the same lines `NAME COUNT` or
 * `NAME COUNT SIZE`, the same input, the same checksums. Where ordinary Rust sets its state back between calls, so does this. */
#include <stdbool.h>
#include <stdio.h>
#include <stdlib.h>
#include <string.h>

#include "pomarisco.h"

static struct pomarisco_outstation o;
static struct pomarisco_operated operated;
static struct pomarisco_receiver receiver;
static uint8_t out[POMARISCO_FRAGMENT];

/* ---- checksums */

static uint64_t fold(uint64_t sum, uint64_t x) { return (sum << 1 | sum >> 63) + x; }

static uint64_t fold_all(uint64_t sum, const uint8_t *s, size_t n) {
    for (size_t i = 0; i < n; i++) sum = fold(sum, s[i]);
    return sum;
}

/* The times and points of all slots. */
static uint64_t digest(uint64_t sum) {
    for (size_t i = 0; i < POMARISCO_EVENTS; i++) {
        const struct pomarisco_event e = pomarisco_event_at(&o, i);
        sum = fold(fold(sum, e.time), e.point);
    }
    return sum;
}

/* The size and one byte of a response, or what else a fragment came to. */
static uint64_t fold_answer(uint64_t sum, struct pomarisco_fragment_answer a) {
    if (a.kind == 0) return fold(sum, a.length + out[sum % 2048]);
    if (a.kind == 2) return fold(sum, 1);
    if (a.kind == 1) return fold(sum, 2);
    return fold(sum, a.refusal == 1 ? 3 : (uint64_t)a.refusal - 27);
}

/* ---- the outstation */

/* n points of each kind; events and bytes as ordinary Rust begins, all 0. */
static void fresh(size_t n) {
    static const struct pomarisco_setup setup = {.arm_time = 2000, .confirm_time = 5000, .own = 10, .master = 1, .outputs = 8};
    uint8_t classes[64];
    struct pomarisco_analog_setup analogs[64];
    memset(&o, 0, sizeof o);
    memset(out, 0, sizeof out);
    for (int i = 0; i < 64; i++) {
        classes[i] = 1;
        analogs[i] = pomarisco_point_32(2, POMARISCO_BEYOND, 100);
    }
    if (pomarisco_restart(&o, setup, classes, n, analogs, n) != 0) exit(1);
}

static void hold(size_t i, uint8_t kind, uint32_t bits) {
    o.events[2 * i] = i | (uint64_t)(i % 64) << 48;
    o.events[2 * i + 1] = bits | (uint64_t)1 << 32 | (uint64_t)(i % 3 + 1) << 40 | (uint64_t)kind << 48;
    o.head.event_count = i + 1;
}

/* 64 points of each kind, the binaries read once, and n held events whose kinds and classes take turns. */
static void holding(size_t n) {
    fresh(64);
    for (uint16_t point = 0; point < 64; point++) pomarisco_reading(&o, pomarisco_binary_reading(0, point, 0, 1));
    for (size_t i = 0; i < n; i++) {
        const uint32_t z = (uint32_t)(i % 4096);
        if (i % 4 == 0) hold(i, 3, i % 8 == 0);
        else if (i % 4 == 3) hold(i, 2, pomarisco_float_bits(2.25f));
        else hold(i, (uint8_t)(i % 4 - 1), z);
    }
}

/* ---- works */

static uint64_t nothing(uint64_t count) {
    uint64_t sum = 1;
    for (uint64_t left = count; left > 0; left--) sum = fold(sum, left);
    return sum;
}

static uint64_t outstation_reading(uint64_t count, size_t n) {
    uint64_t sum = 1;
    uint16_t point = 0;
    bool state = true;
    fresh(n);
    for (uint64_t left = count; left > 0; left--) {
        if (left % 256 == 0) o.head.event_count = 0;
        const uint8_t refusal = pomarisco_reading(&o, pomarisco_binary_reading(count - left, point, state, 1));
        sum = fold(sum, refusal + 1u + o.head.clock);
        point = (size_t)point + 1 < n ? (uint16_t)(point + 1) : 0;
        state ^= point == 0;
    }
    return digest(sum);
}

static uint64_t held_reading(uint64_t count, size_t n) {
    uint64_t sum = 1;
    holding(n);
    const struct pomarisco_outstation full = o;
    for (uint64_t left = count; left > 0; left--) {
        const uint16_t point = (uint16_t)(left % 64);
        const uint8_t refusal = pomarisco_reading(&o, pomarisco_binary_reading(left, point, 1, 1));
        sum = fold(sum, refusal + 1u + o.head.clock + o.head.event_count);
        o.head.clock = full.head.clock;
        o.binaries[point] = full.binaries[point];
        o.head.event_count = n;
    }
    pomarisco_reading(&o, pomarisco_binary_reading(1, 0, 1, 1));
    return digest(sum);
}

/* 64 points of each kind, all read once, the analogs' kinds taking turns; n of them installed. Gives a binary's words, off and on. */
static void read_points(size_t n, uint32_t words[2]) {
    static const struct pomarisco_setup setup = {.arm_time = 2000, .confirm_time = 5000, .own = 10, .master = 1, .outputs = 8};
    struct pomarisco_analog_setup analogs[64];
    uint8_t classes[64];
    fresh(0);
    for (int i = 0; i < 64; i++) {
        classes[i] = 1;
        analogs[i] = i % 3 == 0 ? pomarisco_point_32(2, POMARISCO_ANY_CHANGE, 0) : i % 3 == 1 ? pomarisco_point_16(2, POMARISCO_ANY_CHANGE, 0) : pomarisco_point_float(2, 1.0f, 0.5f, POMARISCO_ANY_CHANGE, 0.0f);
    }
    if (pomarisco_restart(&o, setup, classes, 64, analogs, 64) != 0) exit(1);
    for (uint16_t i = 0; i < 64; i++) {
        pomarisco_reading(&o, pomarisco_binary_reading(0, i, 0, 1));
        pomarisco_reading(&o, i % 3 == 2 ? pomarisco_float_reading(0, i, 2.25f, 1) : pomarisco_whole_reading(0, i, i, 1));
    }
    words[0] = o.binaries[0];
    words[1] = o.binaries[0] | (uint32_t)1 << 25;
    for (int i = 0; i < 64; i++) o.binaries[i] = words[1];
    o.head.binary_count = o.head.analog_count = n;
}

static struct pomarisco_fragment_answer fragment(uint64_t time, const uint8_t *f, size_t n) { return pomarisco_fragment(&o, time, f, n, out, sizeof out, &operated); }

/* The READ's objects. Ordinary Rust makes the objects alone here and no fragment, so the header's four bytes do not count. */
static uint64_t class_0(uint64_t count, size_t n) {
    static const uint8_t ask[] = {192, 1, 60, 1, 6};
    uint32_t words[2];
    uint64_t sum = 1;
    read_points(n, words);
    for (uint64_t left = count; left > 0; left--) {
        o.binaries[left % 64] = words[left % 3 == 0];
        const struct pomarisco_fragment_answer a = fragment(0, ask, sizeof ask);
        memset(out, 0, 4);
        sum = fold(sum, a.length + out[sum % 1024]);
    }
    return digest(fold_all(sum, out, sizeof out));
}

static uint64_t class_0_fragment(uint64_t count, size_t n) {
    uint8_t ask[] = {192, 1, 60, 1, 6};
    uint32_t words[2];
    uint64_t sum = 1;
    read_points(n, words);
    for (uint64_t left = count; left > 0; left--) {
        o.binaries[left % 64] = words[left % 3 == 0];
        ask[0] = (uint8_t)(192 + left % 16);
        sum = fold_answer(sum, fragment(count - left, ask, sizeof ask));
    }
    return digest(fold_all(sum, out, sizeof out));
}

static const uint8_t READ_EVENTS[11] = {192, 1, 60, 2, 6, 60, 3, 6, 60, 4, 6};

static uint64_t event_read(uint64_t count, size_t n) {
    uint8_t ask[sizeof READ_EVENTS], confirm[2] = {192, 0};
    uint64_t sum = 1;
    memcpy(ask, READ_EVENTS, sizeof ask);
    holding(n);
    const struct pomarisco_outstation full = o;
    for (uint64_t left = count; left > 0; left--) {
        const uint64_t time = 1000 + left % 1000;
        ask[0] = confirm[0] = (uint8_t)(192 + left % 16);
        sum = fold_answer(sum, fragment(time, ask, sizeof ask));
        sum = fold_answer(sum, fragment(time, confirm, sizeof confirm));
        sum = fold(sum, o.head.event_count);
        o.head.clock = full.head.clock;
        memcpy(o.events, full.events, 2 * n * sizeof o.events[0]);
        o.head.event_count = n;
        o.head.overflow = full.head.overflow;
    }
    fragment(1000, ask, sizeof ask);
    fragment(1000, confirm, sizeof confirm);
    return digest(fold_all(sum, out, sizeof out));
}

static uint64_t confirm(uint64_t count, size_t n) {
    uint8_t f[2] = {192, 0};
    holding(0);
    for (size_t i = 0; i < n; i++) hold(i, 3, i % 2 == 0);
    uint64_t sum = fold_answer(1, fragment(1000, READ_EVENTS, sizeof READ_EVENTS));
    const struct pomarisco_head waiting = o.head;
    for (uint64_t left = count; left > 0; left--) {
        f[0] = (uint8_t)(192 + (left % 16 == 0));
        o.head = waiting;
        sum = fold_answer(sum, fragment(1000 + left % 1000, f, sizeof f));
        sum = fold(sum, o.head.clock + o.head.event_count);
    }
    return digest(fold_all(sum, out, sizeof out));
}

static const uint8_t SELECT[18] = {192, 3, 12, 1, 23, 1, 5, 3, 1};

static uint64_t selects(uint64_t count, size_t n) {
    uint8_t ask[sizeof SELECT];
    uint64_t sum = 1;
    memcpy(ask, SELECT, sizeof ask);
    holding(n);
    for (uint64_t left = count; left > 0; left--) {
        ask[0] = (uint8_t)(192 + left % 16);
        ask[6] = (uint8_t)(left % 9);
        sum = fold_answer(sum, fragment(1000 + count - left, ask, sizeof ask));
        sum = fold(sum, o.head.clock + o.head.latch_armed);
    }
    return digest(fold_all(fold(sum, o.head.latch_time), out, sizeof out));
}

static uint64_t repeat(uint64_t count, size_t n) {
    uint64_t sum = 1;
    holding(n);
    fragment(1000, SELECT, sizeof SELECT);
    for (uint64_t left = count; left > 0; left--) {
        sum = fold_answer(sum, fragment(1000 + count - left, SELECT, sizeof SELECT));
        sum = fold(sum, o.head.clock);
    }
    return digest(fold_all(fold(sum, o.head.latch_time), out, sizeof out));
}

static uint64_t table_128(uint64_t count) {
    struct pomarisco_reading tables[2][128];
    uint64_t sum = 1;
    fresh(64);
    for (int on = 0; on < 2; on++)
        for (int i = 0; i < 128; i++) tables[on][i] = i % 2 == 0 ? pomarisco_binary_reading(1000, (uint16_t)(i / 2), (uint8_t)on, 1) : pomarisco_whole_reading(1000, (uint16_t)(i / 2), on ? 1000 + i : i - 1000, 1);
    for (uint64_t left = count; left > 0; left--) {
        size_t taken;
        o.head.event_count = 0;
        const uint8_t refusal = pomarisco_table(&o, tables[left % 2], 128, &taken);
        sum = fold(sum, refusal + 1u + taken + o.head.event_count);
    }
    return digest(sum);
}

/* ---- bytes off the wire */

enum { LINE = 16384 };

static uint8_t wire[LINE];
static uint64_t source; /* xorshift64 */

static uint8_t any_byte(void) {
    source ^= source << 13;
    source ^= source >> 7;
    source ^= source << 17;
    return (uint8_t)(source >> 32);
}

/* Frames back to back, of 250 user bytes or of 0 to 26; the last one is cut. */
static void line_of_frames(bool small) {
    uint8_t user[POMARISCO_USER], one[POMARISCO_FRAME];
    for (size_t at = 0; at < LINE;) {
        const size_t n = small ? any_byte() % 27 : POMARISCO_USER;
        for (size_t i = 0; i < n; i++) user[i] = any_byte();
        const size_t size = pomarisco_frame_write(one, sizeof one, 196, 10, 1, user, n).size;
        memcpy(wire + at, one, size < LINE - at ? size : LINE - at);
        at += size;
    }
}

/* What a call told, with all user bytes or one of them. */
static uint64_t fold_piece(uint64_t sum, const struct pomarisco_piece *p, const uint8_t *user, bool all) {
    const struct pomarisco_frame *f = &p->frame;
    sum = fold(sum, p->taken);
    if (p->waits) return fold(sum, 1);
    if (f->refusal != 0) return fold(sum, f->refusal | (uint64_t)f->block << 8);
    sum = fold(sum, f->control | (uint64_t)f->destination << 8 | (uint64_t)f->source << 24 | (uint64_t)f->length << 40);
    return all ? fold_all(sum, user, f->length) : fold(sum, user[sum % 250]);
}

/* The line in pieces of so many bytes, again and again; the first time all user bytes count. */
static uint64_t receive(uint64_t count, size_t piece_length) {
    uint8_t user[POMARISCO_USER] = {0};
    uint64_t sum = 1;
    if (piece_length == 0) piece_length = 1;
    for (uint64_t left = count; left > 0; left--) {
        memset(&receiver, 0, sizeof receiver);
        for (size_t at = 0; at < LINE; at += piece_length) {
            const size_t end = at + piece_length < LINE ? at + piece_length : LINE;
            for (size_t from = at; from < end;) {
                const struct pomarisco_piece p = pomarisco_piece_receive_at(&receiver, wire + from, end - from, user, sizeof user);
                sum = fold_piece(sum, &p, user, left == count);
                from += p.taken;
            }
        }
    }
    return fold_all(sum, user, sizeof user);
}

static uint64_t receive_frames(uint64_t count, size_t piece_length, bool small) {
    source = 0x9E3779B97F4A7C15u;
    line_of_frames(small);
    return receive(count, piece_length);
}

static uint64_t receive_clean(uint64_t count, size_t n) { return receive_frames(count, n, false); }
static uint64_t receive_small(uint64_t count, size_t n) { return receive_frames(count, n, true); }
static uint64_t receive_bytes(uint64_t count, size_t n) { return (void)n, receive_frames(count, 1, false); }

static uint64_t receive_noise(uint64_t count, size_t n) {
    source = 0x9E3779B97F4A7C15u;
    for (size_t i = 0; i < LINE; i++) wire[i] = any_byte();
    return receive(count, n);
}

static uint64_t receive_starts(uint64_t count, size_t n) {
    for (size_t i = 0; i < LINE; i++) wire[i] = i % 2 == 0 ? 0x05 : 0x64;
    return receive(count, n);
}

/* ---- lines */

static uint64_t nothing_sized(uint64_t count, size_t n) { return (void)n, nothing(count); }
static uint64_t table_sized(uint64_t count, size_t n) { return (void)n, table_128(count); }

/* The works, and the most points or held events of each, or bytes of a piece. */
static const struct { const char *name; size_t most; uint64_t (*run)(uint64_t, size_t); } works[] = {
    {"nothing", 0, nothing_sized}, {"outstation-reading", 64, outstation_reading}, {"held-reading", 255, held_reading}, {"class-0", 64, class_0},
    {"class-0-fragment", 64, class_0_fragment},
    {"event-read", 256, event_read}, {"confirm", 226, confirm}, {"select", 256, selects}, {"repeat", 256, repeat}, {"table-128", 0, table_sized},
    {"receive-clean", LINE, receive_clean}, {"receive-small", LINE, receive_small}, {"receive-noise", LINE, receive_noise},
    {"receive-starts", LINE, receive_starts}, {"receive-bytes", 0, receive_bytes}};

int main(void) {
    char line[256], name[64];
    while (fgets(line, sizeof line, stdin) != NULL) {
        unsigned long long count, size;
        const int words = sscanf(line, "%63s %llu %llu", name, &count, &size);
        bool known = false;
        for (size_t i = 0; i < sizeof works / sizeof works[0]; i++) {
            if (words < 2 || strcmp(name, works[i].name) != 0 || count > 1000000000000ull || (words == 3 && size > works[i].most)) continue;
            printf("%llu\n", (unsigned long long)works[i].run(count, words == 3 ? size : works[i].most));
            known = true;
        }
        if (!known) puts("unknown");
    }
    return 0;
}
