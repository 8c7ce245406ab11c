/* A cubicle as firmware would have it: raw bytes from the master on standard input, in pieces as they come, link frames to the master on
 * standard output, nothing else on either. On standard error, at the end, the line record, then what the receiver refused.
 *
 * The cubicle is simulated. Feeder i (0 to 3) is worked by control output i; breaker i (binary input i) follows it and is read back
 * with the next readings. Codes 01, 03 and 41 close it, 04 and 81 open it. Analog inputs 0 and 1 are the voltages of feeders 0 and 1 (float, in
 * kV by the scale), 2 that of feeder 2 (32-bit), 3 that of feeder 3 (16-bit): what its regulator is set to and up to 400 V more, drifting, 0 while open.
 * Analog output i sets the regulator of feeder i, of the kind that its analog input has, from 20,000 to 30,000 V; 24,800 V at the start.
 * The clock is simulated too: every frame with good checks moves it on by STEP ms, and all inputs are then read at that time.
 *
 * The receiver finds the frames in what comes (piece_receive); the rest of a piece is given again. Each frame then goes the whole way: link_receive,
 * segment_receive, the readings (one table), fragment, the feeders, then segment_send and link_data. The link takes a frame's bytes: the frame
 * is written again, to the same bytes. The line record has what the link took and refused; the receiver's refusals (12 to 15) are counted here.
 *
 * Stack: POMARISCO_STACK. The state below is all there is. */
#define _POSIX_C_SOURCE 200809L
#include <stdbool.h>
#include <stdio.h>
#include <unistd.h>

#include "pomarisco.h"

enum { OWN = 1, MASTER = 2, FEEDERS = 4, STEP = 100, ONLINE = 1, PIECE = 1024, LOWEST = 20000, HIGHEST = 30000, START = 24800 };

static const struct pomarisco_station station = {.own = OWN, .master = MASTER};
static const uint8_t classes[FEEDERS] = {1, 1, 1, 2};

static struct pomarisco_outstation outstation;
static struct pomarisco_line line;
static struct pomarisco_receiver receiver;
static struct pomarisco_assembly assembly;
static struct pomarisco_sender sender;
static uint8_t fragment[POMARISCO_FRAGMENT];
static uint64_t clock_ms;
static unsigned long off_the_wire[4]; /* refusals 12, 13, 14, 15 of the receiver */
static bool closed[FEEDERS] = {true, true, true, true};
static int32_t regulated[FEEDERS] = {START, START, START, START};

/* ---- the simulated cubicle */

static int32_t volts(int feeder) {
    const uint64_t ticks = clock_ms / STEP;
    return closed[feeder] ? regulated[feeder] + (int32_t)((ticks * 37 + (uint64_t)feeder * 91) % 401) : 0;
}

static bool read_inputs(void) {
    struct pomarisco_reading table[2 * FEEDERS];
    size_t taken;
    for (int i = 0; i < FEEDERS; i++) {
        const uint16_t point = (uint16_t)i;
        table[i] = pomarisco_binary_reading(clock_ms, point, closed[i], ONLINE);
        table[FEEDERS + i] = i < 2 ? pomarisco_float_reading(clock_ms, point, (float)volts(i), ONLINE) : pomarisco_whole_reading(clock_ms, point, volts(i), ONLINE);
    }
    return pomarisco_table(&outstation, table, 2 * FEEDERS, &taken) == 0;
}

/* Two float points in kV, a 32-bit and a 16-bit point in V; all analog outputs in V. */
static bool restart(void) {
    const struct pomarisco_setup setup = {
        .arm_time = 300, .confirm_time = 400, .own = OWN, .master = MASTER, .outputs = FEEDERS, .analog_output_count = FEEDERS,
        .analog_outputs = {pomarisco_output_float(LOWEST, HIGHEST), pomarisco_output_float(LOWEST, HIGHEST), pomarisco_output_32(LOWEST, HIGHEST), pomarisco_output_16(LOWEST, HIGHEST)},
    };
    const struct pomarisco_analog_setup analogs[FEEDERS] = {
        pomarisco_point_float(2, 0.001f, 0.0f, POMARISCO_BEYOND, 0.125f),
        pomarisco_point_float(3, 0.001f, 0.5f, POMARISCO_SUMMED, 0.5f),
        pomarisco_point_32(2, POMARISCO_BEYOND, 100),
        pomarisco_point_16(3, POMARISCO_SUMMED, 1000),
    };
    return pomarisco_restart(&outstation, setup, classes, FEEDERS, analogs, FEEDERS) == 0;
}

/* Only what the outstation hands over is carried out, in its order. */
static void operate(const struct pomarisco_operated *o) {
    const struct pomarisco_crobs *c = &o->crobs;
    const struct pomarisco_analog_commands *a = &o->analog_commands;
    for (size_t i = 0; i < c->count; i++)
        if (c->items[i].index < FEEDERS) closed[c->items[i].index] = c->items[i].code != 0x04 && c->items[i].code != 0x81;
    for (size_t i = 0; i < a->count; i++)
        if (a->items[i].index < FEEDERS) regulated[a->items[i].index] = a->items[i].kind == 2 ? (int32_t)pomarisco_bits_float(a->items[i].bits) : pomarisco_bits_whole(a->items[i].bits);
}

/* ---- to the master */

static void put(const uint8_t *frame, struct pomarisco_wrote w) {
    if (w.refusal != 0) return;
    fwrite(frame, 1, w.size, stdout);
    fflush(stdout);
}

static void send_fragment(const uint8_t *bytes, size_t length) {
    uint8_t segment[POMARISCO_USER], frame[POMARISCO_FRAME];
    for (;;) {
        const struct pomarisco_sent s = pomarisco_segment_send_at(&sender, bytes, length, segment, sizeof segment);
        if (s.refusal != 0) return;
        put(frame, pomarisco_link_data(frame, sizeof frame, station, segment, s.size));
        if (s.last) return;
    }
}

/* ---- from the master */

static void take_segment(const uint8_t *bytes, size_t length) {
    static uint8_t answer[POMARISCO_FRAGMENT];
    struct pomarisco_operated operated;
    const struct pomarisco_segment s = pomarisco_segment_receive_at(&assembly, bytes, length, fragment, sizeof fragment);
    if (s.kind != 1) return;
    const struct pomarisco_fragment_answer a = pomarisco_fragment(&outstation, clock_ms, fragment, s.length, answer, sizeof answer, &operated);
    operate(&operated);
    if (a.kind == 0) send_fragment(answer, a.length);
}

/* A frame that the receiver delivered. */
static void take_frame(const struct pomarisco_frame *f, const uint8_t *bytes) {
    uint8_t user[POMARISCO_USER], frame[POMARISCO_FRAME];
    const struct pomarisco_wrote w = pomarisco_frame_write(frame, sizeof frame, f->control, f->destination, f->source, bytes, f->length);
    const struct pomarisco_taken t = pomarisco_link_receive_at(&line, station, frame, w.size, user, sizeof user);
    clock_ms += STEP;
    if (!read_inputs()) return;
    if (t.kind == 0) take_segment(user, t.length);
    if (t.kind == 1) put(frame, pomarisco_link_reply(frame, sizeof frame, station, t.control));
}

/* A piece off the wire: what a call leaves of it is given again. */
static void take_piece(const uint8_t *piece, size_t length) {
    uint8_t user[POMARISCO_USER];
    for (size_t at = 0; at < length;) {
        const struct pomarisco_piece p = pomarisco_piece_receive_at(&receiver, piece + at, length - at, user, sizeof user);
        at += p.taken;
        if (p.waits) continue;
        if (p.frame.refusal == 0) take_frame(&p.frame, user);
        else off_the_wire[p.frame.refusal - 12]++;
    }
}

int main(void) {
    uint8_t piece[PIECE];
    ssize_t length;
    if (!restart()) return 1;
    while ((length = read(STDIN_FILENO, piece, sizeof piece)) > 0) take_piece(piece, (size_t)length);
    fprintf(stderr, "rec %u,%u,%u,%u,%u,%u,%u", line.accepted, line.short_frame, line.start, line.header_check, line.length, line.block_check, line.not_taken);
    for (size_t k = 0; k < POMARISCO_BLOCKS; k++) fprintf(stderr, ",%u", line.blocks[k]);
    fputs("\noff the wire", stderr);
    for (int i = 0; i < 4; i++) fprintf(stderr, " %d:%lu", 12 + i, off_the_wire[i]);
    fputc('\n', stderr);
    return length < 0;
}
