/* A call script on standard input, an answer a line on standard output, every call made over pomarisco.h.
 *
 * The words are those of the program `console` and of the second program (reference/README.md, "Grammar decisions"), so that the
 * exported calls can be compared with the second program on random scripts: tests/compare target/host/calls
 *
 * The one thing not asked of the library is `crc`: no exported call gives the check alone, so it is worked out here.
 *
 * Built with APART, each array of the outstation and all that is lent has a place of its own and of exactly its size, and the exported calls are made
 * directly: a byte too far is seen. With the address sanitizer the places are malloc'ed (it sees this file, memcpy and memset); without it
 * each ends where a page begins that may not be touched (so the library's own loads and stores are seen too). */
#define _GNU_SOURCE
#include <stdbool.h>
#include <stdio.h>
#include <stdlib.h>
#include <string.h>
#include <sys/mman.h>

#include "pomarisco.h"

enum { LINE = 65536, LENT = 65536, FILL = 0xA5, MOST = 64, OUTPUTS = POMARISCO_ANALOG_OUTPUTS, WORDS = 8 + MOST + MOST + 2 + OUTPUTS, TABLE = 128 };

/* ---- places */

enum place { GIVEN, OUTPUT, CLASSES, SETUPS, READINGS, EVENTS, BINARIES, ANALOGS, ANALOG_OUTPUTS, REQUEST, ANSWER, OBJECTS, KEPT, PLACES };

/* Memory for so many bytes, until the next for the same use. Aligned for what is kept there: sizes are whole structs. */
static void *place(enum place which, size_t n) {
    static void *at[PLACES];
#if defined APART && defined __SANITIZE_ADDRESS__
    free(at[which]);
    at[which] = malloc(n);
    return at[which];
#elif defined APART
    const size_t page = 4096;
    if (at[which] == NULL) {
        at[which] = mmap(NULL, LENT + page, PROT_READ | PROT_WRITE, MAP_PRIVATE | MAP_ANONYMOUS, -1, 0);
        if (at[which] == MAP_FAILED || mprotect((uint8_t *)at[which] + LENT, page, PROT_NONE) != 0) exit(2);
    }
    return (uint8_t *)at[which] + LENT - n;
#else
    if (at[which] == NULL) at[which] = malloc(LENT);
    (void)n;
    return at[which];
#endif
}

/* Of exactly their size. */
static void *copied(enum place which, const void *from, size_t n) {
    void *to = place(which, n);
    if (n != 0) memcpy(to, from, n);
    return to;
}

/* ---- what the host keeps */

static bool there;
static struct pomarisco_setup setup;
static size_t class_count, setup_count;
static uint8_t classes[256];
static struct pomarisco_analog_setup setups[256];
static struct pomarisco_station addresses;
static struct pomarisco_outstation outstation;
static struct pomarisco_line line_record;
static struct pomarisco_receiver receiver;
static struct pomarisco_assembly assembly;
static struct pomarisco_sender sender;
static uint8_t together[LENT];

/* Bytes lent for one call, and what they were before it. */
static uint8_t *lent, before[LENT];
static uint8_t given[LINE];

/* ---- the outstation */

#ifdef APART

static uint64_t *events;
static uint32_t *binaries, *analogs, *analog_outputs;
static uint8_t *request, *answer, *latch_objects;

/* Whatever an outstation was, a restart makes it a fresh one. */
static void forget(void) {
    memset(&outstation, FILL, sizeof outstation);
    events = copied(EVENTS, outstation.events, sizeof outstation.events);
    binaries = copied(BINARIES, outstation.binaries, sizeof outstation.binaries);
    analogs = copied(ANALOGS, outstation.analogs, sizeof outstation.analogs);
    analog_outputs = copied(ANALOG_OUTPUTS, outstation.analog_outputs, sizeof outstation.analog_outputs);
    request = copied(REQUEST, outstation.request, sizeof outstation.request);
    answer = copied(ANSWER, outstation.answer, sizeof outstation.answer);
    latch_objects = copied(OBJECTS, outstation.latch_objects, sizeof outstation.latch_objects);
}

static uint8_t restart(void) {
    const uint8_t *c = copied(CLASSES, classes, class_count);
    const struct pomarisco_analog_setup *a = copied(SETUPS, setups, setup_count * sizeof *setups);
    const struct pomarisco_restarted r = pomarisco_lent_restart(setup, c, class_count, a, setup_count, binaries, analogs, analog_outputs);
    outstation.head = r.head;
    return r.refusal;
}

static uint8_t take_reading(struct pomarisco_reading r) {
    const struct pomarisco_took t = pomarisco_lent_reading(outstation.head, binaries, analogs, events, r);
    outstation.head = t.head;
    return t.refusal;
}

static uint8_t take_table(const struct pomarisco_reading *readings, size_t n, size_t *taken) {
    const struct pomarisco_table_took t = pomarisco_lent_table(outstation.head, binaries, analogs, events, copied(READINGS, readings, n * sizeof *readings), n);
    outstation.head = t.head;
    *taken = t.taken;
    return t.refusal;
}

static struct pomarisco_fragment_answer take_fragment(uint64_t time, const uint8_t *bytes, size_t size, uint8_t *out, size_t length, struct pomarisco_operated *operated) {
    const struct pomarisco_answer a = pomarisco_lent_fragment(outstation.head, binaries, analogs, events, request, answer, latch_objects, analog_outputs, time, bytes, size, out, length);
    outstation.head = a.head;
    *operated = a.operated;
    return a.answer;
}

static struct pomarisco_piece take_piece(const uint8_t *piece, size_t size, uint8_t *out, size_t length) {
    uint8_t *memory = copied(KEPT, receiver.bytes, sizeof receiver.bytes);
    const struct pomarisco_piece p = pomarisco_piece_receive(memory, receiver.kept, piece, size, out, length);
    memcpy(receiver.bytes, memory, sizeof receiver.bytes);
    receiver.kept = p.kept;
    return p;
}

static const struct pomarisco_outstation *seen(void) {
    memcpy(outstation.events, events, sizeof outstation.events);
    return &outstation;
}

#else

static void forget(void) { memset(&outstation, FILL, sizeof outstation); }

static uint8_t restart(void) { return pomarisco_restart(&outstation, setup, classes, class_count, setups, setup_count); }

static uint8_t take_reading(struct pomarisco_reading r) { return pomarisco_reading(&outstation, r); }

static uint8_t take_table(const struct pomarisco_reading *readings, size_t n, size_t *taken) { return pomarisco_table(&outstation, readings, n, taken); }

static struct pomarisco_fragment_answer take_fragment(uint64_t time, const uint8_t *bytes, size_t size, uint8_t *out, size_t length, struct pomarisco_operated *operated) {
    return pomarisco_fragment(&outstation, time, bytes, size, out, length, operated);
}

static struct pomarisco_piece take_piece(const uint8_t *piece, size_t size, uint8_t *out, size_t length) {
    return pomarisco_piece_receive_at(&receiver, piece, size, out, length);
}

static const struct pomarisco_outstation *seen(void) { return &outstation; }

#endif

/* ---- words */

struct word { const char *at; size_t size; };

static bool is(struct word w, const char *text) { return w.size == strlen(text) && memcmp(w.at, text, w.size) == 0; }

/* Splits at every separator. Gives how many words there are, most + 1 for more. */
static size_t split(struct word w, char separator, struct word *words, size_t most) {
    size_t count = 0, from = 0;
    for (size_t i = 0; i <= w.size; i++) {
        if (i < w.size && w.at[i] != separator) continue;
        if (count == most) return most + 1;
        words[count++] = (struct word){w.at + from, i - from};
        from = i + 1;
    }
    return count;
}

static bool number(struct word w, uint64_t most, uint64_t *n) {
    if (w.size == 0 || (w.size > 1 && w.at[0] == '0')) return false;
    *n = 0;
    for (size_t i = 0; i < w.size; i++) {
        if (w.at[i] < '0' || w.at[i] > '9') return false;
        const uint64_t digit = (uint64_t)(w.at[i] - '0');
        if (*n > (UINT64_MAX - digit) / 10) return false;
        *n = *n * 10 + digit;
    }
    return *n <= most;
}

/* The sign and the size of a signed number that is not minus zero. */
static bool signed_number(struct word w, uint64_t least, uint64_t most, bool *minus, uint64_t *n) {
    *minus = w.size > 0 && w.at[0] == '-';
    if (!*minus) return number(w, most, n);
    return number((struct word){w.at + 1, w.size - 1}, least, n) && *n != 0;
}

static int digit(char c) {
    if (c >= '0' && c <= '9') return c - '0';
    if (c >= 'A' && c <= 'F') return c - 'A' + 10;
    return -1;
}

static bool hex(struct word w, uint8_t *bytes, size_t *n) {
    *n = 0;
    if (is(w, "-")) return true;
    if (w.size == 0 || w.size % 2 == 1) return false;
    for (size_t i = 0; i < w.size; i += 2) {
        const int high = digit(w.at[i]), low = digit(w.at[i + 1]);
        if (high < 0 || low < 0) return false;
        bytes[(*n)++] = (uint8_t)(high << 4 | low);
    }
    return true;
}

/* A float's bits. */
static bool real(struct word w, uint32_t *bits) {
    uint8_t b[4];
    size_t n;
    if (w.size != 8 || !hex(w, b, &n)) return false;
    *bits = (uint32_t)b[0] << 24 | (uint32_t)b[1] << 16 | (uint32_t)b[2] << 8 | b[3];
    return true;
}

static bool length(struct word w, size_t *n) {
    uint64_t x;
    if (!number(w, LENT, &x)) return false;
    *n = x;
    return true;
}

/* ---- answers */

static void put_hex(const uint8_t *bytes, size_t n) {
    static const char digits[] = "0123456789ABCDEF";
    if (n == 0) putchar('-');
    for (size_t i = 0; i < n; i++) {
        putchar(digits[bytes[i] >> 4]);
        putchar(digits[bytes[i] & 15]);
    }
}

static void lend(size_t n) {
    lent = place(OUTPUT, n);
    if (n != 0) memset(lent, FILL, n);
}

/* The bytes of the call. */
static const uint8_t *give(size_t n) { return copied(GIVEN, given, n); }

/* Whether lent bytes from a place on are no longer as they were filled. */
static bool touched(size_t from, size_t n) {
    for (size_t i = from; i < n; i++)
        if (lent[i] != FILL) return true;
    return false;
}

static void spoilt(size_t from, size_t n) {
    if (touched(from, n)) fputs(" spoilt", stdout);
}

static bool refused(uint8_t n) {
    if (n != 0) printf("no %u", n);
    return n != 0;
}

static void outcome(uint8_t n) {
    if (!refused(n)) fputs("ok", stdout);
}

static bool none(void) {
    if (!there) fputs("none", stdout);
    return !there;
}

/* ---- setup */

/* What a restart forgets beside the outstation; the line record stays. */
static void forget_line(void) {
    memset(&receiver, 0, sizeof receiver);
    memset(&assembly, 0, sizeof assembly);
    memset(&sender, 0, sizeof sender);
}

static bool whole_limit(struct word w, uint32_t *limit, bool *fits) {
    bool minus;
    uint64_t n;
    if (!signed_number(w, (uint64_t)1 << 63, INT64_MAX, &minus, &n)) return false;
    if (minus || n > UINT32_MAX) *fits = false;
    else *limit = (uint32_t)n;
    return true;
}

/* `fits` becomes false where the word is well formed and the struct cannot hold it: the answer is then 5. */
static bool analog(struct word w, struct pomarisco_analog_setup *a, bool *fits) {
    struct word p[6];
    uint64_t class_;
    if (split(w, ',', p, 6) != 6 || !number(p[0], 255, &class_)) return false;
    const bool floating = is(p[1], "5");
    if (!floating && !is(p[1], "1") && !is(p[1], "2")) return false;
    if (p[4].size != 1 || p[4].at[0] < '0' || p[4].at[0] > '3') return false;
    const uint8_t gate = (uint8_t)(p[4].at[0] - '0');
    memset(a, 0, sizeof *a);
    a->class_ = (uint8_t)class_;
    a->kind = floating ? 2 : (uint8_t)(p[1].at[0] - '1');
    a->gate = gate;
    if (floating) {
        if (!real(p[2], &a->gain) || !real(p[3], &a->offset)) return false;
        return gate < 2 ? is(p[5], "-") : real(p[5], &a->limit);
    }
    if (!is(p[2], "-") || !is(p[3], "-")) return false;
    return gate < 2 ? is(p[5], "-") : whole_limit(p[5], &a->limit, fits);
}

static bool whole_end(struct word w, uint32_t *end, bool *fits) {
    bool minus;
    uint64_t n;
    if (!signed_number(w, (uint64_t)1 << 63, INT64_MAX, &minus, &n)) return false;
    if (n > (uint64_t)INT32_MAX + minus) *fits = false;
    *end = (uint32_t)(minus ? 0 - n : n);
    return true;
}

/* An analog output; `fits` as for an analog. */
static bool set_point(struct word w, struct pomarisco_analog_output *s, bool *fits) {
    struct word p[3];
    if (split(w, ',', p, 3) != 3 || p[0].size != 1 || p[0].at[0] < '1' || p[0].at[0] > '3') return false;
    s->kind = (uint8_t)(p[0].at[0] - '1');
    if (s->kind == 2) return real(p[1], &s->low) && real(p[2], &s->high);
    return whole_end(p[1], &s->low, fits) && whole_end(p[2], &s->high, fits);
}

/* Nothing, or `s`, how many, and a word for each: above 16 only 16 are said. */
static bool set_points(const struct word *w, size_t n, struct pomarisco_setup *s, bool *fits) {
    uint64_t ns;
    /* Those that are not said would be refused if they counted. */
    for (size_t i = 0; i < OUTPUTS; i++) s->analog_outputs[i] = pomarisco_output_32(1, 0);
    if (n == 0) return true;
    if (n < 2 || !is(w[0], "s") || !number(w[1], 255, &ns) || n != 2 + (ns < OUTPUTS ? ns : OUTPUTS)) return false;
    for (size_t i = 2; i < n; i++)
        if (!set_point(w[i], &s->analog_outputs[i - 2], fits)) return false;
    s->analog_output_count = (uint16_t)ns;
    return true;
}

static bool call_setup(const struct word *w, size_t n) {
    static struct pomarisco_analog_setup as[MOST];
    struct pomarisco_setup s = {0};
    uint8_t cs[MOST];
    uint64_t own, master, arm, confirm, nb, na, no, class_;
    bool fits = true;
    if (n < 8 || !number(w[1], 65535, &own) || !number(w[2], 65535, &master) || !number(w[3], UINT32_MAX, &arm) || !number(w[4], UINT32_MAX, &confirm) || !number(w[5], 255, &nb) || !number(w[6], 255, &na) || !number(w[7], 255, &no)) return false;
    const size_t b = nb < MOST ? nb : MOST, a = na < MOST ? na : MOST;
    if (n < 8 + b + a) return false;
    for (size_t i = 0; i < b; i++) {
        if (!number(w[8 + i], 255, &class_)) return false;
        cs[i] = (uint8_t)class_;
    }
    for (size_t i = 0; i < a; i++)
        if (!analog(w[8 + b + i], &as[i], &fits)) return false;
    if (!set_points(w + 8 + b + a, n - 8 - b - a, &s, &fits)) return false;
    s.arm_time = (uint32_t)arm;
    s.confirm_time = (uint32_t)confirm;
    s.own = (uint16_t)own;
    s.master = (uint16_t)master;
    s.outputs = (uint16_t)no;
    setup = s;
    addresses = (struct pomarisco_station){.own = setup.own, .master = setup.master};
    /* Above 64 only 64 are said; the others are as good. */
    class_count = nb;
    setup_count = na;
    memset(classes, 0, sizeof classes);
    memset(setups, 0, sizeof setups);
    memcpy(classes, cs, b);
    memcpy(setups, as, a * sizeof *as);
    memset(together, FILL, sizeof together);
    forget_line();
    forget();
    const uint8_t refusal = fits ? restart() : 5;
    there = refusal == 0;
    outcome(refusal);
    return true;
}

/* ---- readings */

static bool reading(char kind, const struct word *w, struct pomarisco_reading *r) {
    uint64_t time, point, flags, value;
    uint32_t bits;
    bool minus;
    if (!number(w[0], UINT64_MAX, &time) || !number(w[1], 255, &point) || !number(w[3], 255, &flags)) return false;
    if (kind == 'b') {
        if (!number(w[2], 1, &value)) return false;
        *r = pomarisco_binary_reading(time, (uint16_t)point, (uint8_t)value, (uint8_t)flags);
    } else if (kind == 'a') {
        if (!signed_number(w[2], (uint64_t)1 << 31, INT32_MAX, &minus, &value)) return false;
        *r = pomarisco_whole_reading(time, (uint16_t)point, (int32_t)(minus ? -(int64_t)value : (int64_t)value), (uint8_t)flags);
    } else {
        if (!real(w[2], &bits)) return false;
        *r = pomarisco_float_reading(time, (uint16_t)point, pomarisco_bits_float(bits), (uint8_t)flags);
    }
    return true;
}

static bool call_reading(char kind, const struct word *w, size_t n) {
    struct pomarisco_reading r;
    if (n != 5 || !reading(kind, w + 1, &r)) return false;
    if (!none()) outcome(take_reading(r));
    return true;
}

static bool call_table(const struct word *w, size_t n) {
    static struct pomarisco_reading readings[TABLE];
    struct word p[5];
    size_t taken;
    if (n > 1 + TABLE) return false;
    for (size_t i = 1; i < n; i++)
        if (split(w[i], ',', p, 5) != 5 || (!is(p[0], "b") && !is(p[0], "a") && !is(p[0], "f")) || !reading(p[0].at[0], p + 1, &readings[i - 1])) return false;
    if (none()) return true;
    const uint8_t refusal = take_table(readings, n - 1, &taken);
    printf("took %zu ", taken);
    outcome(refusal);
    return true;
}

static bool call_held(size_t n) {
    if (n != 1) return false;
    if (none()) return true;
    const struct pomarisco_outstation *o = seen();
    printf("held %zu", pomarisco_held(o));
    for (size_t i = 0; i < pomarisco_held(o); i++) {
        const struct pomarisco_event e = pomarisco_event_at(o, i);
        if (e.kind == 3) printf(" b,%u,%u", e.point, e.bits);
        else if (e.kind == 2) printf(" 5,%u,%08X", e.point, e.bits);
        else printf(" %u,%u,%d", e.kind + 1, e.point, pomarisco_bits_whole(e.bits));
        printf(",%u,%llu", e.flags, (unsigned long long)e.time);
    }
    return true;
}

/* ---- fragments */

static void put_32(uint8_t *at, uint32_t x) {
    for (int i = 0; i < 4; i++) at[i] = (uint8_t)(x >> 8 * i);
}

static void put_crob(const struct pomarisco_crob *x) {
    uint8_t b[11] = {x->code, x->count};
    put_32(b + 2, x->on_time);
    put_32(b + 6, x->off_time);
    b[10] = x->status;
    printf(" %u:", x->index);
    put_hex(b, 11);
}

/* Value and status; of 16 bits two bytes, where the value has no more. */
static void put_analog_command(const struct pomarisco_analog_command *x) {
    const size_t n = x->kind == 1 && x->bits == (uint32_t)(int16_t)x->bits ? 2 : 4;
    uint8_t b[5];
    put_32(b, x->bits);
    b[n] = x->status;
    printf(" %u@%u:", x->kind + 1u, x->index);
    put_hex(b, n + 1);
}

static void put_operated(const struct pomarisco_operated *o) {
    if (o->crobs.count == 0 && o->analog_commands.count == 0) fputs(" -", stdout);
    for (size_t i = 0; i < o->crobs.count; i++) put_crob(&o->crobs.items[i]);
    for (size_t i = 0; i < o->analog_commands.count; i++) put_analog_command(&o->analog_commands.items[i]);
}

static bool call_frag(const struct word *w, size_t n) {
    struct pomarisco_operated operated;
    uint64_t time;
    size_t len, size;
    if (n != 4 || !number(w[1], UINT64_MAX, &time) || !length(w[2], &len) || !hex(w[3], given, &size)) return false;
    if (none()) return true;
    lend(len);
    const struct pomarisco_fragment_answer a = take_fragment(time, give(size), size, lent, len, &operated);
    if (a.kind == 0) {
        fputs("ans ", stdout);
        put_hex(lent, a.length);
        put_operated(&operated);
    } else if (a.kind == 1) {
        fputs("mute", stdout);
        put_operated(&operated);
    } else if (a.kind == 2) {
        fputs("conf", stdout);
    } else {
        printf("no %u", a.refusal);
    }
    /* Only an answered or a silent fragment hands objects over. */
    if (a.kind > 1 && operated.crobs.count + operated.analog_commands.count != 0) fputs(" operated", stdout);
    spoilt(a.kind == 0 ? a.length : 0, len);
    return true;
}

/* ---- the line */

/* 23 counts; 7 are still taken, and set those of the blocks to 0. */
static bool call_record(const struct word *w, size_t n) {
    enum { FIRST = 7, ALL = FIRST + POMARISCO_BLOCKS };
    struct word p[ALL];
    uint64_t c[ALL] = {0};
    if (n != 2) return false;
    const size_t counts = split(w[1], ',', p, ALL);
    if (counts != FIRST && counts != ALL) return false;
    for (size_t i = 0; i < counts; i++)
        if (!number(p[i], 65535, &c[i])) return false;
    line_record = (struct pomarisco_line){.accepted = (uint16_t)c[0], .short_frame = (uint16_t)c[1], .start = (uint16_t)c[2], .header_check = (uint16_t)c[3], .length = (uint16_t)c[4], .block_check = (uint16_t)c[5], .not_taken = (uint16_t)c[6]};
    for (size_t k = 0; k < POMARISCO_BLOCKS; k++) line_record.blocks[k] = (uint16_t)c[FIRST + k];
    fputs("ok", stdout);
    return true;
}

/* A frame's refusal; 15 with its block. Any other carries none. */
static void put_frame_refusal(uint8_t refusal, uint8_t block) {
    printf("no %u", refusal);
    if (refusal == 15 || block != 0) printf(" %u", block);
}

static bool call_station(const struct word *w, size_t n) {
    const struct pomarisco_line *l = &line_record;
    uint8_t reply[POMARISCO_FRAME];
    size_t len, size;
    if (n != 3 || !length(w[1], &len) || !hex(w[2], given, &size)) return false;
    if (none()) return true;
    lend(len);
    const struct pomarisco_taken t = pomarisco_link_receive_at(&line_record, addresses, give(size), size, lent, len);
    if (t.kind == 0) {
        fputs("data ", stdout);
        put_hex(lent, t.length);
    } else if (t.kind == 1) {
        const struct pomarisco_wrote r = pomarisco_link_reply(reply, sizeof reply, addresses, t.control);
        printf("reply %02X ", t.control);
        put_hex(reply, r.size);
    } else {
        put_frame_refusal(t.refusal, t.block);
    }
    printf(" rec %u,%u,%u,%u,%u,%u,%u", l->accepted, l->short_frame, l->start, l->header_check, l->length, l->block_check, l->not_taken);
    for (size_t k = 0; k < POMARISCO_BLOCKS; k++) printf(",%u", l->blocks[k]);
    spoilt(t.kind == 0 ? t.length : 0, len);
    return true;
}

static bool call_seg(const struct word *w, size_t n) {
    size_t len, size, end = 0;
    if (n != 3 || !length(w[1], &len) || !hex(w[2], given, &size)) return false;
    if (none()) return true;
    memcpy(before, together, len);
    lent = copied(OUTPUT, together, len);
    const struct pomarisco_segment s = pomarisco_segment_receive_at(&assembly, give(size), size, lent, len);
    if (len != 0) memcpy(together, lent, len);
    if (s.kind == 0) {
        end = assembly.length;
        fputs("more", stdout);
    } else if (s.kind == 1) {
        end = s.length;
        fputs("whole ", stdout);
        put_hex(together, end);
    } else {
        printf("no %u", s.refusal);
    }
    if (memcmp(before + end, together + end, len - end) != 0) fputs(" spoilt", stdout);
    return true;
}

static bool call_send(const struct word *w, size_t n) {
    size_t len, size;
    bool clean = true, begun = false;
    if (n != 3 || !length(w[1], &len) || !hex(w[2], given, &size)) return false;
    if (none()) return true;
    for (;;) {
        lend(len);
        const struct pomarisco_sent s = pomarisco_segment_send_at(&sender, give(size), size, lent, len);
        clean &= !touched(s.refusal == 0 ? s.size : 0, len);
        if (refused(s.refusal)) break;
        if (!begun) fputs("segs", stdout);
        begun = true;
        putchar(' ');
        put_hex(lent, s.size);
        if (s.last) break;
    }
    if (!clean) fputs(" spoilt", stdout);
    return true;
}

static bool call_frame_write(const struct word *w, size_t n) {
    uint64_t destination, source;
    uint8_t control;
    size_t len, size, one;
    if (n != 6 || !length(w[1], &len) || w[2].size != 2 || !hex(w[2], &control, &one) || !number(w[3], 65535, &destination) || !number(w[4], 65535, &source) || !hex(w[5], given, &size)) return false;
    lend(len);
    /* Control 44 is data to a master, which has its own call. */
    const struct pomarisco_station station = {.own = (uint16_t)source, .master = (uint16_t)destination};
    const struct pomarisco_wrote r = control == 0x44 ? pomarisco_link_data(lent, len, station, give(size), size)
                                                     : pomarisco_frame_write(lent, len, control, station.master, station.own, give(size), size);
    if (!refused(r.refusal)) {
        fputs("frame ", stdout);
        put_hex(lent, r.size);
    }
    spoilt(r.refusal == 0 ? r.size : 0, len);
    return true;
}

static void put_frame(const struct pomarisco_frame *f) {
    if (f->refusal != 0) {
        put_frame_refusal(f->refusal, f->block);
    } else {
        printf("user %02X %u %u ", f->control, f->destination, f->source);
        put_hex(lent, f->length);
    }
}

static bool call_frame_read(const struct word *w, size_t n) {
    size_t len, size;
    if (n != 3 || !length(w[1], &len) || !hex(w[2], given, &size)) return false;
    lend(len);
    const struct pomarisco_frame f = pomarisco_frame_read(give(size), size, lent, len);
    put_frame(&f);
    spoilt(f.refusal == 0 ? f.length : 0, len);
    return true;
}

static bool call_piece(const struct word *w, size_t n) {
    size_t len, size;
    if (n != 3 || !length(w[1], &len) || !hex(w[2], given, &size)) return false;
    lend(len);
    const struct pomarisco_piece p = take_piece(give(size), size, lent, len);
    if (p.waits) fputs("waits", stdout);
    else put_frame(&p.frame);
    printf(" taken %zu", p.taken);
    spoilt(p.frame.refusal == 0 ? p.frame.length : 0, len);
    return true;
}

static bool call_crc(const struct word *w, size_t n) {
    uint16_t rest = 0;
    size_t size;
    if (n != 2 || !hex(w[1], given, &size)) return false;
    for (size_t i = 0; i < size; i++) {
        rest ^= given[i];
        for (int k = 0; k < 8; k++) rest = rest & 1 ? (uint16_t)(rest >> 1 ^ 0xA6BC) : (uint16_t)(rest >> 1);
    }
    rest = (uint16_t)~rest;
    fputs("crc ", stdout);
    put_hex((const uint8_t[]){(uint8_t)rest, (uint8_t)(rest >> 8)}, 2);
    return true;
}

/* ---- lines */

/* False: no call. */
static bool call(struct word line) {
    static struct word w[WORDS];
    const size_t n = split(line, ' ', w, WORDS);
    if (n > WORDS) return false;
    if (is(w[0], "setup")) return call_setup(w, n);
    if (is(w[0], "restart")) {
        if (n != 1) return false;
        if (none()) return true;
        outcome(restart());
        forget_line();
        return true;
    }
    if (is(w[0], "bin")) return call_reading('b', w, n);
    if (is(w[0], "ana")) return call_reading('a', w, n);
    if (is(w[0], "flt")) return call_reading('f', w, n);
    if (is(w[0], "table")) return call_table(w, n);
    if (is(w[0], "frag")) return call_frag(w, n);
    if (is(w[0], "held")) return call_held(n);
    if (is(w[0], "station")) return call_station(w, n);
    if (is(w[0], "record")) return call_record(w, n);
    if (is(w[0], "seg")) return call_seg(w, n);
    if (is(w[0], "send")) return call_send(w, n);
    if (is(w[0], "frame-write")) return call_frame_write(w, n);
    if (is(w[0], "frame-read")) return call_frame_read(w, n);
    if (is(w[0], "piece")) return call_piece(w, n);
    if (is(w[0], "crc")) return call_crc(w, n);
    return false;
}

int main(void) {
    static char line[LINE];
    int c = 0;
    while (c != EOF) {
        size_t size = 0;
        while ((c = getchar()) != EOF && c != '\n') {
            if (size < LINE) line[size] = (char)c;
            size++;
        }
        if (size == 0 || (size <= LINE && line[0] == '#')) continue;
        if (size > LINE || !call((struct word){line, size})) fputs("fault", stdout);
        putchar('\n');
    }
    return 0;
}
