/* Holds the header's records to the library's own: how large they are, and where each field lies.
 * C fills a layout by the header's fields and writes it as a layout file; what the library loads from the file must be the same bytes.
 * Then events that touch the first and the last entry of each table of a state must change the bytes that C finds under that name, and
 * no other; so must sections that are told as fitted, what their heads tell, and what lamps report. */
#include <string.h>

#include "expect.h"
#include "hiruketawha.h"
#include "wide.h"

enum { UNTOUCHED = 0xEE, GUARD = 64 };

/* A record with bytes before and after it that nobody lends. */
#define GUARDED(type, name)                                                          \
    static struct {                                                                  \
        uint8_t before[GUARD];                                                       \
        struct type record;                                                          \
        uint8_t after[GUARD];                                                        \
    } name

GUARDED(hiruketawha_layout, layout);
GUARDED(hiruketawha_state, state);
static struct hiruketawha_layout wide;
static struct hiruketawha_state want;

static int all(uint8_t byte, const uint8_t *bytes, size_t count) {
    for (size_t i = 0; i < count; i++)
        if (bytes[i] != byte) return 0;
    return 1;
}

/* ---- the tests */

static void forget(void) {
    memset(&state, UNTOUCHED, sizeof state);
    memset(&layout, UNTOUCHED, sizeof layout);
}

/* The state is cold, and no byte beside the records is written. */
static void expect_cold(void) {
    EXPECT(memcmp(&state.record, &want, sizeof want) == 0);
    EXPECT(all(UNTOUCHED, state.before, GUARD) && all(UNTOUCHED, state.after, GUARD));
    EXPECT(all(UNTOUCHED, layout.before, GUARD) && all(UNTOUCHED, layout.after, GUARD));
}

/* What is wanted is the cold state. */
static void fill_cold(void) {
    memset(&want, 0, sizeof want);
    memset(want.section, 3, sizeof want.section);
    memset(want.point, 3, sizeof want.point);
    memset(want.stage, 1, sizeof want.stage);
    memset(want.lamp, 3, sizeof want.lamp);
}

/* Power-on writes every byte of both records. */
static void test_power_on(void) {
    fill_cold();
    forget();
    hiruketawha_power_on(&state.record, &layout.record);
    EXPECT(all(0, (const uint8_t *)&layout.record, sizeof layout.record));
    expect_cold();
}

/* So does a file that is accepted. */
static void test_layout(void) {
    fill_layout(&wide);
    put_layout(&wide);
    forget();
    struct hiruketawha_load_reply loaded = hiruketawha_load(&state.record, &layout.record, file, length);
    EXPECT(loaded.number == 0 && loaded.detail == 0);
    EXPECT(memcmp(&layout.record, &wide, sizeof wide) == 0);
    expect_cold();
}

/* An event that is done and makes the state what is wanted. */
static void done(uint32_t kind, uint32_t first, uint32_t second) {
    struct hiruketawha_reply reply = hiruketawha_event(&state.record, &layout.record, kind, first, second);
    EXPECT(reply.number == 0 && reply.detail == 0);
    EXPECT(memcmp(&state.record, &want, sizeof want) == 0);
}

static void read_section(int section, uint8_t code) {
    want.section[section] = code;
    done(HIRUKETAWHA_READ_SECTION, section, code);
}

static void read_point(int point, uint8_t code) {
    want.point[point] = code;
    done(HIRUKETAWHA_READ_POINT, point, code);
}

static void test_points(void) {
    for (int i = 0; i < 64; i++) read_section(i, 1);
    for (int i = 0; i < 32; i += 31) {
        want.order[i] = 2;
        done(HIRUKETAWHA_THROW, i, 2);
        read_point(i, 2);
    }
}

static void report_lamp(int signal, uint32_t code) {
    want.lamp[signal] = code == 1 || code == 2 ? code : 3;
    done(HIRUKETAWHA_REPORT_LAMP, signal, code);
}

/* The first main signal's lamp, the last one's, and the first and the last block signal's. */
static void test_lamps(void) {
    static const int signals[] = {0, 31, 32, 45};
    for (int i = 0; i < 4; i++)
        for (uint32_t code = 1; code <= 3; code++) report_lamp(signals[i], code);
    report_lamp(0, 2);
    report_lamp(45, 1);
    report_lamp(45, 257);
}

static void test_lines(void) {
    for (int l = 0; l < 8; l += 7) {
        for (int i = 0; i < wide.line[l].blocks; i++) want.stage[8 * l + i] = 0;
        done(HIRUKETAWHA_RELEASE_LINE, l, 1);
        for (int i = 0; i < 8; i++) read_point(wide.line[l].point[i], wide.line[l].position[i]);
        report_lamp(wide.line[l].entrancea, 1 + l % 2);
        want.direction[l] = 2;
        done(HIRUKETAWHA_SECURE_LINE, l, 2);
        int last = wide.line[l].blocks - 1;
        want.bar[8 * l + last] = 1;
        done(HIRUKETAWHA_BAR, l, last);
        want.stage[8 * l + last] = 2;
        read_section(wide.line[l].block[last], 2);
        want.stage[8 * l + last] = 1;
        read_section(wide.line[l].block[last], 1);
    }
}

/* Locked, its first watched section occupied, cancelled, a second, and released by the 90th. */
static void test_route(int r) {
    const struct hiruketawha_route *route = &wide.route[r];
    for (int i = 0; i < 8; i++) read_point(route->point[i], route->position[i]);
    want.phase[r] = 1;
    done(HIRUKETAWHA_SET_ROUTE, r, 0);
    want.phase[r] = 2;
    want.steps[r] = 1;
    read_section(route->path[6], 2);
    want.phase[r] = 3;
    done(HIRUKETAWHA_CANCEL_ROUTE, r, 0);
    for (int second = 1; second < 90; second++) {
        want.seconds[r] = second;
        done(HIRUKETAWHA_SECOND, 0, 0);
    }
    want.phase[r] = want.steps[r] = want.seconds[r] = 0;
    done(HIRUKETAWHA_SECOND, 0, 0);
    read_section(route->path[6], 1);
}

/* ---- heads (request L1) */

/* The first and the last section have heads: they stand in the layout, and the state starts anew. */
static void test_fit(void) {
    static const uint8_t sections[] = {63, 0};
    wide.fitted[0] = wide.fitted[63] = 1;
    struct hiruketawha_load_reply told = hiruketawha_fit(&state.record, &layout.record, sections, sizeof sections);
    EXPECT(told.number == 0 && told.detail == 0);
    EXPECT(memcmp(&layout.record, &wide, sizeof wide) == 0);
    fill_cold();
    expect_cold();
}

/* Each count of both heads, a reset, an axle in, and a silence: what they tell stands there, and the section reads what it says. */
static void test_heads(int section) {
    struct hiruketawha_axles *axles = &want.axles[section];
    axles->head0.inward = 0x0102;
    axles->head0.hasin = 1;
    done(HIRUKETAWHA_AXLES_IN, 2 * section, 0x0102);
    axles->head0.outward = 0x0304;
    axles->head0.hasout = 1;
    done(HIRUKETAWHA_AXLES_OUT, 2 * section, 0x0304);
    axles->head1.inward = 0x0506;
    axles->head1.hasin = 1;
    done(HIRUKETAWHA_AXLES_IN, 2 * section + 1, 0x0506);
    axles->head1.outward = 0x0708;
    axles->head1.hasout = 1;
    done(HIRUKETAWHA_AXLES_OUT, 2 * section + 1, 0x0708);
    axles->sum = 0x0102 + 0x0506 - 0x0304 - 0x0708;
    axles->proof = 1;
    done(HIRUKETAWHA_RESET_AXLES, section, 0);
    axles->head1.inward++;
    axles->proof = 2;
    want.section[section] = 2;
    if (section == 63) want.stage[63] = 2;
    done(HIRUKETAWHA_AXLES_IN, 2 * section + 1, axles->head1.inward);
    memset(&axles->head0, 0, sizeof axles->head0);
    want.section[section] = 3;
    if (section == 63) want.stage[63] = 1;
    done(HIRUKETAWHA_HEAD_SILENT, 2 * section, 0);
}

/* ---- where each field lies, as C has it */

#define FIELD(type, name)                                                                                                         \
    printf("%s.%s at %zu, %zu bytes\n", #type, #name, offsetof(struct hiruketawha_##type, name),                                          \
           sizeof((struct hiruketawha_##type *)0)->name)

static void print_line(void) {
    FIELD(line, blocks);
    FIELD(line, block);
    FIELD(line, innera);
    FIELD(line, innerb);
    FIELD(line, entrancea);
    FIELD(line, entranceb);
    FIELD(line, points);
    FIELD(line, point);
    FIELD(line, position);
}

static void print_route(void) {
    FIELD(route, entry);
    FIELD(route, kind);
    FIELD(route, line);
    FIELD(route, end);
    FIELD(route, diverging);
    FIELD(route, paths);
    FIELD(route, path);
    FIELD(route, overlaps);
    FIELD(route, overlap);
    FIELD(route, points);
    FIELD(route, point);
    FIELD(route, position);
}

static void print_layout(void) {
    FIELD(layout, version);
    FIELD(layout, sections);
    FIELD(layout, points);
    FIELD(layout, pointsection);
    FIELD(layout, signals);
    FIELD(layout, lines);
    FIELD(layout, line);
    FIELD(layout, distants);
    FIELD(layout, carrier);
    FIELD(layout, announced);
    FIELD(layout, routes);
    FIELD(layout, route);
    FIELD(layout, conflict);
    FIELD(layout, fitted);
    FIELD(layout, lacking);
}

static void print_state(void) {
    FIELD(state, section);
    FIELD(state, point);
    FIELD(state, order);
    FIELD(state, phase);
    FIELD(state, steps);
    FIELD(state, seconds);
    FIELD(state, direction);
    FIELD(state, stage);
    FIELD(state, bar);
    FIELD(state, axles);
    FIELD(state, lamp);
}

static void print_axles(void) {
    FIELD(head, inward);
    FIELD(head, outward);
    FIELD(head, hasin);
    FIELD(head, hasout);
    FIELD(axles, head0);
    FIELD(axles, head1);
    FIELD(axles, sum);
    FIELD(axles, proof);
}

int main(void) {
    test_power_on();
    test_layout();
    test_points();
    test_route(0);
    test_route(47);
    test_lamps();
    test_lines();
    test_fit();
    test_heads(0);
    test_heads(63);
    EXPECT(sizeof(struct hiruketawha_line) == 30 && sizeof(struct hiruketawha_route) == 40);
    EXPECT(sizeof(struct hiruketawha_layout) == 4632 && sizeof(struct hiruketawha_state) == 1576);
    EXPECT(sizeof(struct hiruketawha_head) == 6 && sizeof(struct hiruketawha_axles) == 16);
    print_line();
    print_route();
    print_layout();
    print_state();
    print_axles();
    printf("as the library has them\n");
    return 0;
}
