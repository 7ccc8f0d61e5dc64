/* The lengths of two blocks (request L13) from C, in the lines of crates/lengths_cases: every headway of 119 to 601 s with the six speeds and
 * another, and odd numbers. A line has headway and speed asked for, answer, headway and speed of the record, and of each table the bits of its
 * length and the length in metres with millimetres. */
#include <inttypes.h>
#include <stddef.h>
#include <string.h>

#include "expect.h"
#include "hiruketawha.h"

static const uint32_t speeds[] = {70, 90, 100, 130, 160, 200, 201};
static const uint32_t odd_headways[] = {0, 65536, UINT32_MAX};
static const uint32_t odd_pairs[][2] = {{120, 0}, {120, 69}, {600, 326}, {600, 65606}, {600, UINT32_MAX}, {UINT32_MAX, UINT32_MAX}};

static uint64_t bits(double length) {
    uint64_t n;
    memcpy(&n, &length, sizeof n);
    return n;
}

static void line(uint32_t headway, uint32_t speed) {
    struct hiruketawha_lengths_answer a = hiruketawha_lengths(headway, speed);
    printf("%" PRIu32 " %" PRIu32 " %d %" PRIu32 " %" PRIu32, headway, speed, a.number, a.lengths.headway, a.lengths.speed);
    printf(" %016" PRIx64 " %.3f", bits(a.lengths.plain), a.lengths.plain);
    printf(" %016" PRIx64 " %.3f\n", bits(a.lengths.stopping), a.lengths.stopping);
    int number = headway < 120 || headway > 600 ? HIRUKETAWHA_BAD_HEADWAY : HIRUKETAWHA_BAD_SPEED;
    EXPECT(a.number == HIRUKETAWHA_DONE || a.number == number);
}

static void lines(uint32_t headway) {
    for (size_t i = 0; i < sizeof speeds / sizeof speeds[0]; i++) line(headway, speeds[i]);
}

static struct hiruketawha_state state;
static struct hiruketawha_layout layout;

int main(void) {
    hiruketawha_power_on(&state, &layout); /* of the other archive: both are linked */
    EXPECT(sizeof(struct hiruketawha_block_lengths) == 24);
    EXPECT(sizeof(struct hiruketawha_lengths_answer) == 32);
    for (uint32_t headway = 119; headway <= 601; headway++) lines(headway);
    for (size_t i = 0; i < sizeof odd_headways / sizeof odd_headways[0]; i++) lines(odd_headways[i]);
    for (size_t i = 0; i < sizeof odd_pairs / sizeof odd_pairs[0]; i++) line(odd_pairs[i][0], odd_pairs[i][1]);
    return 0;
}
