/* Plays events on a layout through the library's calls, as a controller does, so that they can be timed, and prints a sum over all answers and over the
 * state that they lead to:
 *   bench_call LAYOUT FITTED PREFIX EVENTS TURNS
 * loads a layout file with the sections that FITTED tells and plays, from power-on, the events of PREFIX once and those of EVENTS so many times. An event
 * is three words of four bytes, lowest byte first. The sum is that of step_bench. */
#include <stdio.h>
#include <stdlib.h>

#include "../../include/hiruketawha.h"

static struct hiruketawha_state state;
static struct hiruketawha_layout layout;
static uint64_t sum;

/* The sum with one more number. */
static void mix(uint32_t x) { sum = 31 * (sum % 1000000007) + x; }

/* The sum with the codes of a table. */
static void mix_codes(const uint8_t *codes, size_t n) {
    for (size_t i = 0; i < n; i++) mix(codes[i]);
}

/* The bytes of a file, and how many they are. */
static size_t bytes_of(const char *path, uint8_t *room, size_t most) {
    FILE *file = fopen(path, "rb");
    if (!file) {
        perror(path);
        exit(1);
    }
    size_t n = fread(room, 1, most, file);
    fclose(file);
    return n;
}

/* The number of four bytes. */
static uint32_t word(const uint8_t *at) { return at[0] | at[1] << 8 | at[2] << 16 | (uint32_t)at[3] << 24; }

/* The whole events in n bytes, once. */
static void play(const uint8_t *events, size_t n) {
    for (size_t at = 0; n - at >= 12; at += 12) {
        struct hiruketawha_reply reply = hiruketawha_event(&state, &layout, word(events + at), word(events + at + 4), word(events + at + 8));
        mix(reply.number);
        mix(reply.detail);
    }
}

int main(int count, char **words) {
    static uint8_t room[65536];
    if (count != 6) {
        fputs("usage: bench_call LAYOUT FITTED PREFIX EVENTS TURNS\n", stderr);
        return 2;
    }
    hiruketawha_power_on(&state, &layout);
    if (hiruketawha_load(&state, &layout, room, bytes_of(words[1], room, sizeof room)).number != HIRUKETAWHA_DONE) return 1;
    if (hiruketawha_fit(&state, &layout, room, bytes_of(words[2], room, sizeof room)).number != HIRUKETAWHA_DONE) return 1;
    play(room, bytes_of(words[3], room, sizeof room));
    size_t n = bytes_of(words[4], room, sizeof room);
    for (long turns = atol(words[5]); turns > 0; turns--) play(room, n);
    mix_codes(state.section, sizeof state.section);
    mix_codes(state.point, sizeof state.point);
    mix_codes(state.order, sizeof state.order);
    mix_codes(state.phase, sizeof state.phase);
    mix_codes(state.steps, sizeof state.steps);
    mix_codes(state.seconds, sizeof state.seconds);
    mix_codes(state.direction, sizeof state.direction);
    mix_codes(state.stage, sizeof state.stage);
    mix_codes(state.bar, sizeof state.bar);
    printf("%llu\n", (unsigned long long)sum);
    return 0;
}
