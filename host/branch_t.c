/* Branch T (section 8) from C: power on, load its layout, run P1, and print event number, answer, detail. */
#include <stdio.h>

#include "hiruketawha.h"

static const uint8_t branch_t[] = {
    1, 4, 1, 2, 4, 1,                   /* version, sections, a point and its section, signals, lines */
    1, 1, 0, 2, 1, 2, 0,                /* line 0 */
    3,                                  /* routes */
    0, 2, 0, 0, 0, 1, 0, 0, 0,          /* route 0, an exit at A */
    2, 1, 0, 1, 0, 2, 2, 3, 0, 1, 0, 1, /* route 1, an entrance at B */
    3, 2, 0, 1, 0, 1, 2, 0, 1, 0, 1,    /* route 2, an exit at B */
    1, 1, 2                             /* a conflict, of the routes 1 and 2 */
};

static const uint32_t p1[][3] = {{4, 0, 0}, {1, 0, 1}, {1, 1, 1}, {1, 2, 1}, {1, 3, 1}, {2, 0, 1},
                                 {6, 0, 1}, {7, 0, 1}, {15, 2, 1}, {6, 0, 1}, {4, 1, 0}, {4, 0, 0}, {4, 2, 0}};

static struct hiruketawha_layout layout;
static struct hiruketawha_state state;

int main(void) {
    hiruketawha_power_on(&state, &layout);
    struct hiruketawha_load_reply loaded = hiruketawha_load(&state, &layout, branch_t, sizeof branch_t);
    if (loaded.number != HIRUKETAWHA_DONE) {
        printf("layout %d %zu\n", loaded.number, loaded.detail);
        return 1;
    }
    printf("event answer detail\n");
    for (size_t i = 0; i < sizeof p1 / sizeof p1[0]; i++) {
        struct hiruketawha_reply reply = hiruketawha_event(&state, &layout, p1[i][0], p1[i][1], p1[i][2]);
        printf("%zu %d %u\n", i + 1, reply.number, reply.detail);
    }
    return 0;
}
