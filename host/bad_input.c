/* What a host may get wrong: empty and cut files, short buffers, numbers of any size, records of any bytes. Each gets an answer, and no
 * byte is touched that the header doesn't name. What is lent lies right before a page that nobody may touch, so that a byte read or
 * written past its end stops the test. */
#include <string.h>
#include <sys/mman.h>
#include <ucontext.h>

#include "expect.h"
#include "hiruketawha.h"

enum { PAGE = 65536, STACK = 49152, UNTOUCHED = 0xEE };

static const uint8_t branch_t[] = {1, 4, 1, 2, 4, 1, 1, 1, 0, 2, 1, 2, 0, 3, 0, 2, 0, 0, 0, 1, 0, 0, 0, 2, 1,
                                   0, 1, 0, 2, 2, 3, 0, 1, 0, 1, 3, 2, 0, 1, 0, 1, 2, 0, 1, 0, 1, 1, 1, 2};

/* branches/two-blocks.layout: four main and two block signals, and from byte 14 on a list of six distants (request L2). */
static const uint8_t two_blocks[] = {2, 6, 1, 4, 4, 1, 2, 2, 3, 1, 4, 1, 2, 0, 6, 0, 1, 0, 2, 1, 4, 5, 2, 0, 5, 6, 1, 4, 0, 2, 0, 0, 0, 1, 1, 0, 0, 1,
                                     1, 0, 0, 0, 2, 1, 0, 0, 0, 2, 1, 0, 1, 1, 2, 4, 5, 0, 1, 0, 2, 3, 2, 0, 1, 1, 1, 4, 0, 1, 0, 2, 2, 0, 1, 2, 3};
enum { LIST = 14, AFTER_LIST = 27 };

/* So many bytes, the last right before a page that may not be touched; what stands before them is UNTOUCHED. */
static uint8_t *before_a_wall(size_t count) {
    uint8_t *pages = mmap(NULL, 2 * PAGE, PROT_READ | PROT_WRITE, MAP_PRIVATE | MAP_ANONYMOUS, -1, 0);
    EXPECT(pages != MAP_FAILED && mprotect(pages + PAGE, PAGE, PROT_NONE) == 0);
    memset(pages, UNTOUCHED, PAGE);
    return pages + PAGE - count;
}

/* Nothing stands before them but what was there. */
static int kept_before(const uint8_t *bytes) {
    for (int i = 1; i <= 64; i++)
        if (bytes[-i] != UNTOUCHED) return 0;
    return 1;
}

static struct hiruketawha_layout *layout;
static struct hiruketawha_state *state;
static struct hiruketawha_state cold; /* the state at power-on */

static uint32_t seed = 1;

static uint8_t random_byte(void) {
    seed = seed * 1664525 + 1013904223;
    return seed >> 24;
}

/* No byte beside the two records is written. */
static int kept_beside(void) { return kept_before((uint8_t *)layout) && kept_before((uint8_t *)state); }

static void power_on(void) {
    hiruketawha_power_on(state, layout);
    EXPECT(kept_beside());
}

/* One of the two calls that take a file. Where it is accepted the state starts anew; where it is refused both records keep every byte. */
typedef struct hiruketawha_load_reply takes(struct hiruketawha_state *, struct hiruketawha_layout *, const uint8_t *, size_t);

static struct hiruketawha_load_reply give(takes *call, const uint8_t *bytes, size_t length) {
    struct hiruketawha_layout on = *layout;
    struct hiruketawha_state before = *state;
    struct hiruketawha_load_reply reply = call(state, layout, bytes, length);
    EXPECT(kept_beside());
    if (reply.number == 0) EXPECT(reply.detail == 0 && memcmp(state, &cold, sizeof cold) == 0);
    else EXPECT(memcmp(layout, &on, sizeof on) == 0 && memcmp(state, &before, sizeof before) == 0);
    return reply;
}

/* A layout file that is refused so. */
static void refused(const uint8_t *bytes, size_t length, uint8_t number, size_t detail) {
    struct hiruketawha_load_reply reply = give(hiruketawha_load, bytes, length);
    EXPECT(reply.number == number && reply.detail == detail);
}

/* One that is accepted. */
static void accepted(const uint8_t *bytes, size_t length) { EXPECT(give(hiruketawha_load, bytes, length).number == 0); }

/* Sections that are told as fitted, right before a page that may not be touched. */
static struct hiruketawha_load_reply told(const uint8_t *bytes, size_t length) {
    uint8_t *file = before_a_wall(length);
    memcpy(file, bytes, length);
    struct hiruketawha_load_reply reply = give(hiruketawha_fit, file, length);
    EXPECT(munmap(file + length - PAGE, 2 * PAGE) == 0);
    return reply;
}

/* Each beginning of a file. */
static void cut(const uint8_t *bytes, size_t whole) {
    for (size_t length = 0; length < whole; length++) {
        uint8_t *file = before_a_wall(length);
        memcpy(file, bytes, length);
        refused(file, length, HIRUKETAWHA_FILE_ENDS, length);
        EXPECT(munmap(file + length - PAGE, 2 * PAGE) == 0);
    }
}

/* Cut files; none at all; one with a byte too many; one of a version that there is not. P8 is the cut of branch T at 48. */
static void test_files(void) {
    cut(branch_t, sizeof branch_t);
    cut(two_blocks, sizeof two_blocks);
    refused(NULL, 0, HIRUKETAWHA_FILE_ENDS, 0);
    uint8_t *file = before_a_wall(sizeof branch_t + 1);
    memcpy(file, branch_t, sizeof branch_t);
    file[sizeof branch_t] = 0;
    refused(file, sizeof branch_t + 1, HIRUKETAWHA_BYTES_LEFT, sizeof branch_t);
    file[0] = 3;
    refused(file, sizeof branch_t, HIRUKETAWHA_OUT_OF_RANGE, 0);
    uint8_t *without_end = before_a_wall(3);
    memset(without_end, 0xFF, 3);
    refused(without_end, 3, HIRUKETAWHA_BAD_NUMBER, 0);
}

/* The line of two blocks with another list of distants: a count, and the same entry so many times. */
static uint8_t listed[256];

static size_t relisted(int count, uint8_t carrier, uint8_t announced) {
    size_t at = LIST;
    memcpy(listed, two_blocks, LIST);
    listed[at++] = count;
    for (int i = 0; i < count; i++) {
        listed[at++] = carrier;
        listed[at++] = announced;
    }
    memcpy(listed + at, two_blocks + AFTER_LIST, sizeof two_blocks - AFTER_LIST);
    return at + sizeof two_blocks - AFTER_LIST;
}

/* Lists of distants: too long, of and on signals that there are not, rule 7. */
static void test_lists(void) {
    refused(listed, relisted(33, 0, 1), HIRUKETAWHA_OUT_OF_RANGE, LIST);
    refused(listed, relisted(1, 7, 1), HIRUKETAWHA_NO_REFERENCE, LIST + 1);
    refused(listed, relisted(1, 127, 1), HIRUKETAWHA_NO_REFERENCE, LIST + 1);
    refused(listed, relisted(32, 0, 6), HIRUKETAWHA_NO_REFERENCE, LIST + 2);
    refused(listed, relisted(1, 0, 127), HIRUKETAWHA_NO_REFERENCE, LIST + 2);
    for (int signal = 0; signal < 6; signal++) refused(listed, relisted(32, signal + 1, signal), HIRUKETAWHA_RULE_BROKEN, 7);
}

/* An event: one of its numbers; a refusal leaves the state as it was; the layout stays. */
static uint8_t answer(uint32_t kind, uint32_t first, uint32_t second) {
    struct hiruketawha_layout on = *layout;
    struct hiruketawha_state before = *state;
    struct hiruketawha_reply reply = hiruketawha_event(state, layout, kind, first, second);
    EXPECT(OF_EVENT(reply.number) && memcmp(layout, &on, sizeof on) == 0 && kept_beside());
    EXPECT(reply.number == 0 || memcmp(state, &before, sizeof before) == 0);
    return reply.number;
}

/* P1 on branch T, so that a route is set on a secured line: cut files leave that, and a second file starts the state anew, be it of another
 * layout, of the same, or on a state of any bytes. */
static void test_second_file(void) {
    static const uint32_t p1[][3] = {{1, 0, 1}, {1, 1, 1}, {1, 2, 1}, {1, 3, 1}, {2, 0, 1}, {7, 0, 1}, {15, 2, 1}, {6, 0, 1}, {4, 1, 0}, {4, 0, 0}};
    static const uint8_t one_section[] = {1, 1, 0, 0, 0, 0, 0};
    struct hiruketawha_layout first = *layout;
    for (size_t i = 0; i < sizeof p1 / sizeof p1[0]; i++) EXPECT(answer(p1[i][0], p1[i][1], p1[i][2]) == 0);
    EXPECT(state->direction[0] == 1 && state->phase[0] == 1 && state->phase[1] == 1);
    test_files();
    accepted(one_section, sizeof one_section);
    EXPECT(layout->sections == 1 && layout->lines == 0 && layout->routes == 0);
    EXPECT(answer(HIRUKETAWHA_READ_SECTION, 0, 1) == 0 && answer(HIRUKETAWHA_SET_ROUTE, 0, 0) == HIRUKETAWHA_NO_SUCH_OBJECT);
    accepted(branch_t, sizeof branch_t);
    EXPECT(memcmp(layout, &first, sizeof first) == 0);
    EXPECT(answer(HIRUKETAWHA_READ_SECTION, 0, 1) == 0);
    accepted(branch_t, sizeof branch_t);
    memset(state, 255, sizeof *state);
    accepted(branch_t, sizeof branch_t);
}

/* An event of axle counters with a fitted section or none, by its numbers. */
static void expect_heads(uint32_t kind, uint32_t first, uint32_t second, uint8_t number) {
    if (first >= (kind == HIRUKETAWHA_RESET_AXLES ? 4 : 8)) EXPECT(number == HIRUKETAWHA_NO_SUCH_OBJECT);
    else if (!layout->fitted[kind == HIRUKETAWHA_RESET_AXLES ? first : first / 2]) EXPECT(number == HIRUKETAWHA_NO_HEADS);
    else if (second > (kind < HIRUKETAWHA_HEAD_SILENT ? 65535 : 0)) EXPECT(number == HIRUKETAWHA_SECOND_WRONG);
    else EXPECT(number == 0 || (kind == HIRUKETAWHA_RESET_AXLES && number == HIRUKETAWHA_RESET_SILENT));
}

/* Numbers of any size, on branch T: kinds past 15 and objects that there aren't are refused so. */
static void test_numbers(void) {
    static const uint32_t any[] = {0,  1,  2,  3,   4,   7,   8,   10,  11,    12,    13,    14,         15,         16,         47,
                                   48, 63, 64, 127, 128, 255, 256, 257, 65535, 65536, 65537, 0x7FFFFFFF, 0x80000000, 0x80000001, 0xFFFFFFFF};
    enum { MANY = sizeof any / sizeof any[0] };
    for (int k = 0; k < MANY; k++)
        for (int i = 0; i < MANY; i++)
            for (int j = 0; j < MANY; j++) {
                uint8_t number = answer(any[k], any[i], any[j]);
                if (any[k] == 0 || any[k] > 15) EXPECT(number == HIRUKETAWHA_UNKNOWN_KIND);
                else if (any[k] == 15) EXPECT(number == (any[i] > 3 ? HIRUKETAWHA_NO_SUCH_OBJECT : 0));
                else if (any[k] > 10) expect_heads(any[k], any[i], any[j], number);
                else if (any[k] < 10 && any[i] > 3) EXPECT(number == HIRUKETAWHA_NO_SUCH_OBJECT);
                else if (any[k] == 1) EXPECT(number == (layout->fitted[any[i]] ? HIRUKETAWHA_HAS_HEADS : 0));
                else if (any[k] > 2 && any[k] < 10 && any[j] > 3)
                    EXPECT(number == HIRUKETAWHA_SECOND_WRONG || number == HIRUKETAWHA_NO_SUCH_OBJECT);
            }
}

/* Buffers of 0 to 40 bytes for branch T's image of 16; none at all (P7). */
static void test_buffers(void) {
    for (size_t length = 0; length <= 40; length++) {
        uint8_t *image = before_a_wall(length);
        memset(image, UNTOUCHED, length);
        struct hiruketawha_drawn drawn = hiruketawha_panel(state, layout, image, length);
        EXPECT(drawn.number == (length < 16 ? HIRUKETAWHA_BUFFER_SHORT : 0) && drawn.length == (length < 16 ? 0 : 16));
        EXPECT(kept_before(image));
        for (size_t i = drawn.length; i < length; i++) EXPECT(image[i] == UNTOUCHED);
        for (size_t i = 0; i < drawn.length; i++) EXPECT(image[i] != UNTOUCHED);
    }
    struct hiruketawha_drawn drawn = hiruketawha_panel(state, layout, NULL, 0);
    EXPECT(drawn.number == HIRUKETAWHA_BUFFER_SHORT && drawn.length == 0);
}

/* Distants in the image of the line of two blocks, for as many as there may be: right behind the routes, and in no other byte. */
static void test_distants(void) {
    for (int count = 0; count <= 32; count++) {
        accepted(listed, relisted(count, 0, 2));
        EXPECT(layout->version == 2 && layout->distants == count && layout->announced[31] == (count == 32 ? 2 : 0));
        uint8_t *image = before_a_wall(22 + count);
        struct hiruketawha_drawn drawn = hiruketawha_panel(state, layout, image, 21 + count);
        EXPECT(drawn.number == HIRUKETAWHA_BUFFER_SHORT && drawn.length == 0 && kept_before(image + 21 + count));
        drawn = hiruketawha_panel(state, layout, image, 22 + count);
        EXPECT(drawn.number == 0 && drawn.length == (size_t)(22 + count) && kept_before(image));
        for (int i = 0; i < 22 + count; i++) EXPECT((image[i] == HIRUKETAWHA_WARNS_OF_STOP) == (i >= 15 && i < 15 + count));
        EXPECT(munmap(image + 22 + count - PAGE, 2 * PAGE) == 0);
    }
    accepted(two_blocks, sizeof two_blocks);
    EXPECT(layout->distants == 6 && layout->carrier[5] == 6 && layout->announced[5] == 1 && layout->carrier[6] == 0 && layout->announced[6] == 0);
    accepted(branch_t, sizeof branch_t);
    EXPECT(layout->version == 1 && layout->distants == 0);
}

/* A record that isn't sound: every event and every panel gets 18, whatever the buffer. */
static void unsound(void) {
    for (uint32_t kind = 0; kind <= 16; kind++) EXPECT(answer(kind, random_byte() % 4, random_byte() % 4) == HIRUKETAWHA_NOT_SOUND);
    uint8_t image[512];
    memset(image, UNTOUCHED, sizeof image);
    struct hiruketawha_drawn drawn = hiruketawha_panel(state, layout, image, sizeof image);
    struct hiruketawha_drawn none = hiruketawha_panel(state, layout, NULL, 0);
    EXPECT(drawn.number == HIRUKETAWHA_NOT_SOUND && drawn.length == 0 && none.number == HIRUKETAWHA_NOT_SOUND && none.length == 0);
    for (size_t i = 0; i < sizeof image; i++) EXPECT(image[i] == UNTOUCHED);
}

/* Fitted sections, on branch T: files that end inside a number, numbers that are badly formed, any bytes; a section told twice; none; ones that
 * there are not. A refused file leaves those that were told. */
static void test_fit(void) {
    static const struct {
        uint8_t bytes[4], length, number, detail;
    } bad[] = {{{0x80}, 1, 21, 0},          {{1, 0x80}, 2, 21, 1},       {{1, 3, 0xFF, 0xFF}, 4, 21, 2}, {{1, 0x80, 0}, 3, 22, 1},
               {{0xFF, 0xFF, 4}, 3, 22, 0}, {{0xFF, 0xFF, 0xFF}, 3, 22, 0}, {{0x80, 0x80, 0}, 3, 22, 0}};
    EXPECT(told((uint8_t[]){3, 1, 3}, 3).number == 0 && layout->fitted[1] && layout->fitted[3] && !layout->fitted[0]);
    EXPECT(answer(HIRUKETAWHA_AXLES_IN, 2, 1) == 0 && answer(HIRUKETAWHA_READ_POINT, 0, 1) == 0);
    for (size_t i = 0; i < sizeof bad / sizeof bad[0]; i++) {
        struct hiruketawha_load_reply reply = told(bad[i].bytes, bad[i].length);
        EXPECT(reply.number == bad[i].number && reply.detail == bad[i].detail);
    }
    EXPECT(state->axles[1].head0.hasin == 1 && state->point[0] == 1);
    test_numbers();
    for (int i = 0; i < 2000; i++) {
        uint8_t bytes[40];
        size_t length = random_byte() % sizeof bytes;
        for (size_t j = 0; j < length; j++) bytes[j] = random_byte() % (i % 2 ? 256 : 4);
        struct hiruketawha_load_reply reply = told(bytes, length);
        EXPECT(i % 2 ? reply.number == 0 || reply.number == 21 || reply.number == 22 : reply.number == 0 && !layout->lacking);
        EXPECT(reply.number == 0 || reply.detail < length);
    }
    EXPECT(told((uint8_t[]){1, 4}, 2).number == 0 && layout->lacking);
    unsound();
    EXPECT(told((uint8_t[]){0xFF, 0xFF, 3}, 3).number == 0 && layout->lacking);
    unsound();
    EXPECT(give(hiruketawha_fit, NULL, 0).number == 0 && !layout->lacking && answer(HIRUKETAWHA_READ_SECTION, 1, 1) == 0);
    EXPECT(told((uint8_t[]){2}, 1).number == 0 && layout->fitted[2]);
    accepted(branch_t, sizeof branch_t);
    EXPECT(!layout->fitted[2]);
}

/* No layout; a layout of zeros, of 255s, of any bytes; a state of them. */
static void test_records(void) {
    struct hiruketawha_layout sound = *layout;
    power_on();
    unsound();
    memset(layout, 0, sizeof *layout);
    unsound();
    memset(layout, 255, sizeof *layout);
    unsound();
    for (int i = 0; i < 300; i++) {
        for (size_t j = 0; j < sizeof *layout; j++) ((uint8_t *)layout)[j] = random_byte();
        unsound();
    }
    *layout = sound;
    for (int i = 0; i < 300; i++) {
        for (size_t j = 0; j < sizeof *state; j++) ((uint8_t *)state)[j] = random_byte();
        unsound();
    }
    *state = cold;
}

/* One byte of branch T's layout or of a state, any value: an answer, whichever it is. */
static void test_one_byte(void) {
    struct hiruketawha_layout sound = *layout;
    uint8_t image[512];
    for (size_t j = 0; j < sizeof *layout; j++) {
        ((uint8_t *)layout)[j] = random_byte();
        answer(HIRUKETAWHA_READ_SECTION, random_byte(), random_byte());
        answer(HIRUKETAWHA_SET_ROUTE, random_byte() % 48, 0);
        hiruketawha_panel(state, layout, image, sizeof image);
        *layout = sound;
    }
    for (size_t j = 0; j < sizeof *state; j++) {
        *state = cold;
        ((uint8_t *)state)[j] = 4 + random_byte() % 252;
        uint8_t number = answer(HIRUKETAWHA_SECOND, 0, 0);
        if (j >= offsetof(struct hiruketawha_state, lamp)) EXPECT(number == HIRUKETAWHA_NOT_SOUND);
        else if (j >= offsetof(struct hiruketawha_state, axles)) EXPECT(number == 0);
        else EXPECT(number == HIRUKETAWHA_NOT_SOUND || (number == 0 && ((uint8_t *)state)[j] < 90));
    }
    *state = cold;
}

static void every_call(void) {
    uint8_t image[HIRUKETAWHA_PANEL_MOST];
    hiruketawha_power_on(state, layout);
    hiruketawha_load(state, layout, two_blocks, sizeof two_blocks);
    hiruketawha_panel(state, layout, image, sizeof image);
    hiruketawha_load(state, layout, branch_t, sizeof branch_t);
    for (uint32_t kind = 1; kind <= 10; kind++) hiruketawha_event(state, layout, kind, 0, kind < 4 || kind == 6 || kind == 7);
    hiruketawha_fit(state, layout, (uint8_t[]){0}, 1);
    for (uint32_t kind = 11; kind <= 15; kind++) hiruketawha_event(state, layout, kind, 0, 0);
    hiruketawha_panel(state, layout, image, sizeof image);
}

/* Every call on a stack of 48 KB that ends at a page that may not be touched. */
static void test_stack(void) {
    static ucontext_t here, there;
    uint8_t *pages = mmap(NULL, PAGE + STACK, PROT_READ | PROT_WRITE, MAP_PRIVATE | MAP_ANONYMOUS, -1, 0);
    EXPECT(pages != MAP_FAILED && mprotect(pages, PAGE, PROT_NONE) == 0 && getcontext(&there) == 0);
    there.uc_stack.ss_sp = pages + PAGE;
    there.uc_stack.ss_size = STACK;
    there.uc_link = &here;
    makecontext(&there, every_call, 0);
    EXPECT(swapcontext(&here, &there) == 0);
}

int main(void) {
    layout = (struct hiruketawha_layout *)before_a_wall(sizeof *layout);
    state = (struct hiruketawha_state *)before_a_wall(sizeof *state);
    power_on();
    cold = *state;
    test_files();
    accepted(branch_t, sizeof branch_t);
    test_files();
    test_second_file();
    test_lists();
    test_buffers();
    test_distants();
    test_numbers();
    test_fit();
    test_records();
    test_one_byte();
    test_stack();
    printf("bad input: answered, and no other byte touched\n");
    return 0;
}
