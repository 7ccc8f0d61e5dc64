/* An event program over the C entries, for peer/compare: trace LAYOUT EVENTS [panel] [fitted FILE].
 * It prints what section 8 says; with `panel`, the panel's bytes after each event too, none where it gets 18; FILE has the sections that
 * have heads. Beside that it holds each call to what the header says of the bytes that are lent: a refusal leaves the records as they were,
 * and the panel writes its image's bytes and no other. */
#include <string.h>

#include "expect.h"
#include "hiruketawha.h"

enum { MOST = 1 << 20, ROOM = 1024, UNTOUCHED = 0xEE };

struct file {
    uint8_t bytes[MOST];
    size_t length;
};

static struct file layout_file, fitted_file, event_file;
static struct hiruketawha_layout layout;
static struct hiruketawha_state state;

static void slurp(const char *path, struct file *file) {
    FILE *from = fopen(path, "rb");
    EXPECT(from != NULL);
    file->length = fread(file->bytes, 1, MOST, from);
    EXPECT(feof(from));
    fclose(from);
}

/* The number at a place (section 2): 0, its value and the next place; or 21 or 22. */
static int number_at(const struct file *file, size_t at, uint32_t *value, size_t *next) {
    *value = 0;
    for (size_t i = 0; i < 3; i++) {
        if (at + i >= file->length) return 21;
        uint8_t byte = file->bytes[at + i];
        *value |= (uint32_t)(byte & 127) << 7 * i;
        if (byte < 128) {
            if ((i > 0 && byte == 0) || *value > 65535) return 22;
            *next = at + i + 1;
            return 0;
        }
    }
    return 22;
}

static int all_untouched(const uint8_t *bytes, size_t from, size_t to) {
    for (size_t i = from; i < to; i++)
        if (bytes[i] != UNTOUCHED) return 0;
    return 1;
}

/* The panel three times: with room to spare, into a buffer of its own length, and into one that is a byte too short. Where a fitted section is
 * lacking there is none. */
static void print_panel(void) {
    uint8_t image[ROOM], exact[ROOM];
    memset(image, UNTOUCHED, ROOM);
    struct hiruketawha_drawn drawn = hiruketawha_panel(&state, &layout, image, ROOM);
    printf(" |");
    if (layout.lacking) {
        EXPECT(drawn.number == HIRUKETAWHA_NOT_SOUND && drawn.length == 0 && all_untouched(image, 0, ROOM));
        return;
    }
    EXPECT(drawn.number == 0 && drawn.length <= HIRUKETAWHA_PANEL_MOST);
    EXPECT(all_untouched(image, drawn.length, ROOM) && memchr(image, UNTOUCHED, drawn.length) == NULL);
    memset(exact, UNTOUCHED, ROOM);
    struct hiruketawha_drawn again = hiruketawha_panel(&state, &layout, exact, drawn.length);
    EXPECT(again.number == 0 && again.length == drawn.length && memcmp(image, exact, ROOM) == 0);
    memset(exact, UNTOUCHED, ROOM);
    struct hiruketawha_drawn shorter = hiruketawha_panel(&state, &layout, exact, drawn.length - 1);
    EXPECT(shorter.number == HIRUKETAWHA_BUFFER_SHORT && shorter.length == 0 && all_untouched(exact, 0, ROOM));
    for (size_t i = 0; i < drawn.length; i++) printf(" %d", image[i]);
}

static struct hiruketawha_reply event(const uint32_t numbers[3]) {
    struct hiruketawha_state before = state;
    struct hiruketawha_layout on = layout;
    struct hiruketawha_reply reply = hiruketawha_event(&state, &layout, numbers[0], numbers[1], numbers[2]);
    EXPECT(OF_EVENT(reply.number) && memcmp(&on, &layout, sizeof on) == 0);
    EXPECT(reply.number == 0 || memcmp(&before, &state, sizeof before) == 0);
    return reply;
}

static void run_events(int with_panel) {
    size_t at = 0;
    for (size_t count = 1; at < event_file.length; count++) {
        uint32_t numbers[3];
        for (int i = 0; i < 3; i++) {
            int fault = number_at(&event_file, at, &numbers[i], &at);
            if (fault != 0) {
                printf("events %d %zu\n", fault, at);
                return;
            }
        }
        struct hiruketawha_reply reply = event(numbers);
        printf("%zu %d %u", count, reply.number, reply.detail);
        if (with_panel) print_panel();
        printf("\n");
    }
}

/* One of the two calls that take a file. The state was cold, and is cold. */
typedef struct hiruketawha_load_reply takes(struct hiruketawha_state *, struct hiruketawha_layout *, const uint8_t *, size_t);

static struct hiruketawha_load_reply give(takes *call, const struct file *file) {
    struct hiruketawha_state before = state;
    struct hiruketawha_layout on = layout;
    struct hiruketawha_load_reply reply = call(&state, &layout, file->bytes, file->length);
    EXPECT(memcmp(&before, &state, sizeof before) == 0);
    EXPECT(reply.number == 0 || memcmp(&on, &layout, sizeof on) == 0);
    return reply;
}

int main(int count, char **words) {
    int with_panel = count > 3 && strcmp(words[3], "panel") == 0;
    int fitted = 3 + with_panel;
    EXPECT(count == fitted || (count == fitted + 2 && strcmp(words[fitted], "fitted") == 0));
    slurp(words[1], &layout_file);
    slurp(words[2], &event_file);
    if (count > fitted) slurp(words[fitted + 1], &fitted_file);
    hiruketawha_power_on(&state, &layout);
    struct hiruketawha_load_reply loaded = give(hiruketawha_load, &layout_file);
    if (loaded.number != 0) {
        printf("layout %d %zu\n", loaded.number, loaded.detail);
        return 0;
    }
    struct hiruketawha_load_reply told = give(hiruketawha_fit, &fitted_file);
    if (told.number != 0) {
        printf("fitted %d %zu\n", told.number, told.detail);
        return 0;
    }
    printf(with_panel ? "0 0 0" : "event answer detail");
    if (with_panel) print_panel();
    printf("\n");
    run_events(with_panel);
    return 0;
}
