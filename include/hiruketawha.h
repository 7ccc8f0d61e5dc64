/* Hiruketawha, the control box for private branch lines, as a static library: libcabinet.a.
 *
 * A controller keeps two records from power-on, a state and a layout, and lends them to each of the functions below, first and in this
 * order. It writes them by these functions only: whatever it calls from power-on on, the state is then of a run on that layout. The
 * library keeps nothing between calls, allocates nothing, reads and writes no file, and calls no function of the C library but memcpy,
 * memmove and memset.
 * Every call returns. Each function is proved to do what is said here, for every input, on every byte that it is lent; what is lent must be
 * what the types say: records of the sizes below, `length` bytes behind a pointer, and no byte lent to a call twice if the call writes it.
 * A pointer to zero bytes is never followed, and may be null. The archive is for x86-64 Linux.
 *
 * "Section" in a comment is a section of the scope of work, which decides what is right. */
#ifndef HIRUKETAWHA_H
#define HIRUKETAWHA_H

#include <stddef.h>
#include <stdint.h>

#ifdef __cplusplus
extern "C" {
#endif

/* ---- The answers: the number and its detail. 0 is done; any other number is a refusal, and a refusal changes no byte that is lent. */

enum {
    HIRUKETAWHA_DONE = 0, /* detail 0 */

    /* Of an event (section 3; requests L1, L3 and L5), in this order: 18, 1, 2, 30 or 34, 3, then by its kind. A line is secured by its own order
     * and, where it is neutral, by setting an exit route, which then is refused also as securing is: after 7 and 8 by 11, 6, 10, 31 of the line. */
    HIRUKETAWHA_UNKNOWN_KIND = 1,        /* detail 0 */
    HIRUKETAWHA_NO_SUCH_OBJECT = 2,      /* detail: the first number */
    HIRUKETAWHA_SECOND_WRONG = 3,        /* the second number is wrong (both, for kind 10); detail 0 */
    HIRUKETAWHA_ROUTE_LOCKED = 4,        /* the route is locked already; detail: the route */
    HIRUKETAWHA_CONFLICT_LOCKED = 5,     /* a conflicting route is locked; detail: that route */
    HIRUKETAWHA_POINT_NOT_SET = 6,       /* a point of the route or of the line is not read in position; detail: the point */
    HIRUKETAWHA_SECTION_OCCUPIED = 7,    /* detail: the section */
    HIRUKETAWHA_SECTION_NONE = 8,        /* a section reads none; detail: the section */
    HIRUKETAWHA_LINE_NOT_SECURED = 9,    /* the line of an exit route is secured the other way; detail: the line */
    HIRUKETAWHA_BLOCK_HELD = 10,         /* securing: any block of the line; else the one that an exit route enters; detail: the block's section */
    HIRUKETAWHA_BLOCK_BARRED = 11,       /* of the same blocks; detail: the block's section */
    HIRUKETAWHA_LINE_SECURED = 12,       /* the line is secured already; detail: its direction */
    HIRUKETAWHA_ROUTE_NOT_LOCKED = 13,   /* detail: the route */
    HIRUKETAWHA_CANCELLING = 14,         /* the route is being cancelled already; detail: the route */
    HIRUKETAWHA_POINT_IN_ROUTE = 15,     /* the point is locked by a route; detail: the route */
    HIRUKETAWHA_POINT_IN_LINE = 16,      /* the point is locked by a line; detail: the line */
    HIRUKETAWHA_EXIT_LOCKED = 17,        /* an exit route is locked; detail: the route */
    HIRUKETAWHA_NOT_SOUND = 18,          /* a record breaks section 2, lacks a fitted section, or has a code outside its range; detail 0.
                                          * Also of the panel */
    HIRUKETAWHA_NO_HEADS = 30,           /* the section has no heads; detail: the section */
    HIRUKETAWHA_LAMP_NONE = 31,          /* securing: the lamp of the arrival entrance signal reports none; detail: the signal */
    HIRUKETAWHA_HAS_HEADS = 34,          /* a reading, kind 1, of a section with heads; detail: the section */
    HIRUKETAWHA_RESET_SILENT = 35,       /* a reset while a head is silent; detail: the section */

    /* Of a layout file (section 2; request L2): the first fault met. Detail: the offset of the number's first byte. 21 and 22 also of a file of
     * fitted sections (request L1). */
    HIRUKETAWHA_FILE_ENDS = 21,          /* the file ends early; where nothing is left of it the detail is its length */
    HIRUKETAWHA_BAD_NUMBER = 22,         /* a number is badly formed or too large */
    HIRUKETAWHA_OUT_OF_RANGE = 23,       /* a version, count or code is outside its range, or a conflict pair is out of order */
    HIRUKETAWHA_NO_REFERENCE = 24,       /* a reference to an object that doesn't exist */
    HIRUKETAWHA_RULE_BROKEN = 25,        /* detail: the first broken rule's number, 1 to 7 */
    HIRUKETAWHA_BYTES_LEFT = 26,         /* bytes are left over; the detail is the offset of the first of them */

    /* Of the panel (section 7), length 0 with it. */
    HIRUKETAWHA_BUFFER_SHORT = 27,       /* the lent buffer is too short */

    /* Of the lengths of two blocks (request L13), in this order, each with a record of zeros. */
    HIRUKETAWHA_BAD_HEADWAY = 28,        /* the headway is not one of 120 to 600 seconds */
    HIRUKETAWHA_BAD_SPEED = 29           /* the speed is none of 70, 90, 100, 130, 160 and 200 km/h */
};

/* ---- The kinds of events, with their first and second number (section 3). A number that is not used must be 0. */

enum {
    HIRUKETAWHA_READ_SECTION = 1,        /* section, code: 1 free, 2 occupied, every other none */
    HIRUKETAWHA_READ_POINT = 2,          /* point, code: 1 left, 2 right, every other none */
    HIRUKETAWHA_THROW = 3,               /* point, position: 1 left, 2 right */
    HIRUKETAWHA_SET_ROUTE = 4,           /* route; an exit route on a neutral line first secures it the route's way (request L5), in the same event.
                                          * Cancelling the route leaves the line secured */
    HIRUKETAWHA_CANCEL_ROUTE = 5,        /* route */
    HIRUKETAWHA_SECURE_LINE = 6,         /* line, direction: 1 from A to B, 2 from B to A */
    HIRUKETAWHA_RELEASE_LINE = 7,        /* line, ground: 1 not left, 2 in siding, 3 returned */
    HIRUKETAWHA_BAR = 8,                 /* line, block counted from 0 */
    HIRUKETAWHA_UNBAR = 9,               /* line, block counted from 0 */
    HIRUKETAWHA_SECOND = 10,             /* one second has passed */

    /* Of axle counters (request L1). A head is 2 * section + 0 or 1, a count 0 to 65,535, the axles since the head's own start. */
    HIRUKETAWHA_AXLES_IN = 11,           /* head, count */
    HIRUKETAWHA_AXLES_OUT = 12,          /* head, count */
    HIRUKETAWHA_HEAD_SILENT = 13,        /* head */
    HIRUKETAWHA_RESET_AXLES = 14,        /* section */

    /* Of lamps (request L3). A signal is a main one, or a block signal, numbered after the main ones as `announced` of a layout has them. A report
     * stands until the next one: where the supervision of a lamp falls silent, report any other code. */
    HIRUKETAWHA_REPORT_LAMP = 15         /* signal, code: 1 stop is lit, 2 another light is, every other none */
};

/* ---- The records. Every field is a byte or bytes, but for the 16-bit numbers of the heads, each at an even place: so there is no padding. A
 * test holds sizes and places to the library's. */

/* A line: its blocks from end A to end B, the inner section and the entrance signal at each end, its points with their positions (1 left,
 * 2 right). Entries past a count are not looked at; in a layout that was loaded they are 0. 30 bytes. */
struct hiruketawha_line {
    uint8_t blocks; /* 1 to 8 */
    uint8_t block[8];
    uint8_t innera;
    uint8_t innerb;
    uint8_t entrancea;
    uint8_t entranceb;
    uint8_t points; /* 0 to 8 */
    uint8_t point[8];
    uint8_t position[8];
};

/* A route: its entry signal, its kind (0 inner, 1 entrance, 2 exit), for kinds 1 and 2 the line and the end (0 is A, 1 is B), diverging 0
 * or 1, its path in order of travel, its overlap, its points with their positions. Entries past a count as above. 40 bytes. */
struct hiruketawha_route {
    uint8_t entry;
    uint8_t kind;
    uint8_t line;
    uint8_t end;
    uint8_t diverging;
    uint8_t paths; /* 1 to 8 */
    uint8_t path[8];
    uint8_t overlaps; /* 0 to 4 */
    uint8_t overlap[8];
    uint8_t points; /* 0 to 8 */
    uint8_t point[8];
    uint8_t position[8];
};

/* A layout (section 2; requests L1 and L2). `pointsection` has each point's own section. Of a distant, `carrier` has 0 if it is free-standing or the
 * carrying signal plus 1, `announced` the signal that it announces: a main signal, or a block signal, which are numbered after the main ones, line by
 * line, n - 1 each way for n blocks, those from A to B before those from B to A, each in order of blocks from end A. `conflict` has 1 at 48 * i + j where
 * the routes i and j conflict, and else 0; `fitted` has 1 where a section has heads, and else 0. Entries past a count as above. A record of zeros is the
 * layout with no objects. 4,632 bytes. */
struct hiruketawha_layout {
    uint8_t version;  /* of its file: 1, which has no distants, or 2 */
    uint8_t sections; /* 1 to 64 */
    uint8_t points;   /* 0 to 32 */
    uint8_t pointsection[32];
    uint8_t signals; /* 0 to 32 */
    uint8_t lines;   /* 0 to 8 */
    struct hiruketawha_line line[8];
    uint8_t distants; /* 0 to 32 */
    uint8_t carrier[32];
    uint8_t announced[32];
    uint8_t routes; /* 0 to 48 */
    struct hiruketawha_route route[48];
    uint8_t conflict[2304];
    uint8_t fitted[64];
    uint8_t lacking; /* 1 where a section was told as fitted that there is not, else 0 */
};

/* A head of a section (request L1): the axles that it told in and out, and for each count 1 where it has come since the cold start or the
 * head's last silence; else the head is silent. 6 bytes. */
struct hiruketawha_head {
    uint16_t inward;
    uint16_t outward;
    uint8_t hasin;
    uint8_t hasout;
};

/* The heads of a section: its two heads; all in less all out at the last reset, round 65,536; 0 before the first reset, 1 after one, 2 once
 * the number has since been in 1 to 255 with neither head silent. No value is outside its range. 16 bytes. */
struct hiruketawha_axles {
    struct hiruketawha_head head0;
    struct hiruketawha_head head1;
    uint16_t sum;
    uint16_t proof;
};

/* A state: a code for each section, point, route, line and block, the heads of each section, and what the lamp of each signal reports, which no
 * panel shows. Read the rest by the panel; a code outside its range gets every event 18. 1,576 bytes. */
struct hiruketawha_state {
    uint8_t section[64]; /* 1 free, 2 occupied, 3 none */
    uint8_t point[32];   /* 1 left, 2 right, 3 none */
    uint8_t order[32];   /* the last throw: 0 none, 1 left, 2 right */
    uint8_t phase[48];   /* of a route: 0 idle, 1 locked and its signal at proceed, 2 locked and fallen, 3 cancelling */
    uint8_t steps[48];   /* steps done of letting a route go: 0 to 3 */
    uint8_t seconds[48]; /* seconds since a cancel: 0 to 89 */
    uint8_t direction[8]; /* of a line: 0 neutral, 1 from A to B, 2 from B to A */
    uint8_t stage[64];   /* of a block, at 8 * line + block: 0 open; 1, 2, 3, 4 held in stage 0, 1, 2, 3 */
    uint8_t bar[64];     /* of a block, likewise: 1 barred, else 0 */
    struct hiruketawha_axles axles[64]; /* of a section; looked at only where it is fitted */
    uint8_t lamp[144];   /* of a signal, at its number (request L3): 1 stop, 2 another light, 3 none */
};

/* What is told of an event. 8 bytes. */
struct hiruketawha_reply {
    uint8_t number;
    uint32_t detail;
};

/* What is told of a layout file, and of a file of fitted sections. 16 bytes. */
struct hiruketawha_load_reply {
    uint8_t number;
    size_t detail;
};

/* What is told of a panel image: 0 and how many bytes it has; 18 or 27 and 0. 16 bytes. */
struct hiruketawha_drawn {
    uint8_t number;
    size_t length;
};

/* The most bytes that a panel image has: 64 + 32 + 32 + 48 + 32 + 8 + 3 * 64. */
#define HIRUKETAWHA_PANEL_MOST 408

/* ---- What a signal shows, in its byte of the panel image. */

enum {
    HIRUKETAWHA_DARK = 0,                /* a block signal that is dark or that there is not; a distant that is dark */

    /* Of main and block signals (section 4). */
    HIRUKETAWHA_STOP = 20,
    HIRUKETAWHA_PROCEED_DIVERGING = 21,  /* never of a block signal */
    HIRUKETAWHA_PROCEED = 22,

    /* Of a distant (request L2): what the signal shows that it announces. It is dark when that is dark, and one on a mast also while the carrying
     * signal is at stop or dark. */
    HIRUKETAWHA_WARNS_OF_STOP = 23,
    HIRUKETAWHA_WARNS_OF_DIVERGING = 24,
    HIRUKETAWHA_WARNS_OF_PROCEED = 25
};

/* ---- The functions. */

/* Both records at power-on, each written whole, whatever it held. The layout has no objects: it is not sound, so every event and every
 * panel gets 18 until a file is loaded. The state is cold (sections 1 and 5): everything reads none, no order, no route, no line secured,
 * every block held in stage 0, no bar, every head silent, every lamp at none. */
void hiruketawha_power_on(struct hiruketawha_state *state, struct hiruketawha_layout *layout);

/* A layout file of `length` bytes into the layout's record (section 2). Where it is accepted, 0 and 0, and both records are written whole:
 * the state starts anew, cold, since what is promised of a run holds for one layout from the cold start; no section has heads until that
 * is told. Where it is refused, 21 to 26 with the detail, and both records keep every byte: a layout that was in use stays in use, and so
 * does its state. */
struct hiruketawha_load_reply hiruketawha_load(struct hiruketawha_state *state, struct hiruketawha_layout *layout, const uint8_t *bytes,
                                               size_t length);

/* The sections that have heads (request L1), told beside the layout once it is loaded: a file of `length` bytes, section numbers in the
 * number form (section 2), in any order. Where it is accepted, 0 and 0, and both records are written whole: just these sections have heads,
 * whatever was told before, none where there are no bytes; and the state starts anew, cold. A section that the layout lacks is accepted too
 * and makes the layout unsound: every event and every panel gets 18 until a layout is loaded or sections are told anew. Told before a
 * layout is loaded, they are gone with the load. Where the file is refused, 21 or 22 with the offset, and both records keep every byte. */
struct hiruketawha_load_reply hiruketawha_fit(struct hiruketawha_state *state, struct hiruketawha_layout *layout, const uint8_t *bytes,
                                              size_t length);

/* One event (sections 3 to 6; requests L1, L3 and L5) on the state's record, on that layout; numbers of any size. 0 and 0, and the record is the next
 * state; or a refusal, 1 to 18, 30, 31, 34 or 35, and the record is as it was. */
struct hiruketawha_reply hiruketawha_event(struct hiruketawha_state *state, const struct hiruketawha_layout *layout, uint32_t kind,
                                           uint32_t first, uint32_t second);

/* The panel image (section 7; request L2) into a buffer of `length` bytes, in this order: sections, points, signals, routes, distants, lines,
 * blocks. 0 and the image's length: the image stands in the buffer's first bytes, and later bytes are as they were. 18 for a record that is
 * not sound, then 27 for a buffer that is too short: length 0, and no byte of the buffer is written.
 * A byte each: a section or a point 1, 2 or 3 as in the state; a signal 20 stop, 21 or 22 proceed, diverging or not; a route 0 idle,
 * 1 locked, 2 cancelling; a distant 23, 24 or 25 where the signal that it announces shows 20, 21 or 22, or 0 where it is dark; a line its
 * direction. Per block, line by line from A: its stage as in the state, its signal from A to B, its signal from B to A; a block signal 20 or
 * 22, or 0 where it is dark or there is none. */
struct hiruketawha_drawn hiruketawha_panel(const struct hiruketawha_state *state, const struct hiruketawha_layout *layout, uint8_t *image,
                                           size_t length);

/* ---- For planners: how long two blocks one after the other may be, for trains that follow one another (request L13, tables 7.1 and 7.2 of
 * JD 550 chapter 7). The stopping distance is to be checked apart. It is in an archive of its own, libblock_lengths.a, which a cabinet does
 * without; the two archives may be linked together. */

/* Headway in seconds, speed in km/h, and both tables' lengths in metres: `plain` where there is no stopping place (7.1), `stopping` next to
 * a stopping place and past it (7.2). 24 bytes. */
struct hiruketawha_block_lengths {
    uint32_t headway;
    uint32_t speed;
    double plain;
    double stopping;
};

/* What is told of a headway and a speed: 0 and the lengths; 28 or 29 and a record of zeros. 32 bytes, of which the second to the eighth have
 * no meaning. */
struct hiruketawha_lengths_answer {
    uint8_t number;
    struct hiruketawha_block_lengths lengths;
};

/* The lengths for a headway and a speed; numbers of any size. At 120, 180, .., 600 seconds the table's own lengths, exactly; between them one
 * rounded division and one rounded sum, within 2^-35 m of the straight line. Two misprints of the tables are put right: 180 s, 90 km/h in 7.1
 * is 3030 m, 180 s, 100 km/h in 7.2 is 2900 m. */
struct hiruketawha_lengths_answer hiruketawha_lengths(uint32_t headway, uint32_t speed);

#ifdef __cplusplus
}
#endif

#endif
