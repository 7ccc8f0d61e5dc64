/* The largest layout, with something in every field of every object, and a layout as a layout file (section 2). */
#ifndef WIDE_H
#define WIDE_H

#include "hiruketawha.h"

static uint8_t file[65536];
static size_t length;

/* ---- the layout: neighbouring fields and entries differ */

/* Line l: one block, the last line eight; inner sections of its own, points that differ. */
static void fill_line(struct hiruketawha_line *line, int l) {
    line->blocks = l == 7 ? 8 : 1;
    for (int i = 0; i < line->blocks; i++) line->block[i] = l == 7 ? 56 + i : 49 + l;
    line->innera = 2 * l;
    line->innerb = 2 * l + 1;
    line->entrancea = 16 + 2 * l;
    line->entranceb = 17 + 2 * l;
    line->points = 8;
    for (int i = 0; i < 8; i++) {
        line->point[i] = (3 * l + i) % 31;
        line->position[i] = 1 + (l + i) % 2;
    }
}

/* Route r: an entrance, an exit or an inner route by turns; a path, an overlap and points as long as they may be. */
static void fill_route(struct hiruketawha_route *route, int r) {
    int line = r % 8, end = r / 8 % 2;
    route->kind = (r + 1) % 3;
    route->line = route->kind == 0 ? 0 : line;
    route->end = route->kind == 0 ? 0 : end;
    route->entry = route->kind == 1 ? 16 + 2 * line + end : r % 16;
    route->diverging = r % 2;
    route->paths = 8;
    for (int i = 0; i < 8; i++) route->path[i] = 16 + (r + i) % 33;
    if (route->kind == 1) route->path[0] = 2 * line + end;
    if (route->kind == 2) route->path[7] = 2 * line + end;
    route->overlaps = 4;
    for (int i = 0; i < 4; i++) route->overlap[i] = 8 + (r + 5 * i) % 41;
    route->points = 8;
    for (int i = 0; i < 8; i++) {
        route->point[i] = (r + 2 * i) % 31;
        route->position[i] = 1 + (r + i) % 2;
    }
}

/* Distant d, of 32 main and 14 block signals: every fourth is free-standing, the first and the last stand on the first and on the last signal's
 * mast, and none announces its own carrier. */
static void fill_distant(struct hiruketawha_layout *to, int d) {
    to->carrier[d] = d == 31 ? 46 : d % 4 == 1 ? 0 : 1 + d;
    to->announced[d] = 45 - d;
}

/* Every pair of routes conflicts, so that rule 6 asks no more. */
static void fill_layout(struct hiruketawha_layout *to) {
    to->version = 2;
    to->sections = 64;
    to->points = 32;
    for (int i = 0; i < 32; i++) to->pointsection[i] = 63 - i;
    to->signals = 32;
    to->lines = 8;
    for (int i = 0; i < 8; i++) fill_line(&to->line[i], i);
    to->distants = 32;
    for (int i = 0; i < 32; i++) fill_distant(to, i);
    to->routes = 48;
    for (int i = 0; i < 48; i++) fill_route(&to->route[i], i);
    for (int i = 0; i < 48; i++)
        for (int j = 0; j < 48; j++) to->conflict[48 * i + j] = i != j;
}

/* ---- the file */

static void put(unsigned number) {
    while (number > 127) {
        file[length++] = 128 | (number & 127);
        number >>= 7;
    }
    file[length++] = number;
}

static void put_all(unsigned count, const uint8_t *items) {
    put(count);
    for (unsigned i = 0; i < count; i++) put(items[i]);
}

static void put_points(unsigned count, const uint8_t *points, const uint8_t *positions) {
    put(count);
    for (unsigned i = 0; i < count; i++) {
        put(points[i]);
        put(positions[i]);
    }
}

static void put_route(const struct hiruketawha_route *route) {
    put(route->entry);
    put(route->kind);
    if (route->kind != 0) {
        put(route->line);
        put(route->end);
    }
    put(route->diverging);
    put_all(route->paths, route->path);
    put_all(route->overlaps, route->overlap);
    put_points(route->points, route->point, route->position);
}

static void put_layout(const struct hiruketawha_layout *from) {
    length = 0;
    put(from->version);
    put(from->sections);
    put_all(from->points, from->pointsection);
    put(from->signals);
    put(from->lines);
    for (int i = 0; i < from->lines; i++) {
        const struct hiruketawha_line *line = &from->line[i];
        put_all(line->blocks, line->block);
        put(line->innera);
        put(line->innerb);
        put(line->entrancea);
        put(line->entranceb);
        put_points(line->points, line->point, line->position);
    }
    put(from->distants);
    for (int i = 0; i < from->distants; i++) {
        put(from->carrier[i]);
        put(from->announced[i]);
    }
    put(from->routes);
    for (int i = 0; i < from->routes; i++) put_route(&from->route[i]);
    put(1128);
    for (int i = 0; i < 48; i++)
        for (int j = i + 1; j < 48; j++) {
            put(i);
            put(j);
        }
}

#endif
