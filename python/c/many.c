/* Many edits and many looks, each by one call. Reads points, the line `edits` and edits, as edited.c does, then the
 * line `looks` and places. Writes the reply of each edit, and for each place where it lies and the nearest point, each
 * on a line. Exits with 1 where a call does not answer as so many single calls do, at a stop too, or writes behind its
 * rows. */
#include "put.h"
#include <string.h>

enum { MOST = 4096 };

static struct delaunay_c_handle one_by_one = {0}, together = {0};
static struct delaunay_c_place given[MOST], places[MOST], near[MOST + 1];
static struct delaunay_c_edit edits[MOST];
static struct delaunay_c_located located[MOST + 1];
static uint8_t replies[MOST + 1];
static size_t given_len, edits_len, places_len;

static void check(int holds) {
    if (!holds) {
        exit(1);
    }
}

static int read_place(struct delaunay_c_place *p) {
    return scanf("%" SCNd64 " %" SCNd64 " %" SCNd64, &p->x, &p->y, &p->z) == 3;
}

static void read_all(void) {
    char sign[2];
    while (given_len < MOST && read_place(&given[given_len])) {
        given_len++;
    }
    check(scanf(" edits") == 0);
    while (edits_len < MOST && scanf(" %1[-+=]", sign) == 1) {
        struct delaunay_c_edit *edit = &edits[edits_len++];
        memset(edit, 0, sizeof *edit);
        edit->kind = *sign == '+' ? DELAUNAY_C_ADD : *sign == '-' ? DELAUNAY_C_TAKE : DELAUNAY_C_MOVE;
        check(read_place(&edit->place) && (*sign != '=' || read_place(&edit->to)));
    }
    check(scanf(" looks") == 0);
    while (places_len < MOST && read_place(&places[places_len])) {
        places_len++;
    }
}

static int single(struct delaunay_c_edit *edit, uint8_t *reply) {
    switch (edit->kind) {
    case DELAUNAY_C_ADD:
        return delaunay_c_add(&one_by_one, &edit->place, reply);
    case DELAUNAY_C_TAKE:
        return delaunay_c_take(&one_by_one, &edit->place, reply);
    default:
        return delaunay_c_move(&one_by_one, &edit->place, &edit->to, reply);
    }
}

/* The edits by one call, in two parts: at a stop in their midst those before it stand, and the others were not
 * begun. */
static void edit_all(void) {
    static struct delaunay_c_edit stopped[MOST + 1];
    const size_t half = edits_len / 2;
    uint64_t count = 99;
    check(delaunay_c_edit_many(&together, edits, edits_len, replies, edits_len - 1, &count) == DELAUNAY_C_ROOM);
    check(count == edits_len);
    memcpy(stopped, edits, half * sizeof *edits);
    memcpy(stopped + half + 1, edits + half, (edits_len - half) * sizeof *edits);
    for (int why = 0; why < 3; why++) {
        static const int statuses[] = {DELAUNAY_C_OUTSIDE, DELAUNAY_C_OUTSIDE, DELAUNAY_C_KIND};
        const size_t from = why == 0 ? 0 : half;
        memset(replies + from, 0x5a, sizeof replies - from);
        stopped[half] = edits[0];
        stopped[half].kind = why == 0 ? DELAUNAY_C_ADD : why == 1 ? DELAUNAY_C_MOVE : 3;
        *(why == 1 ? &stopped[half].to.z : &stopped[half].place.y) = 16384;
        check(delaunay_c_edit_many(&together, stopped + from, edits_len + 1 - from, replies + from, MOST + 1 - from,
                                   &count) == statuses[why]);
        check(count == half - from);
        check(replies[half] == 0x5a);
    }
    check(delaunay_c_edit_many(&together, edits + half, edits_len - half, replies + half, MOST + 1 - half, &count) ==
          DELAUNAY_C_OK);
    check(count == edits_len - half && replies[edits_len] == 0x5a);
    for (size_t i = 0; i < edits_len; i++) {
        uint8_t reply;
        check(single(&edits[i], &reply) == DELAUNAY_C_OK && reply == replies[i]);
    }
}

/* The looks by one call each: with a place outside among them the looks before it are told. */
static void look_all(void) {
    const size_t half = places_len / 2;
    const struct delaunay_c_place kept = places[half];
    uint64_t count = 99;
    check(delaunay_c_locate_many(&together, places, places_len, located, places_len - 1, &count) == DELAUNAY_C_ROOM);
    check(count == places_len);
    check(delaunay_c_nearest_many(&together, places, places_len, near, places_len - 1, &count) == DELAUNAY_C_ROOM);
    check(count == places_len);
    for (size_t n = half;; n = places_len) {
        static struct delaunay_c_located blank_located;
        static struct delaunay_c_place blank;
        const int status = n == half ? DELAUNAY_C_OUTSIDE : DELAUNAY_C_OK;
        memset(&blank_located, 0x5a, sizeof blank_located);
        memset(&blank, 0x5a, sizeof blank);
        memset(located, 0x5a, sizeof located);
        memset(near, 0x5a, sizeof near);
        places[half].x = n == half ? -1 : kept.x;
        check(delaunay_c_locate_many(&together, places, places_len, located, MOST + 1, &count) == status && count == n);
        check(memcmp(&located[n], &blank_located, sizeof blank_located) == 0);
        check(delaunay_c_nearest_many(&together, places, places_len, near, MOST + 1, &count) == status && count == n);
        check(memcmp(&near[n], &blank, sizeof blank) == 0);
        if (n == places_len) {
            break;
        }
    }
    for (size_t i = 0; i < places_len; i++) {
        struct delaunay_c_located at;
        struct delaunay_c_place point;
        memset(&at, 0x5a, sizeof at);
        check(delaunay_c_locate(&together, &places[i], &at) == DELAUNAY_C_OK && at.kind == located[i].kind);
        check(memcmp(&at.a, &located[i].a, 4 * sizeof at.a) == 0);
        check(delaunay_c_nearest(&together, &places[i], &point) == DELAUNAY_C_OK);
        check(memcmp(&point, &near[i], sizeof point) == 0);
    }
}

/* Both handles hold the same mesh. */
static void compare(void) {
    struct delaunay_c_mesh_sizes n[2];
    struct delaunay_c_handle *handles[2] = {&one_by_one, &together};
    struct delaunay_c_place *points[2];
    struct delaunay_c_cell *cells[2], *across[2];
    struct delaunay_c_triangle *hull[2];
    for (int i = 0; i < 2; i++) {
        check(delaunay_c_counts(handles[i], &n[i]) == DELAUNAY_C_OK);
        points[i] = room(n[i].points, sizeof **points);
        cells[i] = room(n[i].cells, sizeof **cells), across[i] = room(n[i].cells, sizeof **across);
        hull[i] = room(n[i].hull, sizeof **hull);
        check(delaunay_c_complex(handles[i], points[i], n[i].points, cells[i], n[i].cells, across[i], n[i].cells,
                                 hull[i], n[i].hull, &n[i]) == DELAUNAY_C_OK);
    }
    check(memcmp(&n[0], &n[1], sizeof n[0]) == 0);
    check(memcmp(points[0], points[1], n[0].points * sizeof **points) == 0);
    check(memcmp(cells[0], cells[1], n[0].cells * sizeof **cells) == 0);
    check(memcmp(across[0], across[1], n[0].cells * sizeof **across) == 0);
    check(memcmp(hull[0], hull[1], n[0].hull * sizeof **hull) == 0);
    for (int i = 0; i < 2; i++) {
        free(points[i]);
        free(cells[i]);
        free(across[i]);
        free(hull[i]);
    }
}

static void put_place(const struct delaunay_c_place *p) {
    printf(" %" PRId64 " %" PRId64 " %" PRId64, p->x, p->y, p->z);
}

int main(void) {
    read_all();
    check(delaunay_c_open(&one_by_one, given, given_len) == DELAUNAY_C_OK);
    check(delaunay_c_open(&together, given, given_len) == DELAUNAY_C_OK);
    edit_all();
    compare();
    look_all();
    compare();
    static const char *names[] = {"Inserted", "Duplicate", "Removed", "Missing", "Flat", "Moved", "Occupied"};
    for (size_t i = 0; i < edits_len; i++) {
        printf("%s\n", names[replies[i]]);
    }
    static const int counts[] = {1, 4, 3};
    for (size_t i = 0; i < places_len; i++) {
        printf("%u", located[i].kind);
        const struct delaunay_c_place *corners = &located[i].a;
        for (int k = 0; k < counts[located[i].kind]; k++) {
            put_place(&corners[k]);
        }
        printf("\nnearest");
        put_place(&near[i]);
        printf("\n");
    }
    delaunay_c_close(&one_by_one);
    delaunay_c_close(&together);
    return 0;
}
