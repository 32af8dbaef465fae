/* Each allocation of a call is refused in turn: the call answers DELAUNAY_C_MEMORY and leaves all rooms and the mesh
 * of its handle as before, or does without that block and answers as with it. To be linked with
 * -Wl,--wrap=malloc,--wrap=realloc. It prints how many refusals there were. */
#include "delaunay_c.h"
#include <stdio.h>
#include <stdlib.h>
#include <string.h>

void *__real_malloc(size_t size);
void *__real_realloc(void *block, size_t size);

static long refuse_at = -1;

static int refuses(void) { return refuse_at >= 0 && refuse_at-- == 0; }

void *__wrap_malloc(size_t size) { return refuses() ? NULL : __real_malloc(size); }

void *__wrap_realloc(void *block, size_t size) { return refuses() ? NULL : __real_realloc(block, size); }

enum { COUNT = 30, ROOM = 400 };

static struct rooms {
    struct delaunay_c_place points[ROOM];
    struct delaunay_c_cell cells[ROOM], neighbours[ROOM];
    struct delaunay_c_triangle hull[ROOM], triangles[ROOM];
    struct delaunay_c_edge edges[ROOM];
    struct delaunay_c_alphas point_alphas[ROOM], edge_alphas[ROOM], triangle_alphas[ROOM];
    uint64_t cell_alphas[ROOM], counts[ROOM], least;
    struct delaunay_c_mesh_sizes mesh;
    struct delaunay_c_face_sizes faces;
    struct delaunay_c_part_sizes parts;
} rooms, before, want;

static struct delaunay_c_place given[COUNT];

static int mesh(void) {
    struct rooms *r = &rooms;
    return delaunay_c_mesh(given, COUNT, r->points, ROOM, r->cells, ROOM, r->neighbours, ROOM, r->hull, ROOM, &r->mesh);
}

static int alphas(void) {
    struct rooms *r = &rooms;
    return delaunay_c_alphas(given, COUNT, r->point_alphas, ROOM, r->edges, ROOM, r->edge_alphas, ROOM, r->triangles,
                             ROOM, r->triangle_alphas, ROOM, r->cell_alphas, ROOM, &r->faces);
}

static int filtered(void) {
    struct rooms *r = &rooms;
    return delaunay_c_filtered(given, COUNT, r->points, ROOM, r->cells, ROOM, r->neighbours, ROOM, r->hull, ROOM,
                               r->point_alphas, ROOM, r->edges, ROOM, r->edge_alphas, ROOM, r->triangles, ROOM,
                               r->triangle_alphas, ROOM, r->cell_alphas, ROOM, &r->mesh, &r->faces);
}

static int parts(void) {
    struct rooms *r = &rooms;
    return delaunay_c_solid_parts(given, COUNT, 1 << 20, r->cells, ROOM, r->counts, ROOM, &r->parts);
}

static int least(void) { return delaunay_c_least_alpha(given, COUNT, 1, &rooms.least); }

/* How many allocations a call makes, each refused once; -1 where an answer is wrong. */
static long refused(int (*call)(void)) {
    memset(&rooms, 0x5a, sizeof rooms);
    memcpy(&before, &rooms, sizeof rooms);
    if (call() != DELAUNAY_C_OK) {
        return -1;
    }
    memcpy(&want, &rooms, sizeof rooms);
    for (long n = 0;; n++) {
        memcpy(&rooms, &before, sizeof rooms);
        refuse_at = n;
        int status = call();
        int was_refused = refuse_at < 0;
        refuse_at = -1;
        if (status != DELAUNAY_C_OK && status != DELAUNAY_C_MEMORY) {
            return -1;
        }
        if (memcmp(status == DELAUNAY_C_OK ? &want : &before, &rooms, sizeof rooms) != 0) {
            return -1;
        }
        if (!was_refused) {
            return status == DELAUNAY_C_OK ? n : -1;
        }
    }
}

static struct delaunay_c_handle handle = {0};

static int edited(void) {
    struct rooms *r = &rooms;
    return delaunay_c_complex(&handle, r->points, ROOM, r->cells, ROOM, r->neighbours, ROOM, r->hull, ROOM, &r->mesh);
}

/* The rows of the handle's mesh, and nothing else. */
static int look(struct rooms *kept) {
    memset(&rooms, 0x5a, sizeof rooms);
    int status = edited();
    memcpy(kept, &rooms, sizeof rooms);
    return status;
}

static uint8_t reply;

static int opens(void) { return delaunay_c_open(&handle, given, COUNT); }

static int adds(void) {
    struct delaunay_c_place p = {31, 32, 33};
    return delaunay_c_add(&handle, &p, &reply);
}

static int takes(void) { return delaunay_c_take(&handle, &given[3], &reply); }

static int moves(void) {
    struct delaunay_c_place p = {31, 32, 33};
    return delaunay_c_move(&handle, &given[3], &p, &reply);
}

/* The same of a call that changes the mesh of the handle, which has the first points before. */
static long refused_edit(int (*call)(void), int wanted) {
    for (long n = -1;; n++) {
        if (delaunay_c_open(&handle, given, COUNT - 5) != DELAUNAY_C_OK || look(&before) != DELAUNAY_C_OK) {
            return -1;
        }
        reply = 99;
        refuse_at = n;
        int status = call();
        int was_refused = n >= 0 && refuse_at < 0;
        refuse_at = -1;
        if (reply != (status == DELAUNAY_C_OK ? wanted : 99)) {
            return -1;
        }
        struct rooms now;
        if (look(&now) != DELAUNAY_C_OK || (status != DELAUNAY_C_OK && status != DELAUNAY_C_MEMORY)) {
            return -1;
        }
        if (n < 0) {
            memcpy(&want, &now, sizeof now);
        }
        if (memcmp(status == DELAUNAY_C_OK ? &want : &before, &now, sizeof now) != 0) {
            return -1;
        }
        if (n >= 0 && !was_refused) {
            return status == DELAUNAY_C_OK ? n : -1;
        }
    }
}

enum { MANY = 6 };

/* The same of edits by one call: at a refusal those before it stand, and the others, made then, come to the same. */
static long refused_many(void) {
    struct delaunay_c_edit many[MANY];
    uint8_t replies[MANY + 1], wanted[MANY] = {DELAUNAY_C_INSERTED, DELAUNAY_C_DUPLICATE, DELAUNAY_C_REMOVED,
                                               DELAUNAY_C_MISSING, DELAUNAY_C_MOVED, DELAUNAY_C_INSERTED};
    memset(many, 0, sizeof many);
    for (int i = 0; i < MANY; i++) {
        static const uint32_t kinds[MANY] = {DELAUNAY_C_ADD, DELAUNAY_C_ADD, DELAUNAY_C_TAKE,
                                             DELAUNAY_C_TAKE, DELAUNAY_C_MOVE, DELAUNAY_C_ADD};
        static const int64_t drop[MANY] = {0, 0, 3, 3, 4, 1};
        many[i].kind = kinds[i];
        many[i].place = kinds[i] == DELAUNAY_C_ADD ? (struct delaunay_c_place){31, 32, 33 + drop[i]} : given[drop[i]];
        many[i].to = (struct delaunay_c_place){51, 52, 53};
    }
    for (long n = -1;; n++) {
        uint64_t count = 99, rest = 0;
        struct rooms now;
        memset(replies, 0x5a, sizeof replies);
        if (delaunay_c_open(&handle, given, COUNT - 5) != DELAUNAY_C_OK) {
            return -1;
        }
        refuse_at = n;
        int status = delaunay_c_edit_many(&handle, many, MANY, replies, MANY + 1, &count);
        int was_refused = n >= 0 && refuse_at < 0;
        refuse_at = -1;
        if (status == DELAUNAY_C_MEMORY ? count >= MANY : status != DELAUNAY_C_OK || count != MANY) {
            return -1;
        }
        for (uint64_t i = count; i <= MANY; i++) {
            if (replies[i] != 0x5a) {
                return -1;
            }
        }
        if (delaunay_c_edit_many(&handle, many + count, MANY - count, replies + count, MANY - count, &rest) !=
                DELAUNAY_C_OK ||
            rest != MANY - count || memcmp(replies, wanted, MANY) != 0 || look(&now) != DELAUNAY_C_OK) {
            return -1;
        }
        if (n < 0) {
            memcpy(&want, &now, sizeof now);
        }
        if (memcmp(&want, &now, sizeof now) != 0) {
            return -1;
        }
        if (n >= 0 && !was_refused) {
            return status == DELAUNAY_C_OK ? n : -1;
        }
    }
}

int main(void) {
    uint32_t drawn = 1;
    for (int i = 0; i < COUNT; i++) {
        int64_t v[3];
        for (int k = 0; k < 3; k++) {
            drawn = drawn * 1664525u + 1013904223u;
            v[k] = drawn >> 26;
        }
        given[i] = (struct delaunay_c_place){v[0], v[1], v[2]};
    }
    long of_mesh = refused(mesh), of_alphas = refused(alphas), of_parts = refused(parts), of_least = refused(least);
    long of_filtered = refused(filtered);
    if (of_mesh <= 0 || of_alphas <= 0 || of_filtered <= 0 || of_parts <= 0 || of_least <= 0) {
        printf("a wrong answer after a refusal: %ld %ld %ld %ld %ld\n", of_mesh, of_alphas, of_filtered, of_parts,
               of_least);
        return 1;
    }
    printf("refusals: %ld of a mesh, %ld of alphas, %ld of both, ", of_mesh, of_alphas, of_filtered);
    printf("%ld of solid parts, %ld of a least alpha\n", of_parts, of_least);
    long of_open = refused_edit(opens, 99), of_add = refused_edit(adds, DELAUNAY_C_INSERTED);
    long of_take = refused_edit(takes, DELAUNAY_C_REMOVED), of_move = refused_edit(moves, DELAUNAY_C_MOVED);
    long of_complex = refused(edited), of_many = refused_many();
    delaunay_c_close(&handle);
    if (of_open <= 0 || of_add <= 0 || of_take <= 0 || of_move <= 0 || of_complex <= 0 || of_many <= 0) {
        printf("a wrong answer after a refusal: %ld %ld %ld %ld %ld %ld\n", of_open, of_add, of_take, of_move,
               of_complex, of_many);
        return 1;
    }
    printf("refusals: %ld of opening, %ld of an add, %ld of a take, %ld of a move, %ld of a complex, ", of_open, of_add,
           of_take, of_move, of_complex);
    printf("%ld of many edits\n", of_many);
    return 0;
}
