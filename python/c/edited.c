/* Reads lines of three whole numbers, the line `edits`, and edits behind it: `+` or `-` and a place, or `=` and two
 * places. Writes the reply of each edit, and the mesh that they leave. Exits with 1 where a look at the mesh answers
 * wrong, and else with the status that is not 0. */
#include "put.h"
#include <string.h>

static struct delaunay_c_handle handle = {0};

static int read_place(struct delaunay_c_place *p) {
    return scanf("%" SCNd64 " %" SCNd64 " %" SCNd64, &p->x, &p->y, &p->z) == 3;
}

static int open_mesh(void) {
    size_t kept = 1 << 20, count = 0;
    struct delaunay_c_place *given = room(kept, sizeof *given);
    while (count < kept && read_place(&given[count])) {
        count++;
    }
    int status = delaunay_c_open(&handle, given, count);
    free(given);
    return status;
}

static int edit(void) {
    static const char *replies[] = {"Inserted", "Duplicate", "Removed", "Missing", "Flat", "Moved", "Occupied"};
    char sign[2];
    struct delaunay_c_place a, b;
    uint8_t reply = 255;
    if (scanf(" edits") < 0) {
        return 0;
    }
    while (scanf("%1s", sign) == 1 && read_place(&a)) {
        int status = 9;
        if (*sign == '+') {
            status = delaunay_c_add(&handle, &a, &reply);
        } else if (*sign == '-') {
            status = delaunay_c_take(&handle, &a, &reply);
        } else if (*sign == '=' && read_place(&b)) {
            status = delaunay_c_move(&handle, &a, &b, &reply);
        }
        if (status != DELAUNAY_C_OK) {
            return status;
        }
        printf("%s\n", replies[reply]);
    }
    return 0;
}

static int is_same(const struct delaunay_c_place *p, const struct delaunay_c_place *q) {
    return p->x == q->x && p->y == q->y && p->z == q->z;
}

/* Each point of the mesh is nearest to itself, and is found there. */
static int finds(const struct delaunay_c_place *points, uint64_t count) {
    for (uint64_t i = 0; i < count; i++) {
        struct delaunay_c_place near;
        struct delaunay_c_located at;
        if (delaunay_c_nearest(&handle, &points[i], &near) != DELAUNAY_C_OK || !is_same(&near, &points[i])) {
            return 0;
        }
        if (delaunay_c_locate(&handle, &points[i], &at) != DELAUNAY_C_OK || at.kind != DELAUNAY_C_POINT ||
            !is_same(&at.a, &points[i])) {
            return 0;
        }
    }
    return 1;
}

static int mesh(void) {
    struct delaunay_c_mesh_sizes n, m = {0, 0, 0};
    int status = delaunay_c_counts(&handle, &n);
    if (status != DELAUNAY_C_OK) {
        return status;
    }
    struct delaunay_c_place *points = room(n.points, sizeof *points);
    struct delaunay_c_cell *cells = room(n.cells, sizeof *cells), *across = room(n.cells, sizeof *across);
    struct delaunay_c_triangle *hull = room(n.hull, sizeof *hull);
    status = delaunay_c_complex(&handle, points, n.points, cells, n.cells - 1, across, n.cells, hull, n.hull, &m);
    if (status != DELAUNAY_C_ROOM || m.points != n.points || m.cells != n.cells || m.hull != n.hull) {
        return 9;
    }
    status = delaunay_c_complex(&handle, points, n.points, cells, n.cells, across, n.cells, hull, n.hull, &n);
    if (status != DELAUNAY_C_OK) {
        return status;
    }
    put_mesh(points, cells, hull, &n);
    status = finds(points, n.points) ? 0 : 1;
    free(points);
    free(cells);
    free(across);
    free(hull);
    return status;
}

int main(void) {
    struct delaunay_c_mesh_sizes n;
    if (delaunay_c_counts(&handle, &n) != DELAUNAY_C_EMPTY) {
        return 9;
    }
    int status = open_mesh();
    if (status == DELAUNAY_C_OK) {
        status = edit();
    }
    if (status == DELAUNAY_C_OK) {
        status = mesh();
    }
    delaunay_c_close(&handle);
    delaunay_c_close(&handle);
    return handle.mesh ? 9 : status;
}
