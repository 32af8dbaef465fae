/* Room for rows, and the text of a mesh behind its replies, as the command `mesh` writes it. */
#ifndef PUT_H
#define PUT_H
#include "delaunay_c.h"
#include <inttypes.h>
#include <stdio.h>
#include <stdlib.h>

static void *room(uint64_t rows, size_t size) {
    void *block = calloc(rows + 1, size);
    if (!block) {
        exit(9);
    }
    return block;
}

static inline void put_mesh(const struct delaunay_c_place *points, const struct delaunay_c_cell *cells,
                            const struct delaunay_c_triangle *hull, const struct delaunay_c_mesh_sizes *n) {
    printf("points %" PRIu64 "\n", n->points);
    for (uint64_t i = 0; i < n->points; i++) {
        printf("%" PRId64 " %" PRId64 " %" PRId64 "\n", points[i].x, points[i].y, points[i].z);
    }
    printf("cells %" PRIu64 "\n", n->cells);
    for (uint64_t i = 0; i < n->cells; i++) {
        printf("%u %u %u %u\n", cells[i].a, cells[i].b, cells[i].c, cells[i].d);
    }
    printf("hull %" PRIu64 "\n", n->hull);
    for (uint64_t i = 0; i < n->hull; i++) {
        printf("%u %u %u\n", hull[i].a, hull[i].b, hull[i].c);
    }
    printf("end\n");
}

#endif
