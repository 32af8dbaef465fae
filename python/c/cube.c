/* The mesh of a cube's corners, with its neighbours, from C. */
#include "delaunay_c.h"
#include <inttypes.h>
#include <stdio.h>

int main(void) {
    struct delaunay_c_place given[8], points[8];
    for (int i = 0; i < 8; i++) {
        given[i] = (struct delaunay_c_place){2 * (i & 1), 2 * (i >> 1 & 1), 2 * (i >> 2 & 1)};
    }
    struct delaunay_c_cell cells[16], neighbours[16];
    struct delaunay_c_triangle hull[16];
    struct delaunay_c_mesh_sizes sizes;
    int status = delaunay_c_mesh(given, 8, points, 8, cells, 16, neighbours, 16, hull, 16, &sizes);
    printf("status %d, points %" PRIu64 ", cells %" PRIu64 ", hull %" PRIu64 "\n", status, sizes.points, sizes.cells,
           sizes.hull);
    for (uint64_t i = 0; i < sizes.cells; i++) {
        printf("cell %u %u %u %u", cells[i].a, cells[i].b, cells[i].c, cells[i].d);
        printf(", across %" PRId32 " %" PRId32 " %" PRId32 " %" PRId32 "\n", (int32_t)neighbours[i].a,
               (int32_t)neighbours[i].b, (int32_t)neighbours[i].c, (int32_t)neighbours[i].d);
    }
    status = delaunay_c_mesh(given, 8, points, 8, cells, 2, neighbours, 16, hull, 16, &sizes);
    printf("status %d: %" PRIu64 " cells are wanted\n", status, sizes.cells);
    status = delaunay_c_mesh(given, 4, points, 8, cells, 16, neighbours, 16, hull, 16, &sizes);
    printf("status %d: four corners of a side\n", status);
    given[5].y = 16384;
    status = delaunay_c_mesh(given, 8, points, 8, cells, 16, neighbours, 16, hull, 16, &sizes);
    printf("status %d: a coordinate is out of range\n", status);
    return 0;
}
