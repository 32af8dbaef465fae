/* Reads lines of three whole numbers, and writes the mesh as the command `mesh` does behind its replies, or with the
 * word `steps`, or `filtered`, by one call, the least alphas as the command `steps` does, or with `parts ALPHA` or
 * `most COUNT` the solid parts as the command `parts` does. */
#include "put.h"
#include <string.h>

static struct delaunay_c_place *given;
static size_t count;

static void read_places(void) {
    size_t kept = 1024;
    given = room(kept, sizeof *given);
    struct delaunay_c_place p;
    while (scanf("%" SCNd64 " %" SCNd64 " %" SCNd64, &p.x, &p.y, &p.z) == 3) {
        if (count == kept) {
            kept *= 2;
            given = realloc(given, kept * sizeof *given);
            if (!given) {
                exit(9);
            }
        }
        given[count++] = p;
    }
}

/* The first call has no room, and tells what is wanted. */
static int mesh(void) {
    struct delaunay_c_mesh_sizes n = {0, 0, 0};
    struct delaunay_c_place one_place;
    struct delaunay_c_cell one_cell, other_cell;
    struct delaunay_c_triangle one;
    int status = delaunay_c_mesh(given, count, &one_place, 0, &one_cell, 0, &other_cell, 0, &one, 0, &n);
    if (status != DELAUNAY_C_ROOM) {
        return status;
    }
    struct delaunay_c_place *points = room(n.points, sizeof *points);
    struct delaunay_c_cell *cells = room(n.cells, sizeof *cells), *across = room(n.cells, sizeof *across);
    struct delaunay_c_triangle *hull = room(n.hull, sizeof *hull);
    status = delaunay_c_mesh(given, count, points, n.points, cells, n.cells, across, n.cells, hull, n.hull, &n);
    if (status != DELAUNAY_C_OK) {
        return status;
    }
    put_mesh(points, cells, hull, &n);
    return 0;
}

static void put_alpha(uint64_t alpha) {
    if (alpha < DELAUNAY_C_BEYOND) {
        printf("%" PRIu64 "\n", alpha);
    } else {
        printf("none\n");
    }
}

/* A mesh and its faces. */
struct filtered {
    struct delaunay_c_mesh_sizes m;
    struct delaunay_c_face_sizes n;
    struct delaunay_c_place *points;
    struct delaunay_c_cell *cells, *across;
    struct delaunay_c_triangle *hull, *triangles;
    struct delaunay_c_edge *edges;
    struct delaunay_c_alphas *point_alphas, *edge_alphas, *triangle_alphas;
    uint64_t *cell_alphas;
};

/* By one call for both, or by a call for each. */
static int filter(struct filtered *f, int by_one) {
    struct delaunay_c_mesh_sizes *m = &f->m;
    struct delaunay_c_face_sizes *n = &f->n;
    if (by_one) {
        return delaunay_c_filtered(given, count, f->points, m->points, f->cells, m->cells, f->across, m->cells, f->hull,
                                   m->hull, f->point_alphas, n->points, f->edges, n->edges, f->edge_alphas, n->edges,
                                   f->triangles, n->triangles, f->triangle_alphas, n->triangles, f->cell_alphas,
                                   n->cells, m, n);
    }
    int status = delaunay_c_mesh(given, count, f->points, m->points, f->cells, m->cells, f->across, m->cells, f->hull,
                                 m->hull, m);
    int other = delaunay_c_alphas(given, count, f->point_alphas, n->points, f->edges, n->edges, f->edge_alphas,
                                  n->edges, f->triangles, n->triangles, f->triangle_alphas, n->triangles,
                                  f->cell_alphas, n->cells, n);
    return status == other && n->points == m->points && n->cells == m->cells ? status : 9;
}

/* The first call has no room, and tells what is wanted. */
static int steps(int by_one) {
    struct filtered f = {0};
    int status = filter(&f, by_one);
    if (status != DELAUNAY_C_ROOM) {
        return status;
    }
    f.points = room(f.m.points, sizeof *f.points);
    f.cells = room(f.m.cells, sizeof *f.cells);
    f.across = room(f.m.cells, sizeof *f.across);
    f.hull = room(f.m.hull, sizeof *f.hull);
    f.triangles = room(f.n.triangles, sizeof *f.triangles);
    f.edges = room(f.n.edges, sizeof *f.edges);
    f.point_alphas = room(f.n.points, sizeof *f.point_alphas);
    f.edge_alphas = room(f.n.edges, sizeof *f.edge_alphas);
    f.triangle_alphas = room(f.n.triangles, sizeof *f.triangle_alphas);
    f.cell_alphas = room(f.n.cells, sizeof *f.cell_alphas);
    status = filter(&f, by_one);
    if (status != DELAUNAY_C_OK) {
        return status;
    }
    printf("edges %" PRIu64 "\n", f.n.edges);
    for (uint64_t i = 0; i < f.n.edges; i++) {
        printf("%u %u ", f.edges[i].a, f.edges[i].b);
        put_alpha(f.edge_alphas[i].admitted);
    }
    printf("triangles %" PRIu64 "\n", f.n.triangles);
    for (uint64_t i = 0; i < f.n.triangles; i++) {
        printf("%u %u %u ", f.triangles[i].a, f.triangles[i].b, f.triangles[i].c);
        put_alpha(f.triangle_alphas[i].admitted);
    }
    printf("cells %" PRIu64 "\n", f.n.cells);
    for (uint64_t i = 0; i < f.n.cells; i++) {
        printf("%u %u %u %u ", f.cells[i].a, f.cells[i].b, f.cells[i].c, f.cells[i].d);
        put_alpha(f.cell_alphas[i]);
    }
    printf("end\n");
    return 0;
}

/* Whether the points of a tetrahedron but one are all points of another. */
static int is_side(const uint32_t *one, int but, const uint32_t *other) {
    for (int i = 0; i < 4; i++) {
        if (i != but && one[i] != other[0] && one[i] != other[1] && one[i] != other[2] && one[i] != other[3]) {
            return 0;
        }
    }
    return 1;
}

/* How many triangles only one of these tetrahedra has. */
static uint64_t outer(const struct delaunay_c_cell *cells, uint64_t n) {
    uint64_t sides = 0;
    for (uint64_t i = 0; i < n; i++) {
        for (int but = 0; but < 4; but++) {
            int others = 0;
            for (uint64_t k = 0; k < n; k++) {
                others += k != i && is_side(&cells[i].a, but, &cells[k].a);
            }
            sides += others == 0;
        }
    }
    return sides;
}

static int parts(uint64_t alpha) {
    struct delaunay_c_part_sizes n = {0, 0};
    struct delaunay_c_cell one;
    uint64_t one_count;
    int status = delaunay_c_solid_parts(given, count, alpha, &one, 0, &one_count, 0, &n);
    struct delaunay_c_cell *cells = room(n.cells, sizeof *cells);
    uint64_t *counts = room(n.parts, sizeof *counts);
    if (status == DELAUNAY_C_ROOM) {
        status = delaunay_c_solid_parts(given, count, alpha, cells, n.cells, counts, n.parts, &n);
    }
    if (status != DELAUNAY_C_OK) {
        return status;
    }
    printf("mesh3-parts 1\nalpha %" PRIu64 "\nparts %" PRIu64 "\n", alpha, n.parts);
    for (uint64_t i = 0; i < n.parts; cells += counts[i++]) {
        printf("part %" PRIu64 " %" PRIu64 "\n", counts[i], outer(cells, counts[i]));
    }
    printf("end\n");
    return 0;
}

static int most(uint32_t many) {
    uint64_t alpha;
    int status = delaunay_c_least_alpha(given, count, many, &alpha);
    return status != DELAUNAY_C_OK ? status : parts(alpha);
}

int main(int argc, char **argv) {
    read_places();
    if (argc == 3) {
        uint64_t number = strtoull(argv[2], NULL, 10);
        return strcmp(argv[1], "parts") == 0 ? parts(number) : most((uint32_t)number);
    }
    return argc == 2 ? steps(strcmp(argv[1], "filtered") == 0) : mesh();
}
