/* Rooms with rows to spare: what is behind the rows that a call writes stays as it was. Rooms of no rows: their
 * pointers may be null. Which of two statuses comes first. Prints the line of what is wrong, and exits with 1. */
#include "delaunay_c.h"
#include <stdio.h>
#include <string.h>

#define CHECK(holds)                                                                                                   \
    do {                                                                                                               \
        if (!(holds)) {                                                                                                \
            printf("line %d: " #holds "\n", __LINE__);                                                                 \
            return 1;                                                                                                  \
        }                                                                                                              \
    } while (0)

enum { COUNT = 8, ROOM = 200 };

static struct delaunay_c_place given[COUNT];
static struct delaunay_c_handle handle = {0};
static struct rooms {
    struct delaunay_c_place points[ROOM];
    struct delaunay_c_cell cells[ROOM], neighbours[ROOM];
    struct delaunay_c_triangle hull[ROOM], triangles[ROOM];
    struct delaunay_c_edge edges[ROOM];
    struct delaunay_c_alphas point_alphas[ROOM], edge_alphas[ROOM], triangle_alphas[ROOM];
    uint64_t cell_alphas[ROOM], counts[ROOM];
} r;
static struct delaunay_c_mesh_sizes mesh;
static struct delaunay_c_face_sizes faces;
static struct delaunay_c_part_sizes parts;

/* Whether all bytes of a room behind so many rows are as they were set. */
static int is_blank(const void *room, size_t row, uint64_t rows) {
    const unsigned char *bytes = room;
    for (size_t i = rows * row; i < ROOM * row; i++) {
        if (bytes[i] != 0x5a) {
            return 0;
        }
    }
    return 1;
}

#define IS_BLANK(room, rows) is_blank(room, sizeof *(room), rows)

static int blank_behind_mesh(void) {
    return IS_BLANK(r.points, mesh.points) && IS_BLANK(r.cells, mesh.cells) && IS_BLANK(r.neighbours, mesh.cells) &&
           IS_BLANK(r.hull, mesh.hull);
}

static int blank_behind_faces(void) {
    return IS_BLANK(r.point_alphas, faces.points) && IS_BLANK(r.edges, faces.edges) &&
           IS_BLANK(r.edge_alphas, faces.edges) && IS_BLANK(r.triangles, faces.triangles) &&
           IS_BLANK(r.triangle_alphas, faces.triangles) && IS_BLANK(r.cell_alphas, faces.cells);
}

static int spare_rows(void) {
    memset(&r, 0x5a, sizeof r);
    CHECK(delaunay_c_mesh(given, COUNT, r.points, ROOM, r.cells, ROOM, r.neighbours, ROOM, r.hull, ROOM, &mesh) ==
          DELAUNAY_C_OK);
    CHECK(mesh.points == COUNT && mesh.cells > 0 && mesh.cells < ROOM && blank_behind_mesh());
    memset(&r, 0x5a, sizeof r);
    CHECK(delaunay_c_alphas(given, COUNT, r.point_alphas, ROOM, r.edges, ROOM, r.edge_alphas, ROOM, r.triangles, ROOM,
                            r.triangle_alphas, ROOM, r.cell_alphas, ROOM, &faces) == DELAUNAY_C_OK);
    CHECK(faces.edges > 0 && faces.edges < ROOM && faces.triangles > 0 && faces.triangles < ROOM);
    CHECK(blank_behind_faces());
    memset(&r, 0x5a, sizeof r);
    CHECK(delaunay_c_filtered(given, COUNT, r.points, ROOM, r.cells, ROOM, r.neighbours, ROOM, r.hull, ROOM,
                              r.point_alphas, ROOM, r.edges, ROOM, r.edge_alphas, ROOM, r.triangles, ROOM,
                              r.triangle_alphas, ROOM, r.cell_alphas, ROOM, &mesh, &faces) == DELAUNAY_C_OK);
    CHECK(mesh.points == COUNT && mesh.cells == faces.cells && blank_behind_mesh() && blank_behind_faces());
    memset(&r, 0x5a, sizeof r);
    CHECK(delaunay_c_solid_parts(given, COUNT, UINT64_MAX, r.cells, ROOM, r.counts, ROOM, &parts) == DELAUNAY_C_OK);
    CHECK(parts.cells == mesh.cells && parts.parts == 1 && r.counts[0] == mesh.cells);
    CHECK(IS_BLANK(r.cells, parts.cells) && IS_BLANK(r.counts, parts.parts));
    memset(&r, 0x5a, sizeof r);
    CHECK(delaunay_c_open(&handle, given, COUNT) == DELAUNAY_C_OK);
    CHECK(delaunay_c_complex(&handle, r.points, ROOM, r.cells, ROOM, r.neighbours, ROOM, r.hull, ROOM, &mesh) ==
          DELAUNAY_C_OK);
    CHECK(mesh.points == COUNT && blank_behind_mesh());
    return 0;
}

/* No rows and no room, as C callers pass them. */
static int nulls(void) {
    uint64_t count = 99;
    CHECK(delaunay_c_mesh(NULL, 0, NULL, 0, NULL, 0, NULL, 0, NULL, 0, &mesh) == DELAUNAY_C_FLAT);
    CHECK(delaunay_c_alphas(NULL, 0, NULL, 0, NULL, 0, NULL, 0, NULL, 0, NULL, 0, NULL, 0, &faces) ==
          DELAUNAY_C_FLAT);
    CHECK(delaunay_c_mesh(given, COUNT, NULL, 0, NULL, 0, NULL, 0, NULL, 0, &mesh) == DELAUNAY_C_ROOM);
    CHECK(mesh.points == COUNT && mesh.cells > 0 && mesh.hull > 0);
    CHECK(delaunay_c_alphas(given, COUNT, NULL, 0, NULL, 0, NULL, 0, NULL, 0, NULL, 0, NULL, 0, &faces) ==
          DELAUNAY_C_ROOM);
    CHECK(faces.points == COUNT && faces.cells == mesh.cells);
    CHECK(delaunay_c_filtered(NULL, 0, NULL, 0, NULL, 0, NULL, 0, NULL, 0, NULL, 0, NULL, 0, NULL, 0, NULL, 0, NULL, 0,
                              NULL, 0, &mesh, &faces) == DELAUNAY_C_FLAT);
    mesh = (struct delaunay_c_mesh_sizes){0, 0, 0}, faces = (struct delaunay_c_face_sizes){0, 0, 0, 0};
    CHECK(delaunay_c_filtered(given, COUNT, NULL, 0, NULL, 0, NULL, 0, NULL, 0, NULL, 0, NULL, 0, NULL, 0, NULL, 0,
                              NULL, 0, NULL, 0, &mesh, &faces) == DELAUNAY_C_ROOM);
    CHECK(mesh.points == COUNT && mesh.hull > 0 && faces.points == COUNT && faces.cells == mesh.cells);
    CHECK(delaunay_c_filtered(given, COUNT, r.points, ROOM, r.cells, ROOM, r.neighbours, ROOM, r.hull, ROOM,
                              r.point_alphas, ROOM, r.edges, ROOM, r.edge_alphas, ROOM, r.triangles, ROOM,
                              r.triangle_alphas, ROOM, r.cell_alphas, mesh.cells - 1, &mesh, &faces)
          == DELAUNAY_C_ROOM);
    CHECK(delaunay_c_solid_parts(NULL, 0, 0, NULL, 0, NULL, 0, &parts) == DELAUNAY_C_FLAT);
    CHECK(delaunay_c_solid_parts(given, COUNT, 0, NULL, 0, NULL, 0, &parts) == DELAUNAY_C_OK && parts.cells == 0);
    CHECK(delaunay_c_solid_parts(given, COUNT, UINT64_MAX, NULL, 0, NULL, 0, &parts) == DELAUNAY_C_ROOM);
    CHECK(parts.cells == mesh.cells && parts.parts == 1);
    CHECK(delaunay_c_least_alpha(NULL, 0, 1, &count) == DELAUNAY_C_FLAT && count == 99);
    CHECK(delaunay_c_least_alpha(given, COUNT, 0, &count) == DELAUNAY_C_OK && count == DELAUNAY_C_BEYOND);
    CHECK(delaunay_c_least_alpha(given, COUNT, 1, &count) == DELAUNAY_C_OK && count < DELAUNAY_C_BEYOND);
    CHECK(delaunay_c_complex(&handle, NULL, 0, NULL, 0, NULL, 0, NULL, 0, &mesh) == DELAUNAY_C_ROOM);
    CHECK(delaunay_c_edit_many(&handle, NULL, 0, NULL, 0, &count) == DELAUNAY_C_OK && count == 0);
    count = 99;
    CHECK(delaunay_c_locate_many(&handle, NULL, 0, NULL, 0, &count) == DELAUNAY_C_OK && count == 0);
    count = 99;
    CHECK(delaunay_c_nearest_many(&handle, NULL, 0, NULL, 0, &count) == DELAUNAY_C_OK && count == 0);
    CHECK(delaunay_c_locate_many(&handle, given, COUNT, NULL, 0, &count) == DELAUNAY_C_ROOM && count == COUNT);
    CHECK(delaunay_c_open(&handle, NULL, 0) == DELAUNAY_C_FLAT && handle.mesh);
    return 0;
}

/* A place outside is told before that there is no mesh; a room that is too small, before all. */
static int first_statuses(void) {
    struct delaunay_c_place outside = {0, 0, 16384}, near;
    struct delaunay_c_located at;
    struct delaunay_c_edit edit = {DELAUNAY_C_MOVE, given[0], outside};
    uint8_t reply;
    uint64_t count = 99;
    delaunay_c_close(&handle);
    CHECK(delaunay_c_least_alpha(&outside, 1, 1, &count) == DELAUNAY_C_OUTSIDE && count == 99);
    CHECK(delaunay_c_solid_parts(&outside, 1, 0, NULL, 0, NULL, 0, &parts) == DELAUNAY_C_OUTSIDE);
    CHECK(delaunay_c_add(&handle, &outside, &reply) == DELAUNAY_C_OUTSIDE);
    CHECK(delaunay_c_take(&handle, &outside, &reply) == DELAUNAY_C_OUTSIDE);
    CHECK(delaunay_c_move(&handle, &given[0], &outside, &reply) == DELAUNAY_C_OUTSIDE);
    CHECK(delaunay_c_locate(&handle, &outside, &at) == DELAUNAY_C_OUTSIDE);
    CHECK(delaunay_c_nearest(&handle, &outside, &near) == DELAUNAY_C_OUTSIDE);
    CHECK(delaunay_c_add(&handle, &given[0], &reply) == DELAUNAY_C_EMPTY);
    CHECK(delaunay_c_locate(&handle, &given[0], &at) == DELAUNAY_C_EMPTY);
    CHECK(delaunay_c_edit_many(&handle, &edit, 1, &reply, 0, &count) == DELAUNAY_C_ROOM && count == 1);
    CHECK(delaunay_c_edit_many(&handle, &edit, 1, &reply, 1, &count) == DELAUNAY_C_OUTSIDE && count == 0);
    edit.kind = DELAUNAY_C_TAKE;
    CHECK(delaunay_c_edit_many(&handle, &edit, 1, &reply, 1, &count) == DELAUNAY_C_EMPTY && count == 0);
    edit.kind = UINT32_MAX;
    CHECK(delaunay_c_edit_many(&handle, &edit, 1, &reply, 1, &count) == DELAUNAY_C_KIND && count == 0);
    CHECK(delaunay_c_nearest_many(&handle, &outside, 1, &near, 1, &count) == DELAUNAY_C_OUTSIDE && count == 0);
    CHECK(delaunay_c_nearest_many(&handle, given, COUNT, r.points, ROOM, &count) == DELAUNAY_C_EMPTY && count == 0);
    return 0;
}

int main(void) {
    for (int i = 0; i < COUNT; i++) {
        given[i] = (struct delaunay_c_place){3 * (i & 1) + i, 3 * (i >> 1 & 1), 3 * (i >> 2 & 1) + i * i};
    }
    return spare_rows() || nulls() || first_statuses();
}
