/* The Delaunay triangulation of points with whole coordinates, the least alphas of its faces, and a mesh that is
 * edited. hanskup.hpp wraps it for C++.
 *
 * In a release, libdelaunay_c.a and libdelaunay_c.so have all that they need but the C library: link either. In the
 * repository, where python/build makes them, the shared one does too; libdelaunay_c.a of crates/delaunay_c wants
 * liblibc_c.a of the Rattle kit (its folder c) beside it.
 *
 * What each call answers is proved of the places that it reads and the rows that it writes; docs/BINDINGS.md says it
 * whole. What the caller owes, no one checks:
 *
 * - Each pointer is aligned for what it points to, and none is null, but that of an array whose length is 0 may be.
 * - Each length is true: so many rows may be read of what is const, and read and written of the rest.
 * - Rooms overlap neither one another nor the places that are read, and nobody else reads or writes any of them during
 *   the call. Calls from several threads, each with rooms of its own, may run at once.
 * - malloc, realloc and free are one allocator, and align a block to each power of two up to 16 that divides its size.
 * - No call comes from a signal handler, nor in the forked child of a process with threads.
 *
 * A call keeps nothing when it has returned, but for the mesh of a handle. None prints, aborts or changes a global
 * state.
 */
#ifndef DELAUNAY_C_H
#define DELAUNAY_C_H
#include <stddef.h>
#include <stdint.h>
#ifdef __cplusplus
extern "C" {
#endif

/* What a call answers. Where it is not DELAUNAY_C_OK, all that the call would write is as before, but for the sizes at
 * DELAUNAY_C_ROOM, and the mesh of a handle is as before; the calls for many say below what they leave. What is behind
 * the rows that a call writes into a room is always as before. All this is proved. */
enum delaunay_c_status {
    DELAUNAY_C_OK = 0,      /* all is written, and the sizes tell how many rows */
    DELAUNAY_C_MEMORY = 1,  /* malloc or realloc failed, or a count inside of the library needs more than 32 bits */
    DELAUNAY_C_OUTSIDE = 2, /* a coordinate is not 0 to 16383; of an edit and of a look, told before all else */
    DELAUNAY_C_FLAT = 3,    /* no four of the points are independent: all lie in one plane */
    DELAUNAY_C_ROOM = 4,    /* a room has too few rows; the sizes tell how many rows are wanted of each */
    DELAUNAY_C_EMPTY = 5,   /* the handle has no mesh */
    DELAUNAY_C_FULL = 6,    /* of rows: 2^32 points or cells; of an edit: 2^32 points and edits were put in before */
    DELAUNAY_C_KIND = 7     /* an edit has none of the three kinds */
};

/* In the place of a neighbour where a triangle of the hull is. */
#define DELAUNAY_C_NONE UINT32_MAX

/* An alpha is a squared radius in sixteenths of the square of the unit. From this number on there is none. */
#define DELAUNAY_C_BEYOND ((uint64_t)1 << 34)

/* A place, of a point each coordinate 0 to 16383. */
struct delaunay_c_place {
    int64_t x, y, z;
};

/* The numbers of the points of a face, ascending. Points are numbered from 0 in ascending order of x, then y, then
 * z. */
struct delaunay_c_edge {
    uint32_t a, b;
};
struct delaunay_c_triangle {
    uint32_t a, b, c;
};
struct delaunay_c_cell {
    uint32_t a, b, c, d;
};

/* The least alphas of a face: at which it is in the alpha complex (admitted), at which some tetrahedron around it is
 * (from here on it is regular, before that singular), and at which all cells around it are (from here on interior; a
 * face of the hull never is, since a cell at infinity is around it). */
struct delaunay_c_alphas {
    uint64_t admitted, regular, interior;
};

/* How many rows: as many of neighbours as of cells. */
struct delaunay_c_mesh_sizes {
    uint64_t points, cells, hull;
};
struct delaunay_c_face_sizes {
    uint64_t points, edges, triangles, cells;
};
struct delaunay_c_part_sizes {
    uint64_t cells, parts;
};

/* The mesh of the points at the given places, in any order; equal ones count once.
 *
 * points      the points, each once, ascending: at most as many as were given
 * cells       the tetrahedra, in lexicographic order
 * neighbours  of each tetrahedron the numbers of those across from its points: `a` has the other three and no point a.
 *             DELAUNAY_C_NONE where the triangle is on the hull
 * hull        the triangles of the hull, in lexicographic order
 *
 * Each length counts rows. Ties are broken by one fixed rule, so that the answer does not go by the order of the
 * places. For n points drawn alike some 7 n cells come; there may be n * n. OK, MEMORY, OUTSIDE, FLAT,
 * ROOM or FULL. */
uint8_t delaunay_c_mesh(const struct delaunay_c_place *given, size_t given_len, struct delaunay_c_place *points,
                        size_t points_len, struct delaunay_c_cell *cells, size_t cells_len,
                        struct delaunay_c_cell *neighbours, size_t neighbours_len, struct delaunay_c_triangle *hull,
                        size_t hull_len, struct delaunay_c_mesh_sizes *sizes);

/* The faces of that mesh, and the least alphas of each.
 *
 * point_alphas     of the points of delaunay_c_mesh, in its order
 * edges            the edges, in lexicographic order; edge_alphas in the same order
 * triangles        the triangles, in lexicographic order; triangle_alphas in the same order
 * cell_alphas      of the tetrahedra of delaunay_c_mesh, in its order, one alpha each: that at which it is admitted
 *
 * A face is in the alpha complex of an alpha below DELAUNAY_C_BEYOND exactly where its `admitted` is at most that. */
uint8_t delaunay_c_alphas(const struct delaunay_c_place *given, size_t given_len,
                          struct delaunay_c_alphas *point_alphas, size_t point_alphas_len,
                          struct delaunay_c_edge *edges, size_t edges_len, struct delaunay_c_alphas *edge_alphas,
                          size_t edge_alphas_len, struct delaunay_c_triangle *triangles, size_t triangles_len,
                          struct delaunay_c_alphas *triangle_alphas, size_t triangle_alphas_len,
                          uint64_t *cell_alphas, size_t cell_alphas_len, struct delaunay_c_face_sizes *sizes);

/* What delaunay_c_mesh and delaunay_c_alphas tell of the same places, by one triangulation. At ROOM a room of the one
 * or of the other has too few rows, and the sizes of both are told. OK, MEMORY, OUTSIDE, FLAT, ROOM or FULL. */
uint8_t delaunay_c_filtered(const struct delaunay_c_place *given, size_t given_len, struct delaunay_c_place *points,
                            size_t points_len, struct delaunay_c_cell *cells, size_t cells_len,
                            struct delaunay_c_cell *neighbours, size_t neighbours_len,
                            struct delaunay_c_triangle *hull, size_t hull_len,
                            struct delaunay_c_alphas *point_alphas, size_t point_alphas_len,
                            struct delaunay_c_edge *edges, size_t edges_len, struct delaunay_c_alphas *edge_alphas,
                            size_t edge_alphas_len, struct delaunay_c_triangle *triangles, size_t triangles_len,
                            struct delaunay_c_alphas *triangle_alphas, size_t triangle_alphas_len,
                            uint64_t *cell_alphas, size_t cell_alphas_len, struct delaunay_c_mesh_sizes *sizes,
                            struct delaunay_c_face_sizes *face_sizes);

/* The solid parts of the alpha complex at an alpha: tetrahedra are of one part where a chain of admitted ones joins
 * them, each sharing a triangle with the next. An alpha from DELAUNAY_C_BEYOND on counts as the one before.
 *
 * cells    the admitted tetrahedra, by numbers of the points of delaunay_c_mesh, one part after another, each part in
 *          lexicographic order, the parts in that of their first tetrahedra
 * counts   how many tetrahedra each part has
 *
 * OK, MEMORY, OUTSIDE, FLAT, ROOM or FULL. */
uint8_t delaunay_c_solid_parts(const struct delaunay_c_place *given, size_t given_len, uint64_t alpha,
                               struct delaunay_c_cell *cells, size_t cells_len, uint64_t *counts, size_t counts_len,
                               struct delaunay_c_part_sizes *sizes);

/* The least alpha at which each point is in an admitted tetrahedron and there are at most so many solid parts;
 * DELAUNAY_C_BEYOND where there is none, as of no parts. Their number may rise again with alpha. OK, MEMORY, OUTSIDE,
 * FLAT or FULL. */
uint8_t delaunay_c_least_alpha(const struct delaunay_c_place *given, size_t given_len, uint32_t parts, uint64_t *least);

/* A mesh that is edited. The caller keeps this struct anywhere, begins with {0}, which is the handle with no mesh, and
 * gives its address to the calls below. What the caller owes, no one checks:
 *
 * - `mesh` is written by these calls alone, after the {0}: it is null, or a mesh that delaunay_c_open made.
 * - The struct is not copied while it has a mesh, or the copy is not given to a call; it may be moved.
 * - One call at a time has the handle, also those that only look. It may go from one thread to another, by a lock, a
 *   thread's start or join, or a sequentially consistent atomic. Calls with other handles may run at once.
 *
 * delaunay_c_close frees the mesh. */
struct delaunay_c_handle {
    void *mesh;
};

/* What an edit did. */
enum delaunay_c_reply {
    DELAUNAY_C_INSERTED = 0,  /* add: the point came */
    DELAUNAY_C_DUPLICATE = 1, /* add: it was there */
    DELAUNAY_C_REMOVED = 2,   /* take: the point went */
    DELAUNAY_C_MISSING = 3,   /* take, move: no point stands there */
    DELAUNAY_C_STAYS = 4,     /* take, move: what is left would lie in one plane, so the point stays */
    DELAUNAY_C_MOVED = 5,     /* move: the point went to its new place */
    DELAUNAY_C_OCCUPIED = 6   /* move: a point stands at the new place, or it is the old one */
};

/* Puts the mesh of the points at the given places, in any order, of which some may be equal, into the handle. A mesh
 * that was there is freed. OK, MEMORY, OUTSIDE, FLAT or FULL. */
uint8_t delaunay_c_open(struct delaunay_c_handle *handle, const struct delaunay_c_place *given, size_t given_len);

/* Frees the mesh, if there is one, and leaves the handle with none. */
void delaunay_c_close(struct delaunay_c_handle *handle);

/* Edits, each with its reply. The mesh is then that of the points that all edits since delaunay_c_open leave; it does
 * not go by their order otherwise. OK, MEMORY, OUTSIDE, EMPTY or FULL; OUTSIDE before EMPTY, where both hold. A move
 * takes the point away and adds it at the other place in one step: no one sees the mesh without it. */
uint8_t delaunay_c_add(struct delaunay_c_handle *handle, const struct delaunay_c_place *place, uint8_t *reply);
uint8_t delaunay_c_take(struct delaunay_c_handle *handle, const struct delaunay_c_place *place, uint8_t *reply);
uint8_t delaunay_c_move(struct delaunay_c_handle *handle, const struct delaunay_c_place *from,
                        const struct delaunay_c_place *to, uint8_t *reply);

/* How many points, cells and triangles of the hull the mesh has, in the time of delaunay_c_complex. OK, MEMORY, EMPTY
 * or FULL. */
uint8_t delaunay_c_counts(struct delaunay_c_handle *handle, struct delaunay_c_mesh_sizes *sizes);

/* The points, cells, neighbours and hull of the mesh, as delaunay_c_mesh writes them. OK, MEMORY, ROOM, EMPTY or
 * FULL. */
uint8_t delaunay_c_complex(struct delaunay_c_handle *handle, struct delaunay_c_place *points, size_t points_len,
                           struct delaunay_c_cell *cells, size_t cells_len, struct delaunay_c_cell *neighbours,
                           size_t neighbours_len, struct delaunay_c_triangle *hull, size_t hull_len,
                           struct delaunay_c_mesh_sizes *sizes);

/* Where a place lies, found by a walk. */
enum delaunay_c_kind {
    DELAUNAY_C_POINT = 0, /* a point of the mesh stands there: all four places are this one */
    DELAUNAY_C_CELL = 1,  /* inside the sphere of the tetrahedron a b c d, which is not always the one that has it */
    DELAUNAY_C_BEYOND_HULL = 2 /* beyond the hull: the triangle a b c of the hull is seen from there; d is the place */
};
struct delaunay_c_located {
    uint32_t kind;
    struct delaunay_c_place a, b, c, d;
};

/* OK, OUTSIDE or else EMPTY; it takes no memory. A point that were added there would take this cell away. On the
 * sphere, or in the plane of a triangle, the one rule by which ties are broken decides. */
uint8_t delaunay_c_locate(struct delaunay_c_handle *handle, const struct delaunay_c_place *place,
                          struct delaunay_c_located *located);

/* The point of the mesh that is nearest to a place, among those as near the one that comes first by x, then y, then z.
 * OK, OUTSIDE or else EMPTY; it takes no memory. */
uint8_t delaunay_c_nearest(struct delaunay_c_handle *handle, const struct delaunay_c_place *place,
                           struct delaunay_c_place *nearest);

/* ---- many at once
 *
 * Each of these does what so many single calls in a row do, in their order, up to the first that would not answer OK.
 * `count` then tells how many were done, from the first on, each with its row in the room. The status is that of the
 * first that was not, whose index is `count`, and OK where there is none: what was done before it stands, and the
 * others were not begun.
 *
 * ROOM comes before all that: the room has fewer rows than there are edits or places. Then nothing was begun, and
 * `count` tells how many rows are wanted. */

enum delaunay_c_edit_kind {
    DELAUNAY_C_ADD = 0,  /* as delaunay_c_add of `place` */
    DELAUNAY_C_TAKE = 1, /* as delaunay_c_take of `place` */
    DELAUNAY_C_MOVE = 2  /* as delaunay_c_move of `place` to `to` */
};
struct delaunay_c_edit {
    uint32_t kind;
    struct delaunay_c_place place, to; /* `to` of a move alone */
};

/* Edits, each with its reply. OK, ROOM, or MEMORY, OUTSIDE, EMPTY, FULL or KIND of the first that was not made. */
uint8_t delaunay_c_edit_many(struct delaunay_c_handle *handle, const struct delaunay_c_edit *edits, size_t edits_len,
                             uint8_t *replies, size_t replies_len, uint64_t *count);

/* Where places lie. OK, ROOM, or OUTSIDE or EMPTY of the first that was not located; it takes no memory. */
uint8_t delaunay_c_locate_many(struct delaunay_c_handle *handle, const struct delaunay_c_place *places,
                               size_t places_len, struct delaunay_c_located *located, size_t located_len,
                               uint64_t *count);

/* The nearest points. OK, ROOM, or OUTSIDE or EMPTY of the first that was not found; it takes no memory. */
uint8_t delaunay_c_nearest_many(struct delaunay_c_handle *handle, const struct delaunay_c_place *places,
                                size_t places_len, struct delaunay_c_place *nearest, size_t nearest_len,
                                uint64_t *count);

#ifdef __cplusplus
}
#endif
#endif
