// Delaunay triangulations and alpha complexes for C++17 and later: vectors in and out, errors as exceptions, and a mesh
// that frees itself. One header over delaunay_c.h, which has the contract of each call.
//
//     hanskup::placing placing = hanskup::placing::fit(points);      // floats: std::vector<hanskup::point>
//     hanskup::mesh mesh = hanskup::triangulate(placing.to_grid(points));
//     for (hanskup::cell cell : mesh.cells) use(mesh.points[cell.a], ..);
//
// Coordinates are whole numbers 0 to 16383; `placing` moves and scales floats onto them and back. Points of a mesh are
// numbered from 0 in ascending order of x, y, z. An alpha is a squared radius in sixteenths of a grid step's square.
// Each call throws hanskup::error, or std::bad_alloc where memory is wanting, and then has changed nothing.
#ifndef HANSKUP_HPP
#define HANSKUP_HPP
#include "delaunay_c.h"
#include <algorithm>
#include <array>
#include <cmath>
#include <new>
#include <optional>
#include <stdexcept>
#include <utility>
#include <vector>
#if __cplusplus >= 202002L
#include <span>
#endif

namespace hanskup {

using point = std::array<double, 3>; // in the units of the caller
using place = delaunay_c_place;      // on the grid
using edge = delaunay_c_edge;
using triangle = delaunay_c_triangle;
using cell = delaunay_c_cell;
using alphas = struct ::delaunay_c_alphas;
using edit = delaunay_c_edit;
using located = delaunay_c_located;

#if __cplusplus >= 202002L
template <class T> using view = std::span<const T>;
#else
// What std::span<const T> is from C++20 on: rows that somebody else keeps.
template <class T> class view {
  public:
    view() = default;
    view(const T *rows, std::size_t count) : rows_(rows), count_(count) {}
    view(const std::vector<T> &rows) : rows_(rows.data()), count_(rows.size()) {}
    template <std::size_t N> view(const T (&rows)[N]) : rows_(rows), count_(N) {}
    template <std::size_t N> view(const std::array<T, N> &rows) : rows_(rows.data()), count_(N) {}
    const T *data() const { return rows_; }
    std::size_t size() const { return count_; }
    const T *begin() const { return rows_; }
    const T *end() const { return rows_ + count_; }

  private:
    const T *rows_ = nullptr;
    std::size_t count_ = 0;
};
#endif

enum class reply : std::uint8_t { inserted, duplicate, removed, missing, stays, moved, occupied };

// What a call answers when it is not done. `index` is of the first edit or place of many that was not, else 0.
class error : public std::runtime_error {
  public:
    error(int status, std::size_t index) : std::runtime_error(told(status)), status_(status), index_(index) {}
    int status() const { return status_; } // of enum delaunay_c_status
    std::size_t index() const { return index_; }

  private:
    static const char *told(int status) {
        return status == DELAUNAY_C_OUTSIDE ? "a coordinate is not 0 to 16383"
               : status == DELAUNAY_C_FLAT  ? "all points lie in one plane"
               : status == DELAUNAY_C_EMPTY ? "there is no mesh"
               : status == DELAUNAY_C_FULL  ? "there are 2^32 points, cells or edits"
                                            : "an edit has none of the three kinds";
    }
    int status_;
    std::size_t index_;
};
namespace detail {
inline void check(int status, std::size_t index = 0) {
    if (status == DELAUNAY_C_MEMORY) { throw std::bad_alloc(); }
    if (status != DELAUNAY_C_OK) { throw error(status, index); }
}
} // namespace detail

// The points, tetrahedra and hull of a triangulation. neighbors[i].a is the cell across from corner a of cell i, and so
// on; `none` where the triangle is on the hull.
struct mesh {
    static constexpr std::uint32_t none = DELAUNAY_C_NONE;
    std::vector<place> points;
    std::vector<cell> cells, neighbors;
    std::vector<triangle> hull;

    void resize(const delaunay_c_mesh_sizes &sizes) {
        points.resize(sizes.points);
        cells.resize(sizes.cells);
        neighbors.resize(sizes.cells);
        hull.resize(sizes.hull);
    }
};

// A mesh with its edges and triangles, and for each face the least alphas at which it is in the alpha complex
// (admitted), bounds a tetrahedron of it (regular) and is inside (interior); of a cell one alpha. From `never` on there
// is none.
struct filtration : mesh {
    static constexpr std::uint64_t never = DELAUNAY_C_BEYOND;
    std::vector<edge> edges;
    std::vector<triangle> triangles;
    std::vector<alphas> point_alphas, edge_alphas, triangle_alphas;
    std::vector<std::uint64_t> cell_alphas;

    void resize(const delaunay_c_mesh_sizes &sizes, const delaunay_c_face_sizes &faces) {
        mesh::resize(sizes);
        point_alphas.resize(faces.points);
        edges.resize(faces.edges);
        edge_alphas.resize(faces.edges);
        triangles.resize(faces.triangles);
        triangle_alphas.resize(faces.triangles);
        cell_alphas.resize(faces.cells);
    }
};

// The Delaunay triangulation of places, in any order; equal ones count once.
inline mesh triangulate(view<place> given) {
    mesh made;
    delaunay_c_mesh_sizes sizes{std::min<std::uint64_t>(given.size(), DELAUNAY_C_NONE), 8 * given.size(), given.size()};
    int status = DELAUNAY_C_ROOM;
    while (status == DELAUNAY_C_ROOM) { // once more where the first room is too small
        made.resize(sizes);
        status = delaunay_c_mesh(given.data(), given.size(), made.points.data(), made.points.size(), made.cells.data(),
                                 made.cells.size(), made.neighbors.data(), made.neighbors.size(), made.hull.data(),
                                 made.hull.size(), &sizes);
    }
    detail::check(status);
    made.resize(sizes);
    return made;
}

// The triangulation with all faces and their least alphas: every alpha shape at once.
inline filtration filter(view<place> given) {
    filtration made;
    const std::uint64_t n = given.size();
    delaunay_c_mesh_sizes sizes{n, 8 * n, n};
    delaunay_c_face_sizes faces{n, 9 * n, 16 * n, 8 * n};
    int status = DELAUNAY_C_ROOM;
    while (status == DELAUNAY_C_ROOM) {
        made.resize(sizes, faces);
        status = delaunay_c_filtered(
            given.data(), given.size(), made.points.data(), made.points.size(), made.cells.data(), made.cells.size(),
            made.neighbors.data(), made.neighbors.size(), made.hull.data(), made.hull.size(), made.point_alphas.data(),
            made.point_alphas.size(), made.edges.data(), made.edges.size(), made.edge_alphas.data(),
            made.edge_alphas.size(), made.triangles.data(), made.triangles.size(), made.triangle_alphas.data(),
            made.triangle_alphas.size(), made.cell_alphas.data(), made.cell_alphas.size(), &sizes, &faces);
    }
    detail::check(status);
    made.resize(sizes, faces);
    return made;
}

// The connected solids of the alpha complex at an alpha: the tetrahedra of each, by numbers of the points.
inline std::vector<std::vector<cell>> solid_parts(view<place> given, std::uint64_t alpha) {
    std::vector<cell> cells;
    std::vector<std::uint64_t> counts;
    delaunay_c_part_sizes sizes{0, 0};
    int status = DELAUNAY_C_ROOM;
    while (status == DELAUNAY_C_ROOM) {
        cells.resize(sizes.cells);
        counts.resize(sizes.parts);
        status = delaunay_c_solid_parts(given.data(), given.size(), alpha, cells.data(), cells.size(), counts.data(),
                                        counts.size(), &sizes);
    }
    detail::check(status);
    std::vector<std::vector<cell>> parts;
    auto first = cells.begin();
    for (std::uint64_t count : counts) {
        parts.emplace_back(first, first + std::ptrdiff_t(count));
        first += std::ptrdiff_t(count);
    }
    return parts;
}

// The least alpha at which all points are in at most so many connected solids, if there is one.
inline std::optional<std::uint64_t> least_alpha(view<place> given, std::uint32_t parts = 1) {
    std::uint64_t least = 0;
    detail::check(delaunay_c_least_alpha(given.data(), given.size(), parts, &least));
    return least < DELAUNAY_C_BEYOND ? std::optional<std::uint64_t>(least) : std::nullopt;
}

// A triangulation that is edited. It is moved, not copied, and frees itself; one thread at a time has it.
class editable_mesh {
  public:
    explicit editable_mesh(view<place> given) { detail::check(delaunay_c_open(&handle_, given.data(), given.size())); }
    editable_mesh(editable_mesh &&other) noexcept : handle_(std::exchange(other.handle_, delaunay_c_handle{})) {}
    editable_mesh &operator=(editable_mesh &&other) noexcept {
        std::swap(handle_, other.handle_);
        return *this;
    }
    editable_mesh(const editable_mesh &) = delete;
    editable_mesh &operator=(const editable_mesh &) = delete;
    ~editable_mesh() { delaunay_c_close(&handle_); }

    reply add(const place &at) { return edited(delaunay_c_add, at); }
    reply remove(const place &at) { return edited(delaunay_c_take, at); }
    reply move(const place &from, const place &to) {
        std::uint8_t told = 0;
        detail::check(delaunay_c_move(&handle_, &from, &to, &told));
        return reply{told};
    }

    // Many edits, in their order, each with its reply. Where one fails those before it stand: error::index tells which.
    std::vector<reply> apply(view<edit> edits) {
        std::vector<std::uint8_t> told(edits.size());
        std::uint64_t count = 0;
        int status = delaunay_c_edit_many(&handle_, edits.data(), edits.size(), told.data(), told.size(), &count);
        detail::check(status, std::size_t(count));
        std::vector<reply> replies;
        for (std::uint8_t each : told) {
            replies.push_back(reply{each});
        }
        return replies;
    }

    // The points nearest to places, and where places lie; they change nothing.
    std::vector<place> nearest(view<place> places) { return looked<place>(delaunay_c_nearest_many, places); }
    std::vector<located> locate(view<place> places) { return looked<located>(delaunay_c_locate_many, places); }

    // The triangulation as it is now.
    mesh snapshot() {
        mesh made;
        delaunay_c_mesh_sizes sizes{0, 0, 0};
        int status = DELAUNAY_C_ROOM;
        while (status == DELAUNAY_C_ROOM) {
            made.resize(sizes);
            status = delaunay_c_complex(&handle_, made.points.data(), made.points.size(), made.cells.data(),
                                        made.cells.size(), made.neighbors.data(), made.neighbors.size(),
                                        made.hull.data(), made.hull.size(), &sizes);
        }
        detail::check(status);
        return made;
    }

  private:
    using single = std::uint8_t (*)(delaunay_c_handle *, const place *, std::uint8_t *);
    reply edited(single call, const place &at) {
        std::uint8_t told = 0;
        detail::check(call(&handle_, &at, &told));
        return reply{told};
    }
    template <class Row, class Call> std::vector<Row> looked(Call call, view<place> places) {
        std::vector<Row> found(places.size());
        std::uint64_t count = 0;
        int status = call(&handle_, places.data(), places.size(), found.data(), found.size(), &count);
        detail::check(status, std::size_t(count));
        return found;
    }
    delaunay_c_handle handle_{};
};

// How floats are moved and scaled onto the grid: grid = (point - origin) * scale, rounded.
struct placing {
    point origin{};
    double scale = 1;

    // The placing that fits all points, by one factor for all axes; their coordinates are to be finite.
    static placing fit(view<point> points) {
        placing made;
        point high{};
        for (std::size_t axis = 0; axis < 3 && points.size(); axis++) {
            auto less = [axis](const point &p, const point &q) { return p[axis] < q[axis]; };
            auto ends = std::minmax_element(points.begin(), points.end(), less);
            made.origin[axis] = (*ends.first)[axis];
            high[axis] = (*ends.second)[axis] - made.origin[axis];
        }
        double extent = *std::max_element(high.begin(), high.end());
        made.scale = extent > 0 ? 16383 / extent : 1;
        return made;
    }
    place to_grid(const point &p) const {
        auto at = [&](std::size_t axis) { return std::int64_t(std::llround((p[axis] - origin[axis]) * scale)); };
        return {at(0), at(1), at(2)};
    }
    std::vector<place> to_grid(view<point> points) const {
        std::vector<place> places;
        for (const point &p : points) {
            places.push_back(to_grid(p));
        }
        return places;
    }
    point to_user(const place &p) const {
        return {double(p.x) / scale + origin[0], double(p.y) / scale + origin[1], double(p.z) / scale + origin[2]};
    }
    std::uint64_t alpha(double radius) const { return std::uint64_t(16 * radius * radius * scale * scale); }
    double radius(std::uint64_t alpha) const { return std::sqrt(double(alpha)) / 4 / scale; }
};

} // namespace hanskup
#endif
