// Reads lines of three whole numbers and writes what hanskup.hpp makes of them, as the callers in C do: the mesh; with
// the word `steps` the least alphas; with `parts ALPHA` or `most COUNT` the solid parts; with `edited` what the edits
// behind the line `edits` answer and leave.
#include "hanskup.hpp"
#include <cstring>
#include <iostream>
#include <map>
#include <string>
#include <type_traits>

using hanskup::place;

static std::vector<place> read_places() {
    std::vector<place> given;
    place p;
    while (std::cin >> p.x >> p.y >> p.z) {
        given.push_back(p);
    }
    std::cin.clear();
    return given;
}

static void put(const hanskup::mesh &mesh) {
    std::cout << "points " << mesh.points.size() << '\n';
    for (const place &p : mesh.points) {
        std::cout << p.x << ' ' << p.y << ' ' << p.z << '\n';
    }
    std::cout << "cells " << mesh.cells.size() << '\n';
    for (const hanskup::cell &c : mesh.cells) {
        std::cout << c.a << ' ' << c.b << ' ' << c.c << ' ' << c.d << '\n';
    }
    std::cout << "hull " << mesh.hull.size() << '\n';
    for (const hanskup::triangle &t : mesh.hull) {
        std::cout << t.a << ' ' << t.b << ' ' << t.c << '\n';
    }
    std::cout << "end\n";
}

static void put_alpha(std::uint64_t alpha) {
    std::cout << ' ' << (alpha < hanskup::filtration::never ? std::to_string(alpha) : "none") << '\n';
}

static void put_steps(const hanskup::filtration &f) {
    std::cout << "edges " << f.edges.size() << '\n';
    for (std::size_t i = 0; i < f.edges.size(); i++) {
        std::cout << f.edges[i].a << ' ' << f.edges[i].b;
        put_alpha(f.edge_alphas[i].admitted);
    }
    std::cout << "triangles " << f.triangles.size() << '\n';
    for (std::size_t i = 0; i < f.triangles.size(); i++) {
        std::cout << f.triangles[i].a << ' ' << f.triangles[i].b << ' ' << f.triangles[i].c;
        put_alpha(f.triangle_alphas[i].admitted);
    }
    std::cout << "cells " << f.cells.size() << '\n';
    for (std::size_t i = 0; i < f.cells.size(); i++) {
        std::cout << f.cells[i].a << ' ' << f.cells[i].b << ' ' << f.cells[i].c << ' ' << f.cells[i].d;
        put_alpha(f.cell_alphas[i]);
    }
    std::cout << "end\n";
}

// How many triangles only one of these tetrahedra has.
static std::size_t outer(const std::vector<hanskup::cell> &cells) {
    std::map<std::array<std::uint32_t, 3>, int> sides;
    for (const hanskup::cell &c : cells) {
        for (auto side : {std::array{c.a, c.b, c.c}, {c.a, c.b, c.d}, {c.a, c.c, c.d}, {c.b, c.c, c.d}}) {
            sides[side]++;
        }
    }
    std::size_t once = 0;
    for (const auto &side : sides) {
        once += side.second == 1;
    }
    return once;
}

static void put_parts(const std::vector<place> &given, std::uint64_t alpha) {
    auto parts = hanskup::solid_parts(given, alpha);
    std::cout << "mesh3-parts 1\nalpha " << alpha << "\nparts " << parts.size() << '\n';
    for (const auto &part : parts) {
        std::cout << "part " << part.size() << ' ' << outer(part) << '\n';
    }
    std::cout << "end\n";
}

static bool is_same(const place &p, const place &q) { return p.x == q.x && p.y == q.y && p.z == q.z; }

// Half of the edits one by one, the others by one call; then each point of the mesh is nearest to itself.
static int put_edited(const std::vector<place> &given) {
    static const char *words[] = {"Inserted", "Duplicate", "Removed", "Missing", "Flat", "Moved", "Occupied"};
    hanskup::editable_mesh opened(given), mesh(std::move(opened));
    std::vector<hanskup::edit> edits;
    std::string sign;
    std::cin >> sign;
    for (place at; std::cin >> sign >> at.x >> at.y >> at.z;) {
        place to{};
        std::uint32_t kind = sign == "+" ? DELAUNAY_C_ADD : sign == "-" ? DELAUNAY_C_TAKE : DELAUNAY_C_MOVE;
        if (kind == DELAUNAY_C_MOVE) {
            std::cin >> to.x >> to.y >> to.z;
        }
        edits.push_back({kind, at, to});
    }
    std::size_t half = edits.size() / 2;
    std::vector<hanskup::reply> replies;
    for (std::size_t i = 0; i < half; i++) {
        const hanskup::edit &e = edits[i];
        replies.push_back(e.kind == DELAUNAY_C_ADD ? mesh.add(e.place)
                          : e.kind == DELAUNAY_C_TAKE ? mesh.remove(e.place) : mesh.move(e.place, e.to));
    }
    auto rest = mesh.apply(hanskup::view<hanskup::edit>(edits.data() + half, edits.size() - half));
    replies.insert(replies.end(), rest.begin(), rest.end());
    for (hanskup::reply reply : replies) {
        std::cout << words[int(reply)] << '\n';
    }
    hanskup::mesh left = mesh.snapshot();
    put(left);
    auto near = mesh.nearest(left.points);
    auto at = mesh.locate(left.points);
    for (std::size_t i = 0; i < near.size(); i++) {
        if (!is_same(near[i], left.points[i]) || at[i].kind != DELAUNAY_C_POINT || !is_same(at[i].a, left.points[i])) {
            return 1;
        }
    }
    return 0;
}

// What is refused, and a placing there and back: the messages of what is wrong, or none.
static int try_rest() {
    const place square[] = {{0, 0, 0}, {4, 0, 0}, {0, 4, 0}, {4, 4, 0}}, far[] = {{0, 0, 0}, {16384, 0, 0}};
    int caught = 0;
    try {
        hanskup::triangulate(square);
    } catch (const hanskup::error &told) {
        caught += told.status() == DELAUNAY_C_FLAT && std::strstr(told.what(), "one plane");
    }
    try {
        hanskup::editable_mesh mesh(far);
    } catch (const hanskup::error &told) {
        caught += told.status() == DELAUNAY_C_OUTSIDE;
    }
    std::vector<hanskup::point> points{{-1.5, 2, 7}, {8.5, 2.25, 7}, {0, 12, 7.5}, {3, 3, 3}, {4, 4, 4}};
    auto placing = hanskup::placing::fit(points);
    hanskup::editable_mesh mesh(placing.to_grid(points));
    try {
        mesh.nearest(far);
    } catch (const hanskup::error &told) {
        caught += told.status() == DELAUNAY_C_OUTSIDE && told.index() == 1;
    }
    int near = 0;
    for (const auto &p : points) {
        auto back = placing.to_user(placing.to_grid(p));
        for (std::size_t axis = 0; axis < 3; axis++) {
            near += std::abs(back[axis] - p[axis]) <= 0.5001 / placing.scale;
        }
    }
    static_assert(!std::is_copy_constructible_v<hanskup::editable_mesh>, "a mesh is moved, not copied");
    return caught == 3 && near == 15 && std::abs(placing.radius(placing.alpha(2.5)) - 2.5) < 1e-4 ? 0 : 1;
}

int main(int argc, char **argv) {
    std::string word = argc > 1 ? argv[1] : "mesh";
    if (word == "rest") {
        return try_rest();
    }
    auto given = read_places();
    if (word == "edited") {
        return put_edited(given);
    }
    if (word == "steps") {
        put_steps(hanskup::filter(given));
    } else if (word == "parts") {
        put_parts(given, std::stoull(argv[2]));
    } else if (word == "most") {
        put_parts(given, hanskup::least_alpha(given, std::uint32_t(std::stoul(argv[2]))).value());
    } else {
        put(hanskup::triangulate(given));
    }
    return 0;
}
