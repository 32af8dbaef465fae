// The peer of bench/moves: CGAL's Delaunay triangulation of the points of an edit file, point by point, and then its
// edits, located by its hierarchy (Fast_location), a vertex of a place by a table; with the word `moves` a take and the
// add behind it are one call of `move`. It prints the counts that crates/move_bench prints.
#include "peer_text.h"

#include <CGAL/Delaunay_triangulation_3.h>
#include <CGAL/Exact_predicates_inexact_constructions_kernel.h>

#include <unordered_map>

using Kernel = CGAL::Exact_predicates_inexact_constructions_kernel;
using Triangulation = CGAL::Delaunay_triangulation_3<Kernel, CGAL::Default, CGAL::Fast_location>;

int main(int count, char **) {
    const bool moves = count > 1;
    const Input input = read_input();
    Triangulation mesh;
    std::unordered_map<std::uint64_t, Triangulation::Vertex_handle> vertices;
    vertices.reserve(input.points.size() + input.edits.size());
    Triangulation::Vertex_handle left;
    const auto add = [&](const Place &p) {
        const auto [at, is_new] = vertices.try_emplace(key_of(p));
        if (!is_new) return;
        const Kernel::Point_3 place(p[0], p[1], p[2]);
        at->second = left == Triangulation::Vertex_handle() ? mesh.insert(place) : mesh.move(left, place);
        left = Triangulation::Vertex_handle();
    };
    for (const Place &p : input.points) add(p);
    for (const Edit &edit : input.edits) {
        if (edit.sign == '+') {
            add(edit.from);
            continue;
        }
        const auto found = vertices.find(key_of(edit.from));
        if (found == vertices.end()) continue;
        if (moves)
            left = found->second;
        else
            mesh.remove(found->second);
        vertices.erase(found);
    }
    const auto cells = mesh.number_of_finite_cells();
    std::printf("points %zu cells %zu hull %zu\n", static_cast<size_t>(mesh.number_of_vertices()),
                static_cast<size_t>(cells), static_cast<size_t>(mesh.number_of_cells() - cells));
}
