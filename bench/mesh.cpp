// The peer of bench/mesh: CGAL's Delaunay triangulation of what an edit file leaves, in the same text from the line of
// the points on: the points of the file by one insertion of a range, which sorts them in space, and then edit by edit,
// located by its hierarchy (Fast_location), a vertex of a place by a table. It settles ties in its own way, so the
// texts are equal for points of which no five are on one sphere; it makes no replies, and no test whether a take leaves
// the points in a plane.
#include "peer_text.h"

#include <CGAL/Delaunay_triangulation_3.h>
#include <CGAL/Exact_predicates_inexact_constructions_kernel.h>
#include <CGAL/Triangulation_vertex_base_with_info_3.h>

#include <unordered_map>

using Kernel = CGAL::Exact_predicates_inexact_constructions_kernel;
using Vertex = CGAL::Triangulation_vertex_base_with_info_3<int, Kernel>;
using Structure = CGAL::Triangulation_data_structure_3<Vertex, CGAL::Delaunay_triangulation_cell_base_3<Kernel>>;
using Triangulation = CGAL::Delaunay_triangulation_3<Kernel, Structure, CGAL::Fast_location>;
using Table = std::unordered_map<std::uint64_t, Triangulation::Vertex_handle>;

Kernel::Point_3 point_of(const Place &p) { return Kernel::Point_3(p[0], p[1], p[2]); }

Place place_of(const Kernel::Point_3 &p) {
    return {static_cast<int>(p.x()), static_cast<int>(p.y()), static_cast<int>(p.z())};
}

void make(Triangulation &mesh, Table &vertices, const Edit &edit) {
    const auto found = vertices.find(key_of(edit.from));
    if (edit.sign == '+') {
        if (found == vertices.end()) vertices.emplace(key_of(edit.from), mesh.insert(point_of(edit.from)));
        return;
    }
    if (found == vertices.end() || (edit.sign == '=' && vertices.count(key_of(edit.to)))) return;
    const auto vertex = found->second;
    vertices.erase(found);
    if (edit.sign == '=')
        vertices.emplace(key_of(edit.to), mesh.move(vertex, point_of(edit.to)));
    else
        mesh.remove(vertex);
}

int main() {
    const Input input = read_input();
    Triangulation mesh;
    std::vector<Kernel::Point_3> points;
    for (const Place &p : input.points) points.push_back(point_of(p));
    mesh.insert(points.begin(), points.end());
    Table vertices;
    vertices.reserve(points.size() + input.edits.size());
    for (const auto vertex : mesh.finite_vertex_handles()) vertices.emplace(key_of(place_of(vertex->point())), vertex);
    for (const Edit &edit : input.edits) make(mesh, vertices, edit);

    std::vector<std::pair<Place, Triangulation::Vertex_handle>> left;
    for (const auto vertex : mesh.finite_vertex_handles()) left.emplace_back(place_of(vertex->point()), vertex);
    std::sort(left.begin(), left.end(), [](const auto &a, const auto &b) { return a.first < b.first; });
    std::vector<Place> places;
    for (const auto &[place, vertex] : left) {
        vertex->info() = static_cast<int>(places.size());
        places.push_back(place);
    }
    Text text;
    text.head("points", places.size());
    text.rows(places);
    put_cells(text, mesh);
    text.word("end\n");
    text.write();
}
