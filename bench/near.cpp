// The peer of bench/near: CGAL's nearest_vertex to the queries of an edit file, over the triangulation of the points
// that the file leaves. It is made once, of the final points (CGAL sorts them along a curve), with its hierarchy for
// location (Fast_location); a query begins with no hint. The text is that of `near`: the index of a nearest point in
// the sorted list, any one of those as near, and the square of its distance.
#include "peer_text.h"

#include <CGAL/Delaunay_triangulation_3.h>
#include <CGAL/Exact_predicates_inexact_constructions_kernel.h>
#include <CGAL/Triangulation_vertex_base_with_info_3.h>

using Kernel = CGAL::Exact_predicates_inexact_constructions_kernel;
using Vertex = CGAL::Triangulation_vertex_base_with_info_3<unsigned, Kernel>;
using Structure = CGAL::Triangulation_data_structure_3<Vertex, CGAL::Delaunay_triangulation_cell_base_3<Kernel>>;
using Triangulation = CGAL::Delaunay_triangulation_3<Kernel, Structure, CGAL::Fast_location>;

int main() {
    const Input input = read_input();
    std::vector<std::pair<Kernel::Point_3, unsigned>> points;
    for (const auto &p : places_left(input))
        points.emplace_back(Kernel::Point_3(p[0], p[1], p[2]), static_cast<unsigned>(points.size()));
    const Triangulation mesh(points.begin(), points.end());
    Text text;
    text.word("mesh3-near 1\n");
    text.head("queries", input.queries.size());
    std::vector<std::array<long, 2>> rows;
    for (const auto &q : input.queries) {
        const Kernel::Point_3 at(q[0], q[1], q[2]);
        const auto vertex = mesh.nearest_vertex(at);
        rows.push_back({vertex->info(), static_cast<long>(CGAL::squared_distance(at, vertex->point()))});
    }
    text.rows(rows);
    text.word("end\n");
    text.write();
}
