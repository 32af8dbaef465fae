// The peer of the check of a mesh: CGAL's Delaunay triangulation of the points of an edit file, and then its own
// `is_valid`, whose processor time it prints beside its answer and the number of cells. `is_valid` looks at each cell
// and its neighbours; ties it cannot see.
#include "peer_text.h"

#include <CGAL/Delaunay_triangulation_3.h>
#include <CGAL/Exact_predicates_inexact_constructions_kernel.h>

#include <ctime>

using Kernel = CGAL::Exact_predicates_inexact_constructions_kernel;

int main() {
    std::vector<Kernel::Point_3> points;
    for (const auto &p : read_input().points) points.emplace_back(p[0], p[1], p[2]);
    CGAL::Delaunay_triangulation_3<Kernel> mesh;
    mesh.insert(points.begin(), points.end());
    const std::clock_t start = std::clock();
    const bool valid = mesh.is_valid();
    const double seconds = static_cast<double>(std::clock() - start) / CLOCKS_PER_SEC;
    std::printf("valid %d cells %zu seconds %.3f\n", valid, mesh.number_of_cells(), seconds);
}
