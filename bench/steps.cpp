// The peer of bench/steps: CGAL's alpha shape of all alphas of the points that an edit file leaves. The triangulation
// is made once, of the final points (CGAL sorts them along a curve). With the word `mesh` that is all; with `double` an
// Alpha_shape_3 in GENERAL mode is made of it, which finds the alphas at which each face comes in floating point, and
// with `exact` one that compares them exactly. With `parts` and `exact-parts` the Alpha_shape_3 is made in its default
// mode, and `find_optimal_alpha` is asked for one part. Nothing is written but counts and that alpha.
#include "peer_text.h"

#include <CGAL/Alpha_shape_3.h>
#include <CGAL/Alpha_shape_cell_base_3.h>
#include <CGAL/Alpha_shape_vertex_base_3.h>
#include <CGAL/Delaunay_triangulation_3.h>
#include <CGAL/Exact_predicates_inexact_constructions_kernel.h>

using Kernel = CGAL::Exact_predicates_inexact_constructions_kernel;

template <typename Exact> void shape(const std::vector<Kernel::Point_3> &points, bool alone, bool parts) {
    using Vertex = CGAL::Alpha_shape_vertex_base_3<Kernel, CGAL::Default, Exact>;
    using Cell = CGAL::Alpha_shape_cell_base_3<Kernel, CGAL::Default, Exact>;
    using Triangulation = CGAL::Delaunay_triangulation_3<Kernel, CGAL::Triangulation_data_structure_3<Vertex, Cell>>;
    using Shape = CGAL::Alpha_shape_3<Triangulation, Exact>;
    Triangulation mesh(points.begin(), points.end());
    std::printf("%zu cells\n", mesh.number_of_finite_cells());
    if (alone) return;
    if (parts) {
        Shape shape(mesh);
        const auto least = *shape.find_optimal_alpha(1);
        std::printf("%.6f\n", CGAL::to_double(least));
        return;
    }
    Shape shape(mesh, 0, Shape::GENERAL);
    std::printf("%ld alphas\n", static_cast<long>(shape.number_of_alphas()));
}

int main(int count, char **words) {
    std::vector<Kernel::Point_3> points;
    for (const auto &p : places_left(read_input())) points.emplace_back(p[0], p[1], p[2]);
    const char *word = count > 1 ? words[1] : "double";
    const bool parts = std::strstr(word, "parts") != nullptr;
    if (std::strncmp(word, "exact", 5) == 0)
        shape<CGAL::Tag_true>(points, false, parts);
    else
        shape<CGAL::Tag_false>(points, std::strcmp(word, "mesh") == 0, parts);
}
