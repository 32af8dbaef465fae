// The peer of bench/shape: CGAL's alpha complexes of the points that an edit file leaves, one for each radius of the
// file, in the same text from the line of the points on. The triangulation is made once, of the final points (CGAL
// sorts them along a curve), and copied for each radius, since Fixed_alpha_shape_3 takes its triangulation over. It
// settles ties in its own way, so the texts are equal for points of which no five are on one sphere. Alpha is a squared
// radius there too, and what CGAL calls exterior is not listed. One word differs: CGAL calls a point or an edge
// singular where no larger face of the shape has it, the program where no cell of the shape has it; so what is regular
// there may be singular here.
#include "peer_text.h"

#include <CGAL/Delaunay_triangulation_3.h>
#include <CGAL/Exact_predicates_inexact_constructions_kernel.h>
#include <CGAL/Fixed_alpha_shape_3.h>
#include <CGAL/Fixed_alpha_shape_cell_base_3.h>
#include <CGAL/Fixed_alpha_shape_vertex_base_3.h>
#include <CGAL/Triangulation_vertex_base_with_info_3.h>

using Kernel = CGAL::Exact_predicates_inexact_constructions_kernel;
using Info = CGAL::Triangulation_vertex_base_with_info_3<int, Kernel>;
using Vertex = CGAL::Fixed_alpha_shape_vertex_base_3<Kernel, Info>;
using Cell = CGAL::Fixed_alpha_shape_cell_base_3<Kernel>;
using Triangulation = CGAL::Delaunay_triangulation_3<Kernel, CGAL::Triangulation_data_structure_3<Vertex, Cell>>;
using Shape = CGAL::Fixed_alpha_shape_3<Triangulation>;

const char *word(Shape::Classification_type kind) {
    return kind == Shape::INTERIOR ? "interior" : kind == Shape::REGULAR ? "regular" : "singular";
}

// The lines of the faces with N points, by the indices of these, and the kind of each.
template <std::size_t N> struct Lines {
    std::vector<std::pair<std::array<int, N>, Shape::Classification_type>> faces;

    void put(std::array<int, N> ids, Shape::Classification_type kind) {
        std::sort(ids.begin(), ids.end());
        faces.emplace_back(ids, kind);
    }

    void put(Text &text, const char *title) {
        std::sort(faces.begin(), faces.end());
        text.head(title, faces.size());
        for (const auto &[ids, kind] : faces) {
            for (const int id : ids) {
                text.number(id);
                text.word(" ");
            }
            text.word(word(kind));
            text.word("\n");
        }
    }
};

void put_shape(Text &text, const Triangulation &mesh, long radius) {
    Triangulation copy(mesh);
    Shape shape(copy, static_cast<double>(radius));
    Lines<1> points;
    Lines<2> edges;
    Lines<3> triangles;
    std::vector<std::array<int, 4>> cells;
    for (const auto vertex : shape.finite_vertex_handles()) points.put({vertex->info()}, shape.classify(vertex));
    for (const auto &edge : shape.finite_edges()) {
        const auto kind = shape.classify(edge);
        if (kind == Shape::EXTERIOR) continue;
        edges.put({edge.first->vertex(edge.second)->info(), edge.first->vertex(edge.third)->info()}, kind);
    }
    for (const auto &facet : shape.finite_facets()) {
        const auto kind = shape.classify(facet);
        if (kind == Shape::EXTERIOR) continue;
        std::array<int, 3> ids;
        for (int i = 0; i < 3; i++) ids[i] = facet.first->vertex((facet.second + 1 + i) % 4)->info();
        triangles.put(ids, kind);
    }
    for (const auto cell : shape.finite_cell_handles()) {
        if (shape.classify(cell) != Shape::INTERIOR) continue;
        std::array<int, 4> ids;
        for (int i = 0; i < 4; i++) ids[i] = cell->vertex(i)->info();
        std::sort(ids.begin(), ids.end());
        cells.push_back(ids);
    }
    text.head("shape", static_cast<std::size_t>(radius));
    points.put(text, "points");
    edges.put(text, "edges");
    triangles.put(text, "triangles");
    std::sort(cells.begin(), cells.end());
    text.head("cells", cells.size());
    text.rows(cells);
}

// With a word, the shapes are left out: what the mesh alone takes.
int main(int count, char **) {
    const Input input = read_input();
    const std::vector<Place> places = places_left(input);
    std::vector<std::pair<Kernel::Point_3, int>> points;
    for (const auto &p : places)
        points.emplace_back(Kernel::Point_3(p[0], p[1], p[2]), static_cast<int>(points.size()));
    const Triangulation mesh(points.begin(), points.end());
    Text text;
    text.head("points", places.size());
    text.rows(places);
    put_cells(text, mesh);
    if (count == 1)
        for (const long radius : input.radii) put_shape(text, mesh, radius);
    text.word("end\n");
    text.write();
}
