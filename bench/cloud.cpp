// The peer of bench/cloud: CGAL's Delaunay triangulation of the points of an edit file, handed in at once, so that they
// are put in an order along a curve. It prints how many points, cells and hull triangles there are; with the word
// `text`, what `delaunay mesh` writes from the line of the points on; with a number behind that, by as many threads, as
// CGAL puts a range in with its Parallel_tag. Ties it settles in its own way.
#include "peer_text.h"

#include <CGAL/Delaunay_triangulation_3.h>
#include <CGAL/Exact_predicates_inexact_constructions_kernel.h>
#include <CGAL/Triangulation_vertex_base_with_info_3.h>
#include <tbb/global_control.h>

using Kernel = CGAL::Exact_predicates_inexact_constructions_kernel;
template <class Tag>
using Structure = CGAL::Triangulation_data_structure_3<CGAL::Triangulation_vertex_base_with_info_3<int, Kernel>,
                                                       CGAL::Delaunay_triangulation_cell_base_3<Kernel>, Tag>;

void counts(const std::vector<Place> &places) {
    std::vector<Kernel::Point_3> points;
    for (const auto &p : places) points.emplace_back(p[0], p[1], p[2]);
    CGAL::Delaunay_triangulation_3<Kernel> mesh;
    mesh.insert(points.begin(), points.end());
    const auto full = mesh.number_of_finite_cells();
    std::printf("points %zu cells %zu hull %zu\n", mesh.number_of_vertices(), full, mesh.number_of_cells() - full);
}

std::vector<Place> each_once(std::vector<Place> places) {
    std::sort(places.begin(), places.end());
    places.erase(std::unique(places.begin(), places.end()), places.end());
    return places;
}

template <class Mesh> void write_text(const std::vector<Place> &places, const Mesh &mesh) {
    Text text;
    text.head("points", places.size());
    text.rows(places);
    put_cells(text, mesh);
    text.word("end\n");
    text.write();
}

void text(const std::vector<Place> &places) {
    std::vector<std::pair<Kernel::Point_3, int>> points;
    for (const auto &p : places)
        points.emplace_back(Kernel::Point_3(p[0], p[1], p[2]), static_cast<int>(points.size()));
    CGAL::Delaunay_triangulation_3<Kernel, Structure<CGAL::Sequential_tag>> mesh;
    mesh.insert(points.begin(), points.end());
    write_text(places, mesh);
}

// Points with infos go in by one thread, so the vertices get their numbers behind the insertion.
void text_by_threads(const std::vector<Place> &places, std::size_t threads) {
    using Mesh = CGAL::Delaunay_triangulation_3<Kernel, Structure<CGAL::Parallel_tag>>;
    const tbb::global_control most(tbb::global_control::max_allowed_parallelism, threads);
    std::vector<Kernel::Point_3> points;
    for (const auto &p : places) points.emplace_back(p[0], p[1], p[2]);
    Mesh::Lock_data_structure locks(CGAL::Bbox_3(0, 0, 0, 16383, 16383, 16383), 50);
    const Mesh mesh(points.begin(), points.end(), &locks);
    for (const auto vertex : mesh.finite_vertex_handles()) {
        const Kernel::Point_3 &p = vertex->point();
        const Place place{static_cast<int>(p.x()), static_cast<int>(p.y()), static_cast<int>(p.z())};
        vertex->info() = static_cast<int>(std::lower_bound(places.begin(), places.end(), place) - places.begin());
    }
    write_text(places, mesh);
}

int main(int count, char **words) {
    Input input = read_input();
    if (count > 2)
        text_by_threads(each_once(std::move(input.points)), std::stoul(words[2]));
    else if (count > 1 && std::strcmp(words[1], "text") == 0)
        text(each_once(std::move(input.points)));
    else
        counts(input.points);
}
