// The Boost Graph Library's breadth-first search, on its compressed sparse row graph, the fastest of its graphs for one that
// does not change. The distance and colour maps are made once.
#include <boost/graph/breadth_first_search.hpp>
#include <boost/graph/compressed_sparse_row_graph.hpp>
#include <cstddef>
#include <cstdint>
#include <utility>
#include <vector>

using Graph = boost::compressed_sparse_row_graph<boost::directedS>;

namespace {

struct Found {};

// Records distances, and stops where the target is found.
struct Recorder : boost::default_bfs_visitor {
    std::int32_t *distances;
    std::size_t target;

    Recorder(std::int32_t *distances, std::size_t target) : distances(distances), target(target) {}

    template <class Edge, class G> void tree_edge(Edge edge, const G &graph) const {
        distances[boost::target(edge, graph)] = distances[boost::source(edge, graph)] + 1;
    }
    template <class Vertex, class G> void examine_vertex(Vertex vertex, const G &) const {
        if (vertex == target) throw Found{};
    }
};

// The greatest distance, and the first window that has it.
struct Farthest {
    std::int32_t distance;
    std::size_t window;
};

// Records distances and the farthest window. No later one is nearer, so one that is no farther is as far.
struct FarthestRecorder : boost::default_bfs_visitor {
    std::int32_t *distances;
    Farthest *farthest;

    FarthestRecorder(std::int32_t *distances, Farthest *farthest) : distances(distances), farthest(farthest) {}

    template <class Edge, class G> void tree_edge(Edge edge, const G &graph) const {
        auto window = boost::target(edge, graph);
        auto distance = distances[boost::source(edge, graph)] + 1;
        distances[window] = distance;
        if (farthest->distance < distance || window < farthest->window) *farthest = {distance, window};
    }
};

struct Library {
    Graph graph;
    std::vector<std::int32_t> distances;
    std::vector<boost::default_color_type> colours;
};

template <class Visitor> void search(Library &own, std::size_t from, Visitor visitor) {
    auto index = boost::get(boost::vertex_index, own.graph);
    auto colours = boost::make_iterator_property_map(own.colours.begin(), index);
    own.distances[from] = 0;
    boost::breadth_first_search(own.graph, from, boost::visitor(visitor).color_map(colours));
}

} // namespace

extern "C" void *library_graph(std::size_t n, const std::uint32_t *starts, const std::uint32_t *targets) {
    std::vector<std::pair<std::size_t, std::size_t>> edges;
    for (std::size_t u = 0; u < n; u++)
        for (std::uint32_t e = starts[u]; e < starts[u + 1]; e++) edges.emplace_back(u, targets[e]);
    return new Library{Graph(boost::edges_are_sorted, edges.begin(), edges.end(), n), std::vector<std::int32_t>(n),
                       std::vector<boost::default_color_type>(n)};
}

extern "C" std::int32_t library_distance(void *library, std::size_t from, std::size_t to) {
    auto &own = *static_cast<Library *>(library);
    try {
        search(own, from, Recorder(own.distances.data(), to));
    } catch (const Found &) {
        return own.distances[to];
    }
    return -1;
}

extern "C" std::int32_t library_farthest(void *library, std::size_t from, std::size_t *first) {
    auto &own = *static_cast<Library *>(library);
    Farthest farthest{0, from};
    search(own, from, FarthestRecorder(own.distances.data(), &farthest));
    *first = farthest.window;
    return farthest.distance;
}

extern "C" void library_free(void *library) { delete static_cast<Library *>(library); }
