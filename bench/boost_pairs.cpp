// Route pairs by Boost, for bench/route: the least route of each two nodes, and the least one that is risk-disjoint from it and
// shares no inner node. Reads a line `LINK LOW HIGH METRIC SRLG` for each link, nodes from 1. The word is how often to search all
// pairs before the last time. Prints the number of pairs and the sum of the costs of their least routes. One graph serves all
// searches; a backup is searched in a filtered view of it.
#include <algorithm>
#include <boost/graph/adjacency_list.hpp>
#include <boost/graph/dijkstra_shortest_paths.hpp>
#include <boost/graph/filtered_graph.hpp>
#include <cstdio>
#include <cstdlib>
#include <limits>
#include <vector>

struct Link {
    unsigned id, metric, srlg;
};

using Graph = boost::adjacency_list<boost::vecS, boost::vecS, boost::undirectedS, boost::no_property, Link>;
using Edge = boost::graph_traits<Graph>::edge_descriptor;
using Vertex = boost::graph_traits<Graph>::vertex_descriptor;

const unsigned FAR = std::numeric_limits<unsigned>::max();

struct IsOpenLink {
    const Graph *graph = nullptr;
    const std::vector<char> *closed = nullptr;
    bool operator()(Edge e) const { return !(*closed)[(*graph)[e].id]; }
};

struct IsOpenNode {
    const std::vector<char> *closed = nullptr;
    bool operator()(Vertex v) const { return !(*closed)[v]; }
};

struct Costs {
    unsigned primary, backup;
};

struct Search {
    Graph graph;
    std::vector<char> links, nodes;
    std::vector<unsigned> costs;
    std::vector<Vertex> before;

    Search(const Graph &g, unsigned last) : graph(g), links(last + 1), nodes(num_vertices(g)), costs(num_vertices(g)), before(num_vertices(g)) {}

    template <class View> unsigned least(const View &view, Vertex from, Vertex to) {
        boost::dijkstra_shortest_paths(view, from, boost::weight_map(get(&Link::metric, view)).distance_map(costs.data()).predecessor_map(before.data()));
        return costs[to];
    }

    Edge cheapest(Vertex a, Vertex b) const {
        Edge best;
        unsigned metric = FAR;
        for (Edge e : boost::make_iterator_range(out_edges(a, graph)))
            if (target(e, graph) == b && graph[e].metric < metric) {
                best = e;
                metric = graph[e].metric;
            }
        return best;
    }

    // Closes what shares a risk or an inner node with the route that was found last.
    void close(Vertex from, Vertex to) {
        std::vector<unsigned> used, srlgs;
        std::fill(nodes.begin(), nodes.end(), 0);
        for (Vertex v = to; v != from; v = before[v]) {
            const Link &link = graph[cheapest(before[v], v)];
            used.push_back(link.id);
            srlgs.push_back(link.srlg);
            if (before[v] != from) nodes[before[v]] = 1;
        }
        auto has = [](const std::vector<unsigned> &xs, unsigned x) { return std::find(xs.begin(), xs.end(), x) != xs.end(); };
        for (Edge e : boost::make_iterator_range(edges(graph)))
            links[graph[e].id] = has(used, graph[e].id) || has(srlgs, graph[e].srlg);
    }

    Costs pair(Vertex from, Vertex to) {
        unsigned primary = least(graph, from, to);
        if (primary == FAR) return {FAR, FAR};
        close(from, to);
        boost::filtered_graph<Graph, IsOpenLink, IsOpenNode> rest(graph, {&graph, &links}, {&nodes});
        return {primary, least(rest, from, to)};
    }
};

int main(int, char **words) {
    Graph graph;
    unsigned id, low, high, metric, srlg, last = 0;
    while (std::scanf("%u %u %u %u %u", &id, &low, &high, &metric, &srlg) == 5) {
        while (num_vertices(graph) < std::max(low, high)) add_vertex(graph);
        add_edge(low - 1, high - 1, Link{id, metric, srlg}, graph);
        last = std::max(last, id);
    }
    Search search(graph, last);
    unsigned long pairs = 0, cost = 0;
    for (int times = std::atoi(words[1]); times >= 0; times--) {
        pairs = cost = 0;
        for (Vertex from = 0; from < num_vertices(graph); from++)
            for (Vertex to = 0; to < num_vertices(graph); to++)
                if (from != to) {
                    Costs found = search.pair(from, to);
                    pairs++;
                    cost += found.primary == FAR ? 0 : found.primary;
                }
    }
    std::printf("pairs %lu cost %lu\n", pairs, cost);
}
