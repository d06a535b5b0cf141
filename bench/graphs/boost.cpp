// Times Boost's maximum flows and strong components on graphs that are read as text, beside which bench/graphs/choose.py times ours.
//
// Each line is as for the program cb_graph_cases, with single edges and gains alone. For each it prints how much flows, and the processor time in
// microseconds of boykov_kolmogorov_max_flow, of push_relabel_max_flow, of strong_components, and of all that condense does from a grid of marks.
#include <algorithm>
#include <boost/graph/adjacency_list.hpp>
#include <boost/graph/boykov_kolmogorov_max_flow.hpp>
#include <boost/graph/push_relabel_max_flow.hpp>
#include <boost/graph/strong_components.hpp>
#include <cstdint>
#include <cstdio>
#include <cstdlib>
#include <ctime>
#include <iostream>
#include <limits>
#include <sstream>
#include <string>
#include <utility>
#include <vector>

using Traits = boost::adjacency_list_traits<boost::vecS, boost::vecS, boost::directedS>;
using Network = boost::adjacency_list<
    boost::vecS, boost::vecS, boost::directedS,
    boost::property<boost::vertex_index_t, long,
                    boost::property<boost::vertex_color_t, boost::default_color_type,
                                    boost::property<boost::vertex_distance_t, long, boost::property<boost::vertex_predecessor_t, Traits::edge_descriptor>>>>,
    boost::property<boost::edge_capacity_t, long long,
                    boost::property<boost::edge_residual_capacity_t, long long, boost::property<boost::edge_reverse_t, Traits::edge_descriptor>>>>;
using Graph = boost::adjacency_list<boost::vecS, boost::vecS, boost::directedS>;
using Edges = std::vector<std::pair<int, int>>;

static double now() {
    timespec time;
    clock_gettime(CLOCK_PROCESS_CPUTIME_ID, &time);
    return time.tv_sec * 1e6 + time.tv_nsec / 1e3;
}

static void add(Network &network, int from, int to, long long capacity) {
    auto one = boost::add_edge(from, to, network).first;
    auto back = boost::add_edge(to, from, network).first;
    boost::put(boost::edge_capacity, network, one, capacity);
    boost::put(boost::edge_capacity, network, back, 0);
    boost::put(boost::edge_reverse, network, one, back);
    boost::put(boost::edge_reverse, network, back, one);
}

static Network network_of(int parts, const Edges &edges, const std::vector<long long> &gains) {
    Network network(parts + 2);
    for (int part = 0; part < parts; part++) {
        if (gains[part] > 0) add(network, parts, part, gains[part]);
        if (gains[part] < 0) add(network, part, parts + 1, -gains[part]);
    }
    for (auto [from, to] : edges) add(network, to, from, std::numeric_limits<long long>::max() / 4);
    return network;
}

// What a run takes: the least of some rows of runs, of which each takes a hundredth of a second or more
template <typename Run> static double least(Run run) {
    double best = 1e18;
    long times = 1;
    for (int rows = 0; rows < 5;) {
        double before = now();
        for (long k = 0; k < times; k++) run();
        double took = now() - before;
        if (took < 1e4) {
            times *= 2;
        } else {
            best = std::min(best, took / times);
            rows++;
        }
    }
    return best;
}

// Rows of marks, 64 to a word, by the node from which an edge leads
using Rows = std::vector<std::vector<uint64_t>>;

static Rows rows_of(int nodes, const Edges &edges) {
    Rows rows(nodes, std::vector<uint64_t>(nodes / 64 + 1));
    for (auto [from, to] : edges) rows[from][to / 64] |= uint64_t(1) << to % 64;
    return rows;
}

static Edges edges_of(const Rows &rows) {
    Edges edges;
    for (size_t from = 0; from < rows.size(); from++)
        for (size_t index = 0; index < rows[from].size(); index++)
            for (uint64_t word = rows[from][index]; word; word &= word - 1) edges.push_back({from, index * 64 + __builtin_ctzll(word)});
    return edges;
}

static std::vector<int> components(const Graph &graph) {
    std::vector<int> part(boost::num_vertices(graph));
    boost::strong_components(graph, boost::make_iterator_property_map(part.begin(), boost::get(boost::vertex_index, graph)));
    return part;
}

// What condense does: from marks to parts that are numbered by their first nodes, the edges between them in order, and those at each part
static size_t condensed(const Rows &rows) {
    Edges edges = edges_of(rows);
    Graph graph(edges.begin(), edges.end(), rows.size());
    std::vector<int> found = components(graph), number(rows.size(), -1);
    int parts = 0;
    for (int &part : found) {
        if (number[part] < 0) number[part] = parts++;
        part = number[part];
    }
    Edges joins;
    for (auto [from, to] : edges)
        if (found[from] != found[to]) joins.push_back({found[from], found[to]});
    std::sort(joins.begin(), joins.end());
    joins.erase(std::unique(joins.begin(), joins.end()), joins.end());
    std::vector<std::vector<int>> out_of(parts), into(parts);
    for (size_t edge = 0; edge < joins.size(); edge++) {
        out_of[joins[edge].first].push_back(edge);
        into[joins[edge].second].push_back(edge);
    }
    return joins.size() + out_of.size() + into.size();
}

int main() {
    std::string line;
    volatile size_t kept = 0;
    while (std::getline(std::cin, line)) {
        std::istringstream words(line);
        std::string word;
        int nodes;
        words >> nodes;
        Edges edges;
        std::vector<long long> gains;
        while (words >> word) {
            size_t at = word.find('>');
            if (at != std::string::npos)
                edges.push_back({std::atoi(word.c_str()), std::atoi(word.c_str() + at + 1)});
            else if (word.find(':') == std::string::npos)
                gains.push_back(std::atoll(word.c_str()));
        }
        gains.resize(nodes, 0);
        Network network = network_of(nodes, edges, gains);
        Graph graph(edges.begin(), edges.end(), nodes);
        Rows rows = rows_of(nodes, edges);
        long long flow = 0, other = 0;
        double kolmogorov = least([&] { flow = boost::boykov_kolmogorov_max_flow(network, nodes, nodes + 1); });
        double relabel = least([&] { other = boost::push_relabel_max_flow(network, nodes, nodes + 1); });
        double strong = least([&] { kept = kept + components(graph).size(); });
        double whole = least([&] { kept = kept + condensed(rows); });
        if (flow != other) return 1;
        std::printf("%lld %.3f %.3f %.3f %.3f\n", flow, kolmogorov, relabel, strong, whole);
        std::fflush(stdout);
    }
}
