/* The kernel beside CGAL's Combinatorial_map on planar grids: build, count, ring with its conditions checked, recount.
 * One process, the sides in turn; a rotation of plans, so that none is known by heart; the best of several medians.
 *
 * In CGAL's map the vertices of a plan (document 01: cells) are the orbits of beta 1 and its edges (ties), of two
 * darts in a grid, those of beta 2; so its 2-cells, 1-cells and 0-cells are the plan's vertices, edges and faces
 * (gaps). A cut edge is unlinked from beta 2. At a dart without beta 2 a 0-cell of CGAL's ends, where the face of a
 * hypermap goes on; count_all_cells therefore has other faces after a ring, and a second column walks by hand instead.
 *
 * CGAL is given its best case by the functions of its manual: the successors stand ready in arrays, nothing is checked
 * while it builds, and its map is given back outside the time. The kernel plays a tape and checks every command. */
#include <CGAL/Combinatorial_map.h>

#include <algorithm>
#include <array>
#include <chrono>
#include <cmath>
#include <cstdint>
#include <cstdio>
#include <cstdlib>
#include <map>
#include <random>
#include <utility>
#include <vector>

#include "lotskadi.h"

namespace {

using Map = CGAL::Combinatorial_map<2>;
using Dart = Map::Dart_handle;
using Clock = std::chrono::steady_clock;
using Darts = std::vector<Dart>; /* by number; 0 is no dart */

constexpr int PLANS = 64;   /* in rotation */
constexpr int ROUNDS = 192; /* for one median */
constexpr int PASSES = 15;

void require(bool so, const char *what) {
    if (!so) {
        std::fprintf(stderr, "the two sides differ, or a plan is wrong: %s\n", what);
        std::exit(1);
    }
}

/* PLANS */

struct Plan {
    std::vector<uint16_t> edge, vertex; /* successors by number; 0 is no dart */
    std::vector<uint16_t> ring;         /* first and second dart of each double-link */
    std::vector<uint8_t> tape;

    int darts() const { return static_cast<int>(edge.size()) - 1; }

    std::vector<uint16_t> table(int capacity) const {
        std::vector<uint16_t> words(LOTSKADI_WORDS_PER_DART * capacity);
        const auto at = [&](int x) { return words.data() + LOTSKADI_WORDS_PER_DART * (x - 1); };
        for (int x = 1; x <= darts(); x++) {
            at(x)[0] = edge[x];
            at(edge[x])[1] = static_cast<uint16_t>(x);
            at(x)[2] = vertex[x];
            at(vertex[x])[3] = static_cast<uint16_t>(x);
        }
        return words;
    }
};

/* A grid of vertices, with edges of two darts to their neighbours, and its darts numbered row by row. */
class Grid {
  public:
    Grid(int width, int height) : width(width), height(height) {
        plan.edge.push_back(0);
        for (int at = 0; at < width * height; at++) {
            if (at % width + 1 < width) add_edge(at, at + 1);
            if (at / width + 1 < height) add_edge(at, at + width);
        }
        plan.vertex.resize(plan.edge.size());
        for (int at = 0; at < width * height; at++) close_vertex(at);
        plan.ring = ring();
    }

    Plan plan;

  private:
    int width, height;
    std::map<std::pair<int, int>, uint16_t> dart; /* at a vertex, of the edge to a neighbour */

    void add_edge(int from, int to) {
        const auto a = static_cast<uint16_t>(plan.edge.size()), b = static_cast<uint16_t>(a + 1);
        dart[{from, to}] = a;
        dart[{to, from}] = b;
        plan.edge.insert(plan.edge.end(), {b, a});
    }

    void close_vertex(int at) {
        std::vector<uint16_t> around;
        for (int to : {at + 1, at + width, at - 1, at - width}) {
            const auto found = dart.find({at, to});
            if (found != dart.end()) around.push_back(found->second);
        }
        for (size_t i = 0; i < around.size(); i++) plan.vertex[around[i]] = around[(i + 1) % around.size()];
    }

    /* Round the rectangle that leaves a quarter of the grid free on each side. */
    std::vector<uint16_t> ring() {
        const int left = width / 4, right = width - 1 - left, top = height / 4, bottom = height - 1 - top;
        std::vector<std::pair<int, int>> out;
        for (int x = left; x <= right; x++) out.push_back({top * width + x, (top - 1) * width + x});
        for (int y = top; y <= bottom; y++) out.push_back({y * width + right, y * width + right + 1});
        for (int x = right; x >= left; x--) out.push_back({bottom * width + x, (bottom + 1) * width + x});
        for (int y = bottom; y >= top; y--) out.push_back({y * width + left, y * width + left - 1});
        std::vector<uint16_t> words;
        for (const auto &[inside, outside] : out) {
            words.push_back(dart.at({outside, inside}));
            words.push_back(dart.at({inside, outside}));
        }
        return words;
    }
};

/* The same plan with other names. */
Plan renamed(const Plan &plan, const std::vector<uint16_t> &name) {
    Plan other;
    other.edge.resize(plan.edge.size());
    other.vertex.resize(plan.vertex.size());
    for (int x = 1; x <= plan.darts(); x++) {
        other.edge[name[x]] = name[plan.edge[x]];
        other.vertex[name[x]] = name[plan.vertex[x]];
    }
    for (uint16_t x : plan.ring) other.ring.push_back(name[x]);
    return other;
}

Plan with_tape(Plan plan, int capacity) {
    const std::vector<uint16_t> words = plan.table(capacity);
    plan.tape.resize(LOTSKADI_TAPE_ROOM);
    const lotskadi_answer written =
        lotskadi_write_tape(words.data(), words.size(), plan.tape.data(), plan.tape.size());
    require(written.number == 0, "the plan has a tape");
    plan.tape.resize(written.count);
    return plan;
}

/* As many darts as fit, in a grid of about the given width. */
Grid fitting(int width, int capacity) {
    int height = 4;
    while (2 * (width * height + (height + 1) * (width - 1)) <= capacity) height++;
    return Grid(width, height);
}

std::vector<Plan> row_by_row(int capacity) {
    const int side = static_cast<int>(std::sqrt(capacity / 4.0)) + 1;
    std::vector<Plan> plans;
    for (int k = 0; k < PLANS; k++)
        plans.push_back(with_tape(fitting(std::max(6, side - 8 + k % 16), capacity).plan, capacity));
    return plans;
}

std::vector<Plan> scattered(int capacity) {
    const Grid grid = fitting(static_cast<int>(std::sqrt(capacity / 4.0)) + 1, capacity);
    std::vector<uint16_t> name(grid.plan.edge.size());
    for (size_t i = 0; i < name.size(); i++) name[i] = static_cast<uint16_t>(i);
    std::mt19937 random(7);
    std::vector<Plan> plans;
    for (int k = 0; k < PLANS; k++) {
        std::shuffle(name.begin() + 1, name.end(), random);
        plans.push_back(with_tape(renamed(grid.plan, name), capacity));
    }
    return plans;
}

/* WHAT IS COUNTED, and how long each part took, in microseconds */

struct Counts {
    uint32_t darts, edges, vertices, faces, components;
};

enum Part { BUILD, COUNT, RING, RECOUNT, PARTS };

struct Outcome {
    std::array<double, PARTS> times;
    Counts before, after;
};

class Stopwatch {
  public:
    double lap() {
        const Clock::time_point now = Clock::now();
        const double time = std::chrono::duration<double, std::micro>(now - last).count();
        last = now;
        return time;
    }

  private:
    Clock::time_point last = Clock::now();
};

/* THE KERNEL */

Counts counted(const std::vector<uint16_t> &table) {
    const lotskadi_totals totals = lotskadi_report(table.data(), table.size());
    require(totals.number == 0, "a report");
    return {totals.darts, totals.edges, totals.vertices, totals.faces, totals.components};
}

Outcome by_kernel(const Plan &plan, std::vector<uint16_t> &table) {
    Outcome outcome;
    Stopwatch watch;
    std::fill(table.begin(), table.end(), 0);
    const lotskadi_run run = lotskadi_play(table.data(), table.size(), plan.tape.data(), plan.tape.size());
    outcome.times[BUILD] = watch.lap();
    outcome.before = counted(table);
    outcome.times[COUNT] = watch.lap();
    const uint8_t refused = lotskadi_ring_cut(table.data(), table.size(), plan.ring.data(), plan.ring.size());
    outcome.times[RING] = watch.lap();
    outcome.after = counted(table);
    outcome.times[RECOUNT] = watch.lap();
    require(run.number == 0 && refused == 0, "tape and ring are accepted");
    return outcome;
}

/* CGAL */

void build(Map &map, const Plan &plan, Darts &dart) {
    for (int x = 1; x <= plan.darts(); x++) dart[x] = map.create_dart();
    for (int x = 1; x <= plan.darts(); x++) map.link_beta<1>(dart[x], dart[plan.vertex[x]]);
    for (int x = 1; x <= plan.darts(); x++)
        if (x < plan.edge[x]) map.link_beta<2>(dart[x], dart[plan.edge[x]]);
}

Dart edge_next(const Map &map, Dart x) { return map.is_free<2>(x) ? x : const_cast<Map &>(map).beta<2>(x); }

Dart face_next(const Map &map, Dart x) { return const_cast<Map &>(map).beta<0>(edge_next(map, x)); }

template <typename Step> void mark_orbit(const Map &map, Dart x, Map::size_type mark, Step step) {
    Dart at = x;
    do {
        map.mark(at, mark);
        at = step(at);
    } while (at != x);
}

/* By the library's own function. */
Counts by_library(Map &map, Darts &) {
    const std::vector<unsigned int> cells = map.count_all_cells();
    return {static_cast<uint32_t>(map.number_of_darts()), cells[1], cells[2], cells[0], cells[3]};
}

void flood(Map &map, Dart x, Map::size_type mark, Darts &waiting) {
    waiting.clear();
    waiting.push_back(x);
    map.mark(x, mark);
    while (!waiting.empty()) {
        const Dart at = waiting.back();
        waiting.pop_back();
        for (Dart next : {map.beta<1>(at), edge_next(map, at)}) {
            if (map.is_marked(next, mark)) continue;
            map.mark(next, mark);
            waiting.push_back(next);
        }
    }
}

/* By walks over the library's darts and marks. */
Counts by_hand(Map &map, Darts &waiting) {
    Counts counts = {static_cast<uint32_t>(map.number_of_darts()), 0, 0, 0, 0};
    const Map::size_type edge = map.get_new_mark(), vertex = map.get_new_mark(), face = map.get_new_mark(),
                         component = map.get_new_mark();
    for (Dart x = map.darts().begin(); x != map.darts().end(); ++x) {
        if (!map.is_marked(x, edge)) {
            mark_orbit(map, x, edge, [&](Dart at) { return edge_next(map, at); });
            counts.edges++;
        }
        if (!map.is_marked(x, vertex)) {
            mark_orbit(map, x, vertex, [&](Dart at) { return map.beta<1>(at); });
            counts.vertices++;
        }
        if (!map.is_marked(x, face)) {
            mark_orbit(map, x, face, [&](Dart at) { return face_next(map, at); });
            counts.faces++;
        }
        if (!map.is_marked(x, component)) {
            flood(map, x, component, waiting);
            counts.components++;
        }
    }
    for (Map::size_type mark : {edge, vertex, face, component}) map.free_mark(mark);
    return counts;
}

/* Each pair one edge, and no edge twice. */
bool crosses_edges(const Map &map, const std::vector<uint16_t> &ring, const Darts &dart, Map::size_type mark) {
    for (size_t k = 0; k < ring.size(); k += 2) {
        const Dart a = dart[ring[k]], b = dart[ring[k + 1]];
        if (a == b || edge_next(map, a) != b || map.is_marked(a, mark)) return false;
        map.mark(a, mark);
        map.mark(b, mark);
    }
    return true;
}

/* The faces of the first darts differ, and each has the second dart before it. */
bool goes_round(const Map &map, const std::vector<uint16_t> &ring, const Darts &dart, Map::size_type mark) {
    for (size_t k = 0; k < ring.size(); k += 2) {
        const Dart first = dart[ring[k]], before = dart[ring[(k + ring.size() - 1) % ring.size()]];
        if (map.is_marked(first, mark)) return false;
        bool met = false;
        mark_orbit(map, first, mark, [&](Dart at) {
            met |= at == before;
            return face_next(map, at);
        });
        if (!met) return false;
    }
    return true;
}

bool cut_ring(Map &map, const std::vector<uint16_t> &ring, const Darts &dart) {
    const Map::size_type edges = map.get_new_mark(), faces = map.get_new_mark();
    const bool fits = crosses_edges(map, ring, dart, edges) && goes_round(map, ring, dart, faces);
    for (uint16_t x : ring) map.unmark(dart[x], edges);
    for (size_t k = 0; k < ring.size(); k += 2) {
        Dart at = dart[ring[k]];
        while (map.is_marked(at, faces)) {
            map.unmark(at, faces);
            at = face_next(map, at);
        }
    }
    map.free_mark(edges);
    map.free_mark(faces);
    for (size_t k = 0; fits && k < ring.size(); k += 2) map.unlink_beta<2>(dart[ring[k]]);
    return fits;
}

template <typename Count> Outcome by_cgal(const Plan &plan, Darts &dart, Darts &waiting, Count count) {
    Outcome outcome;
    Stopwatch watch;
    Map map;
    build(map, plan, dart);
    outcome.times[BUILD] = watch.lap();
    outcome.before = count(map, waiting);
    outcome.times[COUNT] = watch.lap();
    const bool fits = cut_ring(map, plan.ring, dart);
    outcome.times[RING] = watch.lap();
    outcome.after = count(map, waiting);
    outcome.times[RECOUNT] = watch.lap();
    require(fits, "CGAL's side takes the ring");
    return outcome;
}

/* BOTH */

void agree(const Counts &a, const Counts &b, bool faces_too) {
    require(a.darts == b.darts && a.edges == b.edges && a.vertices == b.vertices && a.components == b.components &&
                (!faces_too || a.faces == b.faces),
            "the counts");
}

double median(std::vector<double> times) {
    std::nth_element(times.begin(), times.begin() + times.size() / 2, times.end());
    return times[times.size() / 2];
}

/* The median of each part over many rounds, by one side; kept where it is better than before. */
template <typename Side>
void measure(const std::vector<Plan> &plans, std::array<double, PARTS> &best, Side side) {
    std::array<std::vector<double>, PARTS> times;
    for (int round = 0; round < ROUNDS; round++) {
        const Outcome outcome = side(plans[round % plans.size()]);
        for (int part = 0; part < PARTS; part++) times[part].push_back(outcome.times[part]);
    }
    for (int part = 0; part < PARTS; part++) best[part] = std::min(best[part], median(times[part]));
}

double sum(const std::array<double, PARTS> &times) { return times[0] + times[1] + times[2] + times[3]; }

void print_row(const char *name, double kernel, double library, double hand) {
    std::printf("  %-10s %8.2f %8.2f %7.2f %8.2f %7.2f\n", name, kernel, library, kernel / library, hand,
                kernel / hand);
}

void compare(const char *numbering, const std::vector<Plan> &plans, int capacity) {
    std::vector<uint16_t> table(LOTSKADI_WORDS_PER_DART * capacity);
    Darts dart(capacity + 1), waiting;
    waiting.reserve(capacity);
    const auto kernel = [&](const Plan &plan) { return by_kernel(plan, table); };
    const auto library = [&](const Plan &plan) { return by_cgal(plan, dart, waiting, by_library); };
    const auto hand = [&](const Plan &plan) { return by_cgal(plan, dart, waiting, by_hand); };
    for (const Plan &plan : plans) {
        const Outcome ours = kernel(plan), theirs = library(plan), walked = hand(plan);
        require(ours.after.components == ours.before.components + 1, "the ring parts its component");
        agree(ours.before, theirs.before, true);
        agree(ours.after, theirs.after, false);
        agree(ours.before, walked.before, true);
        agree(ours.after, walked.after, true);
    }
    std::array<double, PARTS> k, l, h;
    for (auto *best : {&k, &l, &h}) best->fill(1e9);
    /* in turn, so that a machine that slows down for a while slows all sides */
    for (int pass = 0; pass < PASSES; pass++) {
        measure(plans, k, kernel);
        measure(plans, l, library);
        measure(plans, h, hand);
    }
    std::printf("%d tabs, numbered %s, a ring of %zu crossings:\n", plans[0].darts(), numbering,
                plans[0].ring.size() / 2);
    const char *names[PARTS] = {"build", "count", "ring", "recount"};
    for (int part = 0; part < PARTS; part++) print_row(names[part], k[part], l[part], h[part]);
    print_row("sum", sum(k), sum(l), sum(h));
}

} // namespace

int main() {
    std::printf("microseconds: the kernel; CGAL %s with count_all_cells, and the ratio; CGAL with counts by hand\n",
                CGAL_VERSION_STR);
    for (int capacity : {1024, 2048, 4096}) {
        compare("row by row", row_by_row(capacity), capacity);
        compare("at random", scattered(capacity), capacity);
    }
    return 0;
}
