// Plans the classes of plan_bench by LEMON's network simplex, and writes for each its total and the seconds of a
// processor.
//
//     lemon_plans JOBS DEVICES SEED COUNT
//
// The classes are those of `plan_bench paths` with the same words (crates/plan_bench/src/made_class.rt). A device has as
// many places as in scipy_plans.py, and they are doubled while some device's last place is used. The network has a node
// for each job and each place, and an arc from a job to each place of a device that can print it. The seconds are those
// of each call of NetworkSimplex::run for a class, without making the networks.
#include <algorithm>
#include <cstdint>
#include <cstdio>
#include <cstdlib>
#include <ctime>
#include <vector>

#include <lemon/network_simplex.h>
#include <lemon/smart_graph.h>

using Graph = lemon::SmartDigraph;
using Simplex = lemon::NetworkSimplex<Graph, std::int64_t, std::int64_t>;

// FACTOR of scipy_plans.py.
constexpr std::size_t FACTOR = 4;

// The time of a job on a device that can't print it.
constexpr std::int64_t NOT_ABLE = -1;

// The numbers of plan_bench: xorshift with the shifts 13, 7 and 17.
struct Random {
    std::uint64_t state;

    std::int64_t below(std::uint64_t bound) {
        state ^= state << 13;
        state ^= state >> 7;
        state ^= state << 17;
        return static_cast<std::int64_t>(state % bound);
    }
};

struct Speed {
    std::int64_t setup;
    std::int64_t impression;
};

// The waits of the devices, and the times of each job on them.
struct Problem {
    std::vector<std::int64_t> waits;
    std::vector<std::vector<std::int64_t>> times;
};

// The times of a job on each device; `own` is a device that can print it.
std::vector<std::int64_t> made_times(Random& random, const std::vector<Speed>& speeds, std::size_t own) {
    const std::int64_t impressions = random.below(200) + 1;
    std::vector<std::int64_t> times;
    for (std::size_t device = 0; device < speeds.size(); ++device) {
        const bool able = random.below(8) != 0 || device == own;
        times.push_back(able ? speeds[device].setup + impressions * speeds[device].impression : NOT_ABLE);
    }
    return times;
}

Problem made_problem(Random& random, std::size_t jobs, std::size_t devices) {
    Problem problem;
    std::vector<Speed> speeds;
    for (std::size_t device = 0; device < devices; ++device) {
        const std::int64_t setup = random.below(60'000);
        speeds.push_back({setup, random.below(5'000) + 500});
        problem.waits.push_back(random.below(600'000));
    }
    for (std::size_t job = 0; job < jobs; ++job) {
        problem.times.push_back(made_times(random, speeds, job % devices));
    }
    return problem;
}

// The network of a class in which each device has so many places.
class Network {
public:
    Network(const Problem& problem, std::size_t places)
        : costs(graph), capacities(graph), supplies(graph), lasts(graph), sink(graph.addNode()) {
        supplies[sink] = -static_cast<std::int64_t>(problem.times.size());
        const auto nodes = add_places(problem.waits.size(), places);
        for (const auto& times : problem.times) {
            add_job(problem.waits, times, nodes);
        }
    }

    // The seconds of a processor that the simplex takes. It is full, too, where not all jobs get a place.
    double solve(std::int64_t& total, bool& is_full) const {
        Simplex simplex(graph);
        simplex.costMap(costs).supplyMap(supplies).upperMap(capacities);
        const double start = seconds();
        const auto outcome = simplex.run();
        const double passed = seconds() - start;
        total = simplex.totalCost<std::int64_t>();
        is_full = outcome != Simplex::OPTIMAL || uses_a_last_place(simplex);
        return passed;
    }

private:
    Graph graph;
    Graph::ArcMap<std::int64_t> costs;
    Graph::ArcMap<std::int64_t> capacities;
    Graph::NodeMap<std::int64_t> supplies;
    // Whether an arc leads from a device's last place to the sink.
    Graph::ArcMap<bool> lasts;
    Graph::Node sink;

    // The seconds of a processor of this thread.
    static double seconds() {
        timespec time;
        clock_gettime(CLOCK_THREAD_CPUTIME_ID, &time);
        return static_cast<double>(time.tv_sec) + static_cast<double>(time.tv_nsec) / 1e9;
    }

    // Adds an arc that one job may take.
    Graph::Arc add_arc(Graph::Node from, Graph::Node to, std::int64_t cost) {
        const auto arc = graph.addArc(from, to);
        costs[arc] = cost;
        capacities[arc] = 1;
        return arc;
    }

    // Adds the places of each device, and returns their nodes.
    std::vector<std::vector<Graph::Node>> add_places(std::size_t devices, std::size_t places) {
        std::vector<std::vector<Graph::Node>> nodes(devices);
        for (auto& of_device : nodes) {
            for (std::size_t place = 1; place <= places; ++place) {
                of_device.push_back(graph.addNode());
                lasts[add_arc(of_device.back(), sink, 0)] = place == places;
            }
        }
        return nodes;
    }

    // Adds a job, with an arc to each place of a device that can print it.
    void add_job(const std::vector<std::int64_t>& waits, const std::vector<std::int64_t>& times,
                 const std::vector<std::vector<Graph::Node>>& nodes) {
        const auto job = graph.addNode();
        supplies[job] = 1;
        for (std::size_t device = 0; device < waits.size(); ++device) {
            if (times[device] != NOT_ABLE) {
                add_arcs(job, waits[device], times[device], nodes[device]);
            }
        }
    }

    // Adds the arcs from a job to the places of a device.
    void add_arcs(Graph::Node job, std::int64_t wait, std::int64_t time, const std::vector<Graph::Node>& places) {
        std::int64_t cost = wait;
        for (const auto place : places) {
            cost += time;
            add_arc(job, place, cost);
        }
    }

    bool uses_a_last_place(const Simplex& simplex) const {
        for (Graph::ArcIt arc(graph); arc != lemon::INVALID; ++arc) {
            if (lasts[arc] && simplex.flow(arc) > 0) {
                return true;
            }
        }
        return false;
    }
};

// Writes the least total of a class, and the seconds of a processor.
void plan(const Problem& problem) {
    const std::size_t jobs = problem.times.size();
    const std::size_t devices = problem.waits.size();
    std::size_t places = std::min(jobs, FACTOR * ((jobs + devices - 1) / devices));
    std::int64_t total = 0;
    bool is_full = true;
    double passed = Network(problem, places).solve(total, is_full);
    while (is_full && places < jobs) {
        places = std::min(jobs, 2 * places);
        passed += Network(problem, places).solve(total, is_full);
    }
    std::printf("%lld %.9f\n", static_cast<long long>(total), passed);
}

int main(int count, char** words) {
    if (count != 5) {
        return 2;
    }
    Random random{std::max<std::uint64_t>(1, std::strtoull(words[3], nullptr, 10))};
    for (int left = std::atoi(words[4]); left > 0; --left) {
        plan(made_problem(random, std::strtoul(words[1], nullptr, 10), std::strtoul(words[2], nullptr, 10)));
    }
    return 0;
}
