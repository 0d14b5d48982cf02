// Robust tabu search (Taillard 1991), timed on an instance of each size: prints for each size the nanoseconds and the least
// cost that was found. It draws the same random numbers as ours and breaks ties alike, so it goes the same way.
//
// What an exchange changes is prepared once for each facility in 32 bits, and then a pair takes two products; sums have 64
// bits. A pair that costs no less than the best so far is passed over after one look at the memory, unless it may be due.
#include "arrangement.hpp"
#include <algorithm>
#include <chrono>
#include <cstdint>
#include <cstdio>
#include <numeric>
#include <utility>
#include <vector>

// xoshiro256++ of Blackman and Vigna, seeded by SplitMix64.
class Random {
    uint64_t s[4];

    static uint64_t rotated(uint64_t x, int k) { return x << k | x >> (64 - k); }

  public:
    explicit Random(uint64_t seed) {
        for (uint64_t &word : s) {
            uint64_t z = seed += 0x9e3779b97f4a7c15u;
            z = (z ^ z >> 30) * 0xbf58476d1ce4e5b9u;
            z = (z ^ z >> 27) * 0x94d049bb133111ebu;
            word = z ^ z >> 31;
        }
    }

    uint64_t next() {
        const uint64_t word = rotated(s[0] + s[3], 23) + s[0], t = s[1] << 17;
        s[2] ^= s[0];
        s[3] ^= s[1];
        s[1] ^= s[2];
        s[0] ^= s[3];
        s[2] ^= t;
        s[3] = rotated(s[3], 45);
        return word;
    }
};

class Search : Arrangement {
    std::vector<int64_t> differences;
    std::vector<int32_t> flow, flow_back, distance, distance_back;
    std::vector<uint64_t> free_from;
    Random random;
    uint64_t now;
    int64_t cost = 0, best;

    static std::vector<uint16_t> identity(int n) {
        std::vector<uint16_t> locations(n);
        std::iota(locations.begin(), locations.end(), 0);
        return locations;
    }

    // Exchanges the two, and brings all differences up to that.
    void bring_up(int u, int v) {
        exchange(u, v);
        for (int k = 0; k < n; k++) {
            flow[k] = a[size_t(u) * n + k] - a[size_t(v) * n + k];
            flow_back[k] = across[size_t(u) * n + k] - across[size_t(v) * n + k];
            distance[k] = b[size_t(u) * n + k] - b[size_t(v) * n + k];
            distance_back[k] = backward[size_t(u) * n + k] - backward[size_t(v) * n + k];
        }
        for (int r = 0; r < n; r++)
            for (int s = r + 1; s < n; s++)
                differences[size_t(r) * n + s] += int64_t(flow[r] - flow[s]) * (distance[s] - distance[r]) +
                                                  int64_t(flow_back[r] - flow_back[s]) * (distance_back[s] - distance_back[r]);
        for (int k = 0; k < n; k++)
            for (int w : {u, v})
                if (k != w) differences[size_t(std::min(k, w)) * n + std::max(k, w)] = difference<int64_t>(std::min(k, w), std::max(k, w));
    }

    void leave(int facility) {
        const uint64_t least = 9 * n / 10, most = 11 * n / 10;
        free_from[size_t(facility) * n + locations[facility]] = now + least + random.next() % (most - least + 1);
    }

    void step() {
        int first = -1, second = -1;
        int64_t least = INT64_MAX;
        bool aspires = false;
        const uint64_t square = uint64_t(n) * n, long_ago = now > 5 * square ? now - 5 * square : 0;
        for (int r = 0; r < n; r++)
            for (int s = r + 1; s < n; s++) {
                const int64_t change = differences[size_t(r) * n + s];
                const uint64_t there = free_from[size_t(r) * n + locations[s]];
                if (change >= least && there >= long_ago) continue;
                const uint64_t back = free_from[size_t(s) * n + locations[r]];
                const bool aspiring = change < best - cost || std::max(there, back) < long_ago;
                if ((aspiring || std::min(there, back) <= now) && (aspiring == aspires ? change < least : aspiring)) {
                    first = r, second = s, least = change, aspires = aspiring;
                }
            }
        if (first < 0) return;
        leave(first);
        leave(second);
        bring_up(first, second);
        cost += least;
        best = std::min(best, cost);
    }

  public:
    Search(int n, const std::vector<int64_t> &flows, const std::vector<int64_t> &distances)
        : Arrangement(n, flows, distances, identity(n)), differences(size_t(n) * n), flow(n), flow_back(n), distance(n),
          distance_back(n), free_from(size_t(n) * n), random(1), now(uint64_t(n) * n) {
        std::iota(free_from.begin(), free_from.end(), 0);
        for (size_t k = 0; k < flows.size(); k++) cost += flows[k] * distances[k];
        for (int r = 0; r < n; r++)
            for (int s = r + 1; s < n; s++) differences[size_t(r) * n + s] = difference<int64_t>(r, s);
        best = cost;
    }

    int64_t run(int iterations) {
        for (int k = 0; k < iterations; k++) {
            now++;
            step();
        }
        return best;
    }
};

int main() {
    const std::pair<int, int> rows[] = {{12, 100000}, {20, 50000}, {30, 20000}, {64, 5000}, {128, 1000}};
    for (auto [n, iterations] : rows) {
        const auto flows = entries(n, 977), distances = entries(n, 978);
        const auto begin = std::chrono::steady_clock::now();
        const int64_t best = Search(n, flows, distances).run(iterations);
        const auto time = std::chrono::steady_clock::now() - begin;
        const long long nanoseconds = std::chrono::duration_cast<std::chrono::nanoseconds>(time).count();
        std::printf("%d %lld %lld\n", n, nanoseconds, (long long)best);
    }
}
