// The descent by exchanges of two facilities' locations, timed on many instances of each size: prints for each size the
// nanoseconds and the sum of the costs. The pairs are tried in order, and each that gains is exchanged at once.
//
// Where n products of the greatest entries don't fit 64 bits, the sum of a difference has 128.
#include "arrangement.hpp"
#include <algorithm>
#include <chrono>
#include <cstdint>
#include <cstdio>
#include <cstdlib>
#include <numeric>
#include <utility>
#include <vector>

struct Instance {
    int size;
    std::vector<int64_t> a, b;
};

class Descent {
    const Instance &instance;
    Arrangement facilities;
    bool narrow;

    static int64_t greatest(const std::vector<int64_t> &entries) {
        int64_t most = 0;
        for (int64_t x : entries) most = std::max<int64_t>(most, std::abs(x));
        return most;
    }

    bool gains(int r, int s) const {
        return narrow ? facilities.difference<int64_t>(r, s) < 0 : facilities.difference<__int128>(r, s) < 0;
    }

  public:
    Descent(const Instance &instance, const std::vector<uint16_t> &start)
        : instance(instance), facilities(instance.size, instance.a, instance.b, start),
          narrow(greatest(instance.a) * greatest(instance.b) < INT64_MAX / (8 * (instance.size + 3))) {}

    __int128 run() {
        const int n = instance.size;
        for (bool gained = true; gained;) {
            gained = false;
            for (int r = 0; r < n; r++)
                for (int s = r + 1; s < n; s++)
                    if (gains(r, s)) {
                        facilities.exchange(r, s);
                        gained = true;
                    }
        }
        __int128 cost = 0;
        for (int i = 0; i < n; i++)
            for (int j = 0; j < n; j++)
                cost += instance.a[size_t(i) * n + j] * instance.b[size_t(facilities.locations[i]) * n + facilities.locations[j]];
        return cost;
    }
};

int main() {
    const std::pair<int, int> rows[] = {{12, 2000}, {20, 400}, {30, 120}, {64, 10}, {128, 1}};
    for (auto [n, count] : rows) {
        std::vector<Instance> instances;
        for (int seed = 0; seed < count; seed++)
            instances.push_back({n, entries(n, uint64_t(seed) * 977), entries(n, uint64_t(seed) * 977 + 1)});
        std::vector<uint16_t> start(n);
        std::iota(start.begin(), start.end(), 0);
        const auto begin = std::chrono::steady_clock::now();
        __int128 total = 0;
        for (const Instance &instance : instances) total += Descent(instance, start).run();
        const auto time = std::chrono::steady_clock::now() - begin;
        const long long nanoseconds = std::chrono::duration_cast<std::chrono::nanoseconds>(time).count();
        std::printf("%d %lld %lld\n", n, nanoseconds, (long long)total);
    }
}
