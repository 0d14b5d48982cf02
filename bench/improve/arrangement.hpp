// Facilities at locations, and what an exchange of two changes the cost by (Burkard and Rendl 1984), for both programs; and the
// matrices that these are timed on.
//
// The distances are kept in the order of the facilities, with both matrices transposed beside them, so that a difference
// reads eight rows from left to right; entries have 32 bits, products 64.
#pragma once
#include <algorithm>
#include <cstdint>
#include <utility>
#include <vector>

struct Arrangement {
    const int n;
    std::vector<int32_t> a, across, b, backward;
    std::vector<uint16_t> locations;

    Arrangement(int n, const std::vector<int64_t> &flows, const std::vector<int64_t> &distances, std::vector<uint16_t> start)
        : n(n), a(size_t(n) * n), across(a), b(a), backward(a), locations(std::move(start)) {
        for (int i = 0; i < n; i++)
            for (int j = 0; j < n; j++) {
                a[size_t(i) * n + j] = across[size_t(j) * n + i] = int32_t(flows[size_t(i) * n + j]);
                const int32_t distance = int32_t(distances[size_t(locations[i]) * n + locations[j]]);
                b[size_t(i) * n + j] = backward[size_t(j) * n + i] = distance;
            }
    }

    template <class Sum> Sum difference(int r, int s) const {
        const int32_t *__restrict ar = &a[size_t(r) * n], *__restrict as = &a[size_t(s) * n];
        const int32_t *__restrict cr = &across[size_t(r) * n], *__restrict cs = &across[size_t(s) * n];
        const int32_t *__restrict br = &b[size_t(r) * n], *__restrict bs = &b[size_t(s) * n];
        const int32_t *__restrict dr = &backward[size_t(r) * n], *__restrict ds = &backward[size_t(s) * n];
        auto with = [&](int k) {
            return int64_t(cr[k] - cs[k]) * (ds[k] - dr[k]) + int64_t(ar[k] - as[k]) * (bs[k] - br[k]);
        };
        Sum total = 0;
        for (int k = 0; k < n; k++) total += with(k);
        total -= with(r);
        total -= with(s);
        return total + int64_t(ar[r] - as[s]) * (bs[s] - br[r]) + int64_t(ar[s] - as[r]) * (bs[r] - br[s]);
    }

    void exchange(int r, int s) {
        std::swap(locations[r], locations[s]);
        for (auto *matrix : {&b, &backward}) {
            std::swap_ranges(&(*matrix)[size_t(r) * n], &(*matrix)[size_t(r) * n] + n, &(*matrix)[size_t(s) * n]);
            for (int k = 0; k < n; k++) std::swap((*matrix)[size_t(k) * n + r], (*matrix)[size_t(k) * n + s]);
        }
    }
};

// The next number of Knuth's linear congruential generator of 64 bits.
inline uint64_t next(uint64_t state) { return state * 6364136223846793005u + 1442695040888963407u; }

// An n by n matrix of numbers from 0 to 99 that the generator gives from this state.
inline std::vector<int64_t> entries(int n, uint64_t seed) {
    std::vector<int64_t> entries;
    uint64_t state = seed;
    for (int k = 0; k < n * n; k++) {
        state = next(state);
        entries.push_back(uint32_t(state >> 33) % 100);
    }
    return entries;
}
