// The least assignment by shortest augmenting paths (Jonker and Volgenant 1987) on numbers of 128 bits, timed on many
// matrices of each size: prints for each size the nanoseconds and the sum of the costs.
#include <algorithm>
#include <chrono>
#include <cstdint>
#include <cstdio>
#include <string>
#include <utility>
#include <vector>

using Number = __int128;

struct Matrix {
    int size;
    std::vector<Number> entries;
};

struct Assignment {
    std::vector<uint16_t> matching;
    std::vector<Number> u, v;
};

static bool is_in_range(const Matrix &matrix) {
    const Number most = Number(1'000'000'000'000) * 1'000'000'000;
    for (Number x : matrix.entries)
        if (x > most || x < -most) return false;
    return true;
}

static Assignment solve(const Matrix &matrix) {
    const int n = matrix.size;
    Assignment answer{std::vector<uint16_t>(n), std::vector<Number>(n), std::vector<Number>(n)};
    auto &u = answer.u;
    auto &v = answer.v;
    std::vector<int> row_of(n, -1), columns(n), tree_rows(n), origins(n);
    std::vector<Number> row_distances(n), distances(n);
    for (int k = 0; k < n; k++) columns[k] = k;
    for (int root = 0; root < n; root++) {
        const Number *row = &matrix.entries[size_t(root) * n];
        for (int k = 0; k < n; k++) {
            distances[k] = row[k] - v[k];
            origins[k] = 0;
        }
        tree_rows[0] = root;
        row_distances[0] = 0;
        int done = 0;
        for (;;) {
            int best = done;
            for (int q = done + 1; q < n; q++)
                if (distances[columns[q]] < distances[columns[best]]) best = q;
            std::swap(columns[done], columns[best]);
            const int column = columns[done];
            if (row_of[column] < 0) break;
            const int next = row_of[column];
            done++;
            tree_rows[done] = next;
            row_distances[done] = distances[column];
            row = &matrix.entries[size_t(next) * n];
            const Number base = distances[column] - u[next];
            for (int q = done; q < n; q++) {
                const int k = columns[q];
                const Number distance = base + row[k] - v[k];
                if (distance < distances[k]) {
                    distances[k] = distance;
                    origins[k] = done;
                }
            }
        }
        int column = columns[done];
        const Number length = distances[column];
        for (int p = 0; p <= done; p++) u[tree_rows[p]] += length - row_distances[p];
        for (int q = 0; q < done; q++) v[columns[q]] -= length - distances[columns[q]];
        for (int place = origins[column]; place > 0; place = origins[column]) {
            answer.matching[tree_rows[place]] = uint16_t(column);
            row_of[column] = tree_rows[place];
            column = columns[place - 1];
        }
        answer.matching[root] = uint16_t(column);
        row_of[column] = root;
    }
    return answer;
}

static std::string decimal(Number x) {
    if (x == 0) return "0";
    std::string digits;
    for (Number rest = x < 0 ? -x : x; rest > 0; rest /= 10) digits += char('0' + int(rest % 10));
    if (x < 0) digits += '-';
    std::reverse(digits.begin(), digits.end());
    return digits;
}

int main() {
    const std::pair<int, int> runs[] = {{8, 20000}, {12, 10000}, {16, 6000}, {20, 4000}, {25, 2500}, {30, 1500}, {100, 60}};
    for (auto [size, count] : runs) {
        std::vector<Matrix> matrices;
        for (uint64_t seed = 0; seed < uint64_t(count); seed++) {
            uint64_t state = seed * 977;
            Matrix matrix{size, {}};
            for (int i = 0; i < size * size; i++) {
                state = state * 6364136223846793005u + 1442695040888963407u;
                matrix.entries.push_back(Number(state >> 20) - 8'796'093'022'208);
            }
            matrices.push_back(std::move(matrix));
        }
        const auto start = std::chrono::steady_clock::now();
        Number total = 0;
        for (const Matrix &matrix : matrices) {
            if (!is_in_range(matrix)) continue;
            const Assignment answer = solve(matrix);
            for (Number x : answer.u) total += x;
            for (Number x : answer.v) total += x;
        }
        const auto elapsed = std::chrono::steady_clock::now() - start;
        std::printf("%d %lld %s\n", size, (long long)std::chrono::duration_cast<std::chrono::nanoseconds>(elapsed).count(), decimal(total).c_str());
    }
}
