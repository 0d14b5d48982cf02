// The parts of the Gilmore-Lawler bound, timed on many nodes of each size and depth: the reduced matrix, its least assignment,
// and the test whether duals fit. Prints for each part the nanoseconds and a sum of what it answered.
//
// Rows are sorted once and kept in 32 bits, and picked without a branch; those of the facilities are kept from one node to the
// next where the same are placed, and in a walk those of the locations are made from the parent's. Products are added up in 64 bits
// where no sum of them can leave these, as the instance's largest entries show; else eight at a time, and then in 128, so that the
// whole range of entries is taken. Assignments are in 64 bits where the matrix's entries allow it, and else in 128; lists are kept from call to call.
#include <algorithm>
#include <chrono>
#include <cstdint>
#include <cstdio>
#include <cstdlib>
#include <cstring>
#include <numeric>
#include <string>
#include <utility>
#include <vector>

using Entry = std::int32_t;
using Wide = __int128;

struct Ranked {
    Entry value;
    std::uint16_t column;
};

struct Node {
    std::vector<std::uint16_t> facilities, places;
};

// One of the two matrices, with each row's entries in order.
struct Side {
    int n;
    std::vector<Entry> entries;
    std::vector<Ranked> ranked;

    Side(int size, std::vector<Entry> matrix, bool ascending) : n(size), entries(std::move(matrix)) {
        for (int i = 0; i < n; ++i) {
            for (int j = 0; j < n; ++j) ranked.push_back({entries[i * n + j], std::uint16_t(j)});
            std::sort(ranked.end() - n, ranked.end(), [&](const Ranked& x, const Ranked& y) {
                return ascending ? x.value < y.value : x.value > y.value;
            });
        }
    }
};

// The rows of one side for the free ones: with itself, with the placed ones both ways, and with the other free ones in order.
struct Factors {
    const Side& side;
    std::vector<std::uint16_t> placed, free_ones;
    std::vector<Entry> rows;
    std::vector<char> is_free;
    bool valid = false;

    explicit Factors(const Side& s) : side(s), rows(2 * s.n * s.n + s.n + 16), is_free(s.n) {}

    // The rows where these are placed, made from those where the last isn't.
    void make_behind(const Factors& parent, const std::vector<std::uint16_t>& taken) {
        const int n = side.n, last = taken.back(), linear = 2 * int(taken.size()) - 1, rest = n - int(taken.size()) - 1;
        placed = taken;
        valid = true;
        const Entry* in = parent.rows.data();
        Entry* row = rows.data();
        for (int k : parent.free_ones) {
            if (k != last) {
                const Entry gone = side.entries[k * n + last];
                // Blocks of four may read and write past a row's end: what follows is written over, and the lists are longer.
                for (int t = 0; t < linear; t += 4) std::memcpy(row + t, in + t, 4 * sizeof(Entry));
                row[linear] = gone;
                row[linear + 1] = side.entries[last * n + k];
                const Entry* from = in + linear;
                Entry* to = row + linear + 2;
                for (int t = 0; t < rest; t += 4)
                    for (int s = 0; s < 4; ++s) to[t + s] = from[t + s] > gone ? from[t + s] : from[t + s + 1];
                row += n + int(taken.size());
            }
            in += n + int(taken.size()) - 1;
        }
        free_ones.clear();
        for (int k : parent.free_ones)
            if (k != last) free_ones.push_back(std::uint16_t(k));
    }

    // Whether these are the rows of the parent where these are placed.
    bool is_before(const std::vector<std::uint16_t>& taken) const {
        return valid && placed.size() + 1 == taken.size() && std::equal(placed.begin(), placed.end(), taken.begin());
    }

    void make(const std::vector<std::uint16_t>& taken) {
        if (valid && taken == placed) return;
        const int n = side.n, depth = int(taken.size()), width = n + depth;
        placed = taken;
        valid = true;
        std::fill(is_free.begin(), is_free.end(), 1);
        for (int t : placed) is_free[t] = 0;
        free_ones.clear();
        for (int i = 0; i < n; ++i)
            if (is_free[i]) free_ones.push_back(std::uint16_t(i));
        for (std::size_t r = 0; r < free_ones.size(); ++r) {
            Entry* row = &rows[r * width];
            const int i = free_ones[r];
            *row++ = side.entries[i * n + i];
            for (int t : placed) {
                *row++ = side.entries[i * n + t];
                *row++ = side.entries[t * n + i];
            }
            const Ranked* rank = &side.ranked[i * n];
            for (int t = 0; t < n; ++t) {
                *row = rank[t].value;
                row += is_free[rank[t].column] & (rank[t].column != i);
            }
        }
    }
};

struct Reducer {
    Factors a, b;
    std::vector<Factors> levels;  // the rows of the distances for each depth
    bool narrow;                  // whether any 2 n products of an entry of one side and one of the other add up within 64 bits

    Reducer(const Side& flows, const Side& distances)
        : a(flows), b(distances), levels(flows.n + 1, Factors(distances)),
          narrow(Wide(2 * flows.n) * greatest(flows) * greatest(distances) < Wide(1) << 62) {}

    static std::int64_t greatest(const Side& side) {
        std::int64_t most = 0;
        for (Entry entry : side.entries) most = std::max(most, std::abs(std::int64_t(entry)));
        return most;
    }

    static std::int64_t narrow_product(const Entry* x, const Entry* y, int width) {
        std::int64_t sum = 0;
        for (int t = 0; t < width; ++t) sum += std::int64_t(x[t]) * y[t];
        return sum;
    }

    static Wide wide_product(const Entry* x, const Entry* y, int width) {
        Wide total = 0;
        int t = 0;
        for (; t + 8 <= width; t += 8) {
            std::int64_t sum = 0;
            for (int s = 0; s < 8; ++s) sum += std::int64_t(x[t + s]) * y[t + s];
            total += sum;
        }
        return total + narrow_product(x + t, y + t, width - t);
    }

    void reduced(const Node& node, std::vector<Wide>& matrix) {
        a.make(node.facilities);
        b.make(node.places);
        multiply(node, b, matrix);
    }

    // The same as a worker asks for it: a node's rows of the distances are made from those of its parent, where these are kept.
    void reduced_in_walk(const Node& node, std::vector<Wide>& matrix) {
        const int depth = int(node.places.size());
        a.make(node.facilities);
        if (depth > 0 && levels[depth - 1].is_before(node.places))
            levels[depth].make_behind(levels[depth - 1], node.places);
        else
            levels[depth].make(node.places);
        multiply(node, levels[depth], matrix);
    }

    void multiply(const Node& node, const Factors& distances, std::vector<Wide>& matrix) const {
        const int depth = int(node.facilities.size()), m = a.side.n - depth, width = a.side.n + depth;
        matrix.resize(m * m);
        for (int r = 0; r < m; ++r)
            for (int c = 0; c < m; ++c) {
                const Entry *x = &a.rows[r * width], *y = &distances.rows[c * width];
                matrix[r * m + c] = narrow ? Wide(narrow_product(x, y, width)) : wide_product(x, y, width);
            }
    }
};

struct Answer {
    std::vector<std::uint16_t> matching;
    std::vector<Wide> u, v;
};

// A least assignment of a square matrix with its duals (Jonker and Volgenant 1987).
template <class Number>
struct Assignment {
    std::vector<Number> entries, u, v, row_distances, distances;
    std::vector<int> matching, row_of, columns, tree_rows, origins;

    void solve(int m, const std::vector<Wide>& matrix) {
        entries.assign(matrix.begin(), matrix.end());
        u.assign(m, 0), v.assign(m, 0), row_distances.resize(m), distances.resize(m);
        matching.resize(m), row_of.assign(m, -1), columns.resize(m), tree_rows.resize(m), origins.resize(m);
        std::iota(columns.begin(), columns.end(), 0);
        for (int root = 0; root < m; ++root) place(m, root);
    }

    void place(int m, int root) {
        const Number* row = &entries[root * m];
        int best = 0;
        for (int k = 0; k < m; ++k) distances[k] = row[k] - v[k], origins[k] = 0;
        for (int q = 1; q < m; ++q)
            if (distances[columns[q]] < distances[columns[best]]) best = q;
        tree_rows[0] = root;
        row_distances[0] = 0;
        int done = 0;
        for (;;) {
            std::swap(columns[done], columns[best]);
            const int column = columns[done], next = row_of[column];
            if (next < 0) break;
            ++done;
            tree_rows[done] = next;
            row_distances[done] = distances[column];
            row = &entries[next * m];
            const Number base = distances[column] - u[next];
            Number least = 0;
            best = done;
            for (int q = done; q < m; ++q) {
                const int k = columns[q];
                const Number distance = base + row[k] - v[k];
                if (distance < distances[k]) distances[k] = distance, origins[k] = done;
                if (q == done || distances[k] < least) least = distances[k], best = q;
            }
        }
        int column = columns[done];
        const Number length = distances[column];
        for (int p = 0; p <= done; ++p) u[tree_rows[p]] += length - row_distances[p];
        for (int q = 0; q < done; ++q) v[columns[q]] -= length - distances[columns[q]];
        for (int at = origins[column]; at > 0; at = origins[column]) {
            matching[tree_rows[at]] = column;
            row_of[column] = tree_rows[at];
            column = columns[at - 1];
        }
        matching[root] = column;
        row_of[column] = root;
    }

    Answer answer() const { return {{matching.begin(), matching.end()}, {u.begin(), u.end()}, {v.begin(), v.end()}}; }
};

struct Solver {
    Assignment<std::int64_t> narrow;
    Assignment<Wide> wide;

    Answer solve(int m, const std::vector<Wide>& matrix) {
        const Wide most = 1'000'000'000'000'000'000;
        bool fits = true;
        for (Wide x : matrix) fits &= x <= most && x >= -most;
        if (fits) return narrow.solve(m, matrix), narrow.answer();
        return wide.solve(m, matrix), wide.answer();
    }
};

static bool fits(int m, const std::vector<Wide>& matrix, const Answer& answer) {
    for (int i = 0; i < m; ++i)
        for (int k = 0; k < m; ++k)
            if (answer.u[i] + answer.v[k] > matrix[i * m + k]) return false;
    return true;
}

static bool limited(const std::vector<Wide>& numbers) {
    const Wide most = Wide(1'000'000'000'000) * 1'000'000'000'000;
    for (Wide x : numbers)
        if (x > most || x < -most) return false;
    return true;
}

static std::uint64_t next(std::uint64_t state) { return state * 6364136223846793005u + 1442695040888963407u; }

static std::vector<Entry> generated(int count, std::uint64_t seed, std::int64_t far) {
    std::vector<Entry> numbers;
    for (int k = 0; k < count; ++k) {
        seed = next(seed);
        numbers.push_back(Entry(std::int64_t(seed >> 20) % (2 * far + 1) - far));
    }
    return numbers;
}

static std::vector<Node> families(int n, int depth, int count, bool with_parents) {
    std::vector<Node> nodes;
    const auto holds = [](const std::vector<std::uint16_t>& list, int x) { return std::find(list.begin(), list.end(), x) != list.end(); };
    for (std::uint64_t seed = 0; int(nodes.size()) < count; ++seed) {
        Node node;
        std::uint64_t state = seed * 977;
        for (int turn = 0; turn < 1000; ++turn) {
            if (int(node.facilities.size()) >= depth - 1) continue;
            state = next(state);
            const std::uint16_t f = (state >> 20) % n;
            state = next(state);
            const std::uint16_t k = (state >> 20) % n;
            if (!holds(node.facilities, f) && !holds(node.places, k)) node.facilities.push_back(f), node.places.push_back(k);
        }
        if (depth == 0) {
            nodes.push_back(node);
            continue;
        }
        if (with_parents) nodes.push_back(node);
        std::uint16_t f = 0;
        while (holds(node.facilities, f)) ++f;
        for (std::uint16_t k = 0; k < n; ++k)
            if (!holds(node.places, k)) {
                nodes.push_back(node);
                nodes.back().facilities.push_back(f);
                nodes.back().places.push_back(k);
            }
    }
    return nodes;
}

static Wide total(const std::vector<Wide>& numbers) {
    Wide sum = 0;
    for (Wide x : numbers) sum += x;
    return sum;
}

static std::string decimal(Wide x) {
    if (x == 0) return "0";
    std::string digits;
    for (Wide rest = x < 0 ? -x : x; rest > 0; rest /= 10) digits += char('0' + int(rest % 10));
    if (x < 0) digits += '-';
    std::reverse(digits.begin(), digits.end());
    return digits;
}

static long long since(std::chrono::steady_clock::time_point start) {
    return std::chrono::duration_cast<std::chrono::nanoseconds>(std::chrono::steady_clock::now() - start).count();
}

static void run(int n, int depth, std::int64_t far, int count) {
    const Side a(n, generated(n * n, 1, far), true), b(n, generated(n * n, 2, far), false);
    const std::vector<Node> nodes = families(n, depth, count, false), walked = families(n, depth, count, true);
    const int m = n - depth;
    std::vector<std::vector<Wide>> matrices(nodes.size());
    {
        Reducer reducer(a, b);
        for (std::size_t k = 0; k < nodes.size(); ++k) reducer.reduced(nodes[k], matrices[k]);
    }
    auto start = std::chrono::steady_clock::now();
    Wide entries = 0;
    Reducer reducer(a, b);
    std::vector<Wide> matrix;
    for (const Node& node : nodes) {
        reducer.reduced(node, matrix);
        entries += total(matrix);
    }
    const long long reducing = since(start);
    start = std::chrono::steady_clock::now();
    Wide kept = 0;
    Reducer walker(a, b);
    for (const Node& node : walked) {
        walker.reduced_in_walk(node, matrix);
        kept += total(matrix);
    }
    const long long keeping = since(start);
    start = std::chrono::steady_clock::now();
    std::vector<Answer> answers;
    answers.reserve(nodes.size());
    Solver solver;
    for (const auto& each : matrices) answers.push_back(solver.solve(m, each));
    const long long assigning = since(start);
    start = std::chrono::steady_clock::now();
    std::size_t fitting = 0;
    for (std::size_t k = 0; k < nodes.size(); ++k)
        fitting += limited(answers[k].u) && limited(answers[k].v) && fits(m, matrices[k], answers[k]);
    const long long testing = since(start);
    Wide duals = 0;
    for (const Answer& answer : answers) duals += total(answer.u) + total(answer.v);
    std::printf("%d %d %lld %zu %zu %lld %lld %lld %lld %s %s %s %zu\n", n, depth, (long long)far, nodes.size(), walked.size(), reducing,
                keeping, assigning, testing, decimal(entries).c_str(), decimal(kept).c_str(), decimal(duals).c_str(), fitting);
}

int main() {
    run(12, 0, 10, 5000);
    run(12, 2, 10, 5000);
    run(12, 4, 10, 10000);
    run(12, 4, 1'000'000'000, 10000);
    run(20, 0, 10, 2000);
    run(20, 3, 10, 3000);
    run(20, 3, 1'000'000'000, 3000);
    run(30, 0, 10, 500);
    run(30, 5, 10, 1000);
}
