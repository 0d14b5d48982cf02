// A plain search for a least permutation: the same as qapsolve solve with one worker, with sums of 64 bits, no tuples and
// no proof. It begins with the identity, works on the newest node first, bounds it by Gilmore and Lawler with rows that were
// sorted once, and splits on the free facility whose matched entry is greatest. It prints the solution's text and, on
// standard error, how many nodes it decided. Usage: solver < INSTANCE
#include <algorithm>
#include <cstdint>
#include <cstdio>
#include <cstdlib>
#include <numeric>
#include <utility>
#include <vector>

using Number = std::int64_t;
using Entry = std::int32_t;

struct Ranked {
    Entry value;
    int column;
};

// One of the two matrices, with each row's entries in order.
struct Side {
    int n;
    std::vector<Entry> entries;
    std::vector<Ranked> ranked;

    Side(int size, std::vector<Entry> matrix, bool ascending) : n(size), entries(std::move(matrix)) {
        for (int i = 0; i < n; ++i) {
            for (int j = 0; j < n; ++j) ranked.push_back({entries[i * n + j], j});
            std::sort(ranked.end() - n, ranked.end(), [&](const Ranked& x, const Ranked& y) {
                return ascending ? x.value < y.value : x.value > y.value;
            });
        }
    }

    Number at(int i, int j) const { return entries[i * n + j]; }

    // A row of factors: with itself, with the placed ones both ways, and with the other free ones in order.
    void factors(int i, const int* placed, int depth, const char* free, Entry* row) const {
        *row++ = entries[i * n + i];
        for (int t = 0; t < depth; ++t) *row++ = entries[i * n + placed[t]];
        for (int t = 0; t < depth; ++t) *row++ = entries[placed[t] * n + i];
        const Ranked* rank = &ranked[i * n];
        for (int t = 0; t < n; ++t) {
            *row = rank[t].value;
            row += free[rank[t].column] & (rank[t].column != i);
        }
    }
};

// A least assignment of a square matrix with its duals (Jonker and Volgenant 1987).
struct Assignment {
    std::vector<int> matching, row_of, columns, tree_rows, origins;
    std::vector<Number> u, v, row_distances, distances;

    explicit Assignment(int n)
        : matching(n), row_of(n), columns(n), tree_rows(n), origins(n), u(n), v(n), row_distances(n), distances(n) {}

    void solve(int m, const Number* matrix) {
        std::fill_n(u.begin(), m, 0);
        std::fill_n(v.begin(), m, 0);
        std::fill_n(row_of.begin(), m, -1);
        std::iota(columns.begin(), columns.begin() + m, 0);
        for (int root = 0; root < m; ++root) place(m, matrix, root);
    }

    void place(int m, const Number* matrix, int root) {
        const Number* row = matrix + root * m;
        for (int k = 0; k < m; ++k) distances[k] = row[k] - v[k], origins[k] = 0;
        tree_rows[0] = root;
        row_distances[0] = 0;
        int done = 0;
        for (;;) {
            int best = done;
            for (int q = done + 1; q < m; ++q)
                if (distances[columns[q]] <= distances[columns[best]]) best = q;
            std::swap(columns[done], columns[best]);
            const int column = columns[done];
            const int next = row_of[column];
            if (next < 0) break;
            ++done;
            tree_rows[done] = next;
            row_distances[done] = distances[column];
            row = matrix + next * m;
            const Number base = distances[column] - u[next];
            for (int q = done; q < m; ++q) {
                const int k = columns[q];
                const Number distance = base + row[k] - v[k];
                if (distance < distances[k]) distances[k] = distance, origins[k] = done;
            }
        }
        int column = columns[done];
        const Number length = distances[column];
        for (int p = 0; p <= done; ++p) u[tree_rows[p]] += length - row_distances[p];
        for (int q = 0; q < done; ++q) v[columns[q]] -= length - distances[columns[q]];
        for (int at = origins[column]; at > 0; at = origins[column]) {
            matching[tree_rows[at]] = column;
            row_of[column] = tree_rows[at];
            column = columns[at - 1];
        }
        matching[root] = column;
        row_of[column] = root;
    }
};

struct Search {
    const Side &a, &b;
    const int n;
    Assignment assignment;
    std::vector<Entry> a_rows, b_rows;
    std::vector<Number> matrix;
    std::vector<int> facilities, locations, candidate, best;
    std::vector<char> facility_free, location_free;
    // Nodes one after another, each as its depth, its facilities and their places.
    std::vector<int> open;
    Number best_cost;
    long nodes = 0;

    Search(const Side& flows, const Side& distances)
        : a(flows), b(distances), n(a.n), assignment(n), a_rows(2 * n * n + n), b_rows(2 * n * n + n), matrix(n * n),
          facilities(n), locations(n), candidate(n), best(n), facility_free(n), location_free(n) {
        std::iota(best.begin(), best.end(), 0);
        best_cost = cost(best);
    }

    Number cost(const std::vector<int>& p) const {
        Number sum = 0;
        for (int i = 0; i < n; ++i)
            for (int j = 0; j < n; ++j) sum += a.at(i, j) * b.at(p[i], p[j]);
        return sum;
    }

    // Decides one node: closes it, or puts its children on the list of open nodes.
    void decide(const int* placed, const int* places, int depth) {
        const int m = n - depth, width = n + depth;
        std::fill(facility_free.begin(), facility_free.end(), 1);
        std::fill(location_free.begin(), location_free.end(), 1);
        for (int t = 0; t < depth; ++t) facility_free[placed[t]] = location_free[places[t]] = 0, candidate[placed[t]] = places[t];
        for (int i = 0, r = 0; i < n; ++i)
            if (facility_free[i]) facilities[r++] = i;
        for (int k = 0, r = 0; k < n; ++k)
            if (location_free[k]) locations[r++] = k;
        for (int r = 0; r < m; ++r) a.factors(facilities[r], placed, depth, facility_free.data(), &a_rows[r * width]);
        for (int r = 0; r < m; ++r) b.factors(locations[r], places, depth, location_free.data(), &b_rows[r * width]);
        for (int r = 0; r < m; ++r)
            for (int s = 0; s < m; ++s) {
                const Entry *x = &a_rows[r * width], *y = &b_rows[s * width];
                Number sum = 0;
                for (int t = 0; t < width; ++t) sum += Number(x[t]) * y[t];
                matrix[r * m + s] = sum;
            }
        assignment.solve(m, matrix.data());
        Number value = 0;
        for (int s = 0; s < depth; ++s)
            for (int t = 0; t < depth; ++t) value += a.at(placed[s], placed[t]) * b.at(places[s], places[t]);
        int branch = 0;
        Number greatest = 0;
        for (int r = 0; r < m; ++r) {
            const int column = assignment.matching[r];
            const Number matched = assignment.u[r] + assignment.v[column];
            value += matched;
            candidate[facilities[r]] = locations[column];
            if (r == 0 || matched > greatest) branch = r, greatest = matched;
        }
        const Number reached = cost(candidate);
        if (reached < best_cost) best_cost = reached, best = candidate;
        ++nodes;
        if (value >= best_cost) return;
        for (int r = 0; r < m; ++r) {
            open.insert(open.end(), placed, placed + depth);
            open.push_back(facilities[branch]);
            open.insert(open.end(), places, places + depth);
            open.push_back(locations[r]);
            open.push_back(depth + 1);
        }
    }

    void run() {
        std::vector<int> placed, places;
        open.push_back(0);
        while (!open.empty()) {
            const int depth = open.back();
            open.pop_back();
            places.assign(open.end() - depth, open.end());
            open.resize(open.size() - depth);
            placed.assign(open.end() - depth, open.end());
            open.resize(open.size() - depth);
            decide(placed.data(), places.data(), depth);
        }
    }
};

static std::vector<Entry> read(int count) {
    std::vector<Entry> numbers(count);
    for (Entry& number : numbers)
        if (std::scanf("%d", &number) != 1) std::exit(1);
    return numbers;
}

int main() {
    const int n = read(1)[0];
    const Side a(n, read(n * n), true), b(n, read(n * n), false);
    Search search(a, b);
    search.run();
    std::printf("%d %lld\n", n, static_cast<long long>(search.best_cost));
    for (int i = 0; i < n; ++i) std::printf(i + 1 < n ? "%d " : "%d\n", search.best[i] + 1);
    std::fprintf(stderr, "%ld\n", search.nodes);
}
