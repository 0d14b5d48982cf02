// A plain checker of certificates: the same mathematics as qapcheck optimal in the best form that we know, with no proof. Rows are
// sorted once and kept in 32 bits, and picked without a branch; those of the facilities are kept for each depth, at which the
// same ones are always placed. Products are added up in 64 bits where no sum of them can leave these, as the instance's largest
// entries show; else eight at a time, and then in 128. The cost of what is placed has 128 bits, duals have 64. A line is read
// where it stands, each list has one buffer, and what is placed costs what its parent does and what the last one adds.
// It prints "optimal C", or "refused" and a status of 1. Usage: checker INSTANCE CERTIFICATE
#include <algorithm>
#include <charconv>
#include <cstdint>
#include <cstdio>
#include <cstdlib>
#include <cstring>
#include <string>
#include <string_view>
#include <vector>

using Number = std::int64_t;
using Entry = std::int32_t;
using Wide = __int128;

struct Ranked {
    Entry value;
    std::int32_t column;
};

static void refuse() {
    std::puts("refused");
    std::exit(1);
}

static std::string contents(const char* name) {
    std::FILE* file = std::fopen(name, "rb");
    if (!file) refuse();
    std::fseek(file, 0, SEEK_END);
    std::string text(static_cast<std::size_t>(std::ftell(file)), '\0');
    std::rewind(file);
    if (std::fread(text.data(), 1, text.size(), file) != text.size()) refuse();
    std::fclose(file);
    return text;
}

struct Instance {
    int n = 0;
    std::vector<Entry> a, b;
    std::vector<Ranked> a_ranked, b_ranked;
    bool narrow = false;  // whether any 2 n products of an entry of a and one of b add up within 64 bits

    explicit Instance(const std::string& text) {
        const char* at = text.data();
        const char* end = at + text.size();
        auto next = [&] {
            while (at < end && (*at == ' ' || *at == ',' || (*at >= 9 && *at <= 13))) ++at;
            Number value = 0;
            auto [stop, error] = std::from_chars(at, end, value);
            if (error != std::errc()) refuse();
            at = stop;
            return value;
        };
        n = static_cast<int>(next());
        for (auto* matrix : {&a, &b})
            for (int k = 0; k < n * n; ++k) matrix->push_back(static_cast<Entry>(next()));
        a_ranked = ranked(a, true);
        b_ranked = ranked(b, false);
        narrow = Wide(2 * n) * greatest(a) * greatest(b) < Wide(1) << 62;
    }

    static Number greatest(const std::vector<Entry>& matrix) {
        Number most = 0;
        for (Number entry : matrix) most = std::max(most, std::abs(entry));
        return most;
    }

    std::vector<Ranked> ranked(const std::vector<Entry>& matrix, bool ascending) const {
        std::vector<Ranked> rows;
        for (int i = 0; i < n; ++i) {
            for (int j = 0; j < n; ++j) rows.push_back({matrix[i * n + j], j});
            std::sort(rows.end() - n, rows.end(), [&](const Ranked& x, const Ranked& y) {
                return ascending ? x.value < y.value : x.value > y.value;
            });
        }
        return rows;
    }
};

struct Checker {
    const Instance& instance;
    const char* at;
    const char* end;
    Number cost = 0;
    std::vector<int> places;
    std::vector<char> taken;
    std::vector<std::vector<Entry>> a_rows;  // for each depth; empty until they are needed
    std::vector<Entry> b_rows;
    std::vector<std::vector<Entry>> parents;  // the rows of the locations at each depth, where they are made
    std::vector<char> made;
    std::vector<Number> found;

    std::string_view line() {
        const void* stop = std::memchr(at, '\n', end - at);
        if (!stop) refuse();
        std::string_view text(at, static_cast<const char*>(stop) - at);
        at = text.data() + text.size() + 1;
        return text;
    }

    // The numbers of a line behind its name, each behind one blank.
    const std::vector<Number>& numbers(std::string_view line, std::string_view name) {
        found.clear();
        if (line.substr(0, name.size()) != name) refuse();
        const char* next = line.data() + name.size();
        const char* stop = line.data() + line.size();
        while (next < stop) {
            if (*next++ != ' ') refuse();
            Number value = 0;
            auto [behind, error] = std::from_chars(next, stop, value);
            if (error != std::errc()) refuse();
            found.push_back(value);
            next = behind;
        }
        return found;
    }

    // The row of one side for a free one: with itself, with the placed ones both ways, and with the other free ones in order.
    void row(const std::vector<Entry>& matrix, const std::vector<Ranked>& ranked, const std::vector<int>& placed,
             const std::vector<char>& used, int i, Entry* row) {
        int n = instance.n;
        *row++ = matrix[i * n + i];
        for (int h : placed) {
                *row++ = matrix[i * n + h];
                *row++ = matrix[h * n + i];
            }
        const Ranked* rank = &ranked[i * n];
        for (int r = 0; r < n; ++r) {
            *row = rank[r].value;
            row += !used[rank[r].column] & (rank[r].column != i);
        }
    }

    static Number narrow_product(const Entry* x, const Entry* y, int width) {
        Number sum = 0;
        for (int t = 0; t < width; ++t) sum += Number(x[t]) * y[t];
        return sum;
    }

    static Wide wide_product(const Entry* x, const Entry* y, int width) {
        Wide total = 0;
        for (int t = 0; t < width; t += 8) total += narrow_product(x + t, y + t, std::min(8, width - t));
        return total;
    }

    // The rows of the facilities, of which the first ones are placed.
    const std::vector<Entry>& facility_rows(int d) {
        std::vector<Entry>& rows = a_rows[d];
        if (!rows.empty()) return rows;
        int n = instance.n;
        std::vector<int> facilities(d);
        std::vector<char> used(n, 0);
        for (int i = 0; i < d; ++i) facilities[i] = i, used[i] = 1;
        rows.resize((n - d) * (n + d) + n);
        for (int i = d; i < n; ++i) row(instance.a, instance.a_ranked, facilities, used, i, &rows[(i - d) * (n + d)]);
        return rows;
    }

    bool fits(const std::vector<Entry>& a_rows, int m, int width) const {
        for (int i = 0; i < m; ++i)
            for (int k = 0; k < m; ++k) {
                const Entry* x = &a_rows[i * width];
                const Entry* y = &b_rows[k * width];
                Number u = found[i], v = found[m + k], least;
                if (instance.narrow && !__builtin_add_overflow(u, v, &least)) {
                    if (least > narrow_product(x, y, width)) return false;
                } else if (Wide(u) + v > wide_product(x, y, width)) {
                    return false;
                }
            }
        return true;
    }

    // The rows of the locations at depth d, where the last one placed is taken back.
    void make_parent(int d) {
        int n = instance.n, last = places[d];
        std::vector<Entry>& rows = parents[d];
        rows.resize((n - d) * (n + d) + n + 8);
        places.pop_back();
        taken[last] = 0;
        for (int k = 0, c = 0; k < n; ++k)
            if (!taken[k]) row(instance.b, instance.b_ranked, places, taken, k, &rows[c++ * (n + d)]);
        places.push_back(last);
        taken[last] = 1;
        made[d] = 1;
    }

    // The rows of the locations from those of the parent, which stands at depth d.
    void child_rows(int d) {
        if (!made[d]) make_parent(d);
        int n = instance.n, k0 = places[d], linear = 1 + 2 * d, rest = n - d - 2, width = n + d;
        const Entry* in = parents[d].data();
        Entry* out = b_rows.data();
        for (int k = 0; k < n; ++k) {
            if (taken[k] & (k != k0)) continue;
            if (k != k0) {
                Entry gone = instance.b[k * n + k0];
                for (int t = 0; t < linear; t += 4) std::memcpy(out + t, in + t, 16);
                out[linear] = gone;
                out[linear + 1] = instance.b[k0 * n + k];
                const Entry* from = in + linear;
                Entry* to = out + linear + 2;
                // Blocks of four may read and write past a row's end: what follows is written over, and the lists are longer.
                for (int t = 0; t < rest; t += 4)
                    for (int s = 0; s < 4; ++s) to[t + s] = from[t + s] > gone ? from[t + s] : from[t + s + 1];
                out += width + 1;
            }
            in += width;
        }
    }

    // What the facility that is placed next costs at this location with itself and with those that are placed.
    Wide added(int k) const {
        int n = instance.n, d = static_cast<int>(places.size());
        Wide sum = Number(instance.a[d * n + d]) * instance.b[k * n + k];
        for (int t = 0; t < d; ++t)
            sum += Number(instance.a[d * n + t]) * instance.b[k * n + places[t]] + Number(instance.a[t * n + d]) * instance.b[places[t] * n + k];
        return sum;
    }

    // Judges the bound whose duals were found, where what is placed has this cost.
    void bound(Wide fixed) {
        int n = instance.n, d = static_cast<int>(places.size()), m = n - d, width = n + d;
        if (static_cast<int>(found.size()) != 2 * m) refuse();
        if (d == 0)
            for (int k = 0; k < n; ++k) row(instance.b, instance.b_ranked, places, taken, k, &b_rows[k * width]);
        else
            child_rows(d - 1);
        if (!fits(facility_rows(d), m, width)) refuse();
        Wide value = fixed;
        for (Number dual : found) value += dual;
        if (value < cost) refuse();
    }

    void tree(Wide fixed) {
        std::string_view text = line();
        if (text != "s") {
            numbers(text, "b");
            bound(fixed);
            return;
        }
        if (static_cast<int>(places.size()) == instance.n) refuse();
        made[places.size()] = 0;
        for (int k = 0; k < instance.n; ++k) {
            if (taken[k]) continue;
            const Wide next = fixed + added(k);
            taken[k] = 1;
            places.push_back(k);
            tree(next);
            places.pop_back();
            taken[k] = 0;
        }
    }

    void check() {
        int n = instance.n;
        if (line() != "qapcert 1") refuse();
        if (numbers(line(), "n") != std::vector<Number>{n}) refuse();
        if (numbers(line(), "cost").size() != 1) refuse();
        cost = found[0];
        if (static_cast<int>(numbers(line(), "perm").size()) != n) refuse();
        Number reached = 0;
        taken.assign(n, 0);
        for (Number p : found) {
            if (p < 1 || p > n || taken[p - 1]) refuse();
            taken[p - 1] = 1;
        }
        for (int i = 0; i < n; ++i)
            for (int j = 0; j < n; ++j) reached += Number(instance.a[i * n + j]) * instance.b[(found[i] - 1) * n + found[j] - 1];
        if (reached != cost) refuse();
        taken.assign(n, 0);
        a_rows.resize(n + 1);
        b_rows.resize(2 * n * n + n + 16);
        parents.resize(n + 1);
        made.resize(n + 1);
        tree(0);
        if (line() != "end" || at != end) refuse();
    }
};

int main(int count, char** words) {
    if (count != 3) return 2;
    Instance instance(contents(words[1]));
    std::string text = contents(words[2]);
    Checker checker{instance, text.data(), text.data() + text.size()};
    checker.check();
    std::printf("optimal %lld\n", static_cast<long long>(checker.cost));
}
