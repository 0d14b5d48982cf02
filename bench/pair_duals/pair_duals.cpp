// The parts of dual ascent on the level-1 reformulation of the quadratic assignment problem (Adams and Johnson 1994;
// Hahn and Grant 1998) in 64 bits: what the crates pair_duals and dual_ascent are compared with, in numbers and in
// time.
//
// It reads a size, A and B from standard input, and its arguments are a scale and how often each part is run. Of each
// part it prints the name, the nanoseconds of one run and a number that it yields: whether pair duals fit; a child of
// the root; a child by kept residuals; filling their table; a hard round; a soft sweep; and the root bound after 50
// hard rounds, and after 200 soft sweeps and 10 hard rounds.
#include <algorithm>
#include <chrono>
#include <cmath>
#include <cstdint>
#include <cstdio>
#include <cstdlib>
#include <utility>
#include <vector>

typedef int64_t Number;
typedef std::vector<Number> Numbers;

// Assignment duals of a square matrix of n rows, by shortest augmenting paths (Jonker and Volgenant 1987). Returns the
// least cost; u(r) + v(c) is at most every entry, and their sum is that cost.
struct Assigner {
    std::vector<int> row_of, column_of, origin, columns;
    Numbers distance;
    explicit Assigner(int m) : row_of(m), column_of(m), origin(m), columns(m), distance(m) {}

    Number solve(int n, const Number* entries, Number* u, Number* v) {
        std::fill_n(v, n, INT64_MAX);
        std::fill_n(row_of.begin(), n, -1);
        std::fill_n(column_of.begin(), n, -1);
        for (int r = 0; r < n; r++) {
            const Number* row = entries + r * n;
            u[r] = *std::min_element(row, row + n);
            for (int c = 0; c < n; c++) v[c] = std::min(v[c], row[c] - u[r]);
        }
        for (int r = 0; r < n; r++) {
            const Number* row = entries + r * n;
            for (int c = 0; c < n; c++)
                if (row_of[c] < 0 && row[c] == u[r] + v[c]) {
                    row_of[c] = r, column_of[r] = c;
                    break;
                }
        }
        for (int r = 0; r < n; r++)
            if (column_of[r] < 0) place(r, n, entries, u, v);
        Number sum = 0;
        for (int r = 0; r < n; r++) sum += u[r] + v[r];
        return sum;
    }

    void place(int root, int n, const Number* entries, Number* u, Number* v) {
        for (int c = 0; c < n; c++) {
            distance[c] = entries[root * n + c] - u[root] - v[c];
            origin[c] = root;
            columns[c] = c;
        }
        int done = 0;
        for (;;) {
            int best = done;
            for (int q = done + 1; q < n; q++)
                if (distance[columns[q]] < distance[columns[best]]) best = q;
            std::swap(columns[done], columns[best]);
            int r = row_of[columns[done]];
            if (r < 0) break;
            Number base = distance[columns[done]] - u[r];
            const Number* row = entries + r * n;
            done++;
            for (int q = done; q < n; q++) {
                int c = columns[q];
                Number reached = base + row[c] - v[c];
                if (reached < distance[c]) distance[c] = reached, origin[c] = r;
            }
        }
        Number length = distance[columns[done]];
        u[root] += length;
        for (int q = 0; q < done; q++) {
            int c = columns[q];
            u[row_of[c]] += length - distance[c];
            v[c] -= length - distance[c];
        }
        for (int c = columns[done];;) {
            int r = origin[c];
            row_of[c] = r;
            std::swap(c, column_of[r]);
            if (r == root) break;
        }
    }
};

struct Instance {
    int m;
    Number scale;
    Numbers a, b, a_back, b_back;  // a is scaled
};

// alpha by j, i and k; beta by l, i and k.
struct Duals {
    Numbers alpha, beta;
};

bool fits(const Instance& in, const Duals& duals) {
    int m = in.m, square = m * m;
    std::vector<Number> own(m);
    for (int i = 0; i < m; i++)
        for (int k = 0; k < m; k++) {
            for (int l = 0; l < m; l++) own[l] = duals.beta[l * square + i * m + k];
            const Number *there = &in.b[k * m], *back = &in.b_back[k * m];
            for (int j = i + 1; j < m; j++) {
                const Number *alpha = &duals.alpha[i * square + j * m], *beta = &duals.beta[k * square + j * m];
                Number x = in.a[i * m + j], y = in.a_back[i * m + j], mine = duals.alpha[j * square + i * m + k];
                Number least = 0;
                auto left = [&](int l) { return x * there[l] + y * back[l] - mine - own[l] - alpha[l] - beta[l]; };
                for (int l = 0; l < k; l++) least = std::min(least, left(l));
                for (int l = k + 1; l < m; l++) least = std::min(least, left(l));
                if (least < 0) return false;
            }
        }
    return true;
}

// The root's form, or a child's.
struct Form {
    Number value = 0;
    std::vector<int> rows, columns;
    Numbers entries;
};

Form start(const Instance& in, const Duals& duals) {
    int m = in.m;
    Form form;
    for (int i = 0; i < m; i++) form.rows.push_back(i), form.columns.push_back(i);
    for (int i = 0; i < m; i++)
        for (int k = 0; k < m; k++) {
            Number entry = in.a[i * m + i] * in.b[k * m + k];
            for (int j = 0; j < m; j++)
                if (j != i) entry += duals.alpha[(j * m + i) * m + k];
            for (int l = 0; l < m; l++)
                if (l != k) entry += duals.beta[(l * m + i) * m + k];
            form.entries.push_back(entry);
        }
    return form;
}

// All of a child but its entries.
void place(const Form& form, int h, int g, Form& to) {
    int n = form.rows.size();
    to.value = form.value + form.entries[h * n + g];
    to.rows.assign(form.rows.begin(), form.rows.begin() + h);
    to.rows.insert(to.rows.end(), form.rows.begin() + h + 1, form.rows.end());
    to.columns.assign(form.columns.begin(), form.columns.begin() + g);
    to.columns.insert(to.columns.end(), form.columns.begin() + g + 1, form.columns.end());
    to.entries.resize((n - 1) * (n - 1));
}

void child(const Instance& in, const Duals& duals, const Form& form, int h, int g, Form& to) {
    int m = in.m, n = form.rows.size(), square = m * m, j = form.rows[h], l = form.columns[g];
    place(form, h, g, to);
    Number *out = to.entries.data(), there[64], back[64], own[64];
    for (int c = 0; c < n - 1; c++) {
        int k = to.columns[c];
        there[c] = in.b_back[l * m + k], back[c] = in.b[l * m + k], own[c] = duals.beta[k * square + j * m + l];
    }
    for (int r = 0; r < n; r++) {
        if (r == h) continue;
        int i = form.rows[r];
        const Number* row = &form.entries[r * n];
        const Number *alpha = &duals.alpha[j * square + i * m], *beta = &duals.beta[l * square + i * m];
        Number x = in.a[i * m + j], y = in.a_back[i * m + j], mine = duals.alpha[i * square + j * m + l];
        for (int c = 0; c < n - 1; c++) {
            int k = to.columns[c];
            *out++ = row[c < g ? c : c + 1] + x * there[c] + y * back[c] - mine - own[c] - alpha[k] - beta[k];
        }
    }
}

// What is left of the pairs, by the second facility and location, then the first: that of i at k with j at l is in row
// (j m + l) m + i, column k. Rows of an earlier facility are copied. In 64 bits scalar products are faster than those of
// vectors.
void fill(const Instance& in, const Duals& duals, Numbers& table) {
    int m = in.m, square = m * m;
    table.resize((size_t)square * square);
    Number own[64], *row = table.data();
    for (int j = 0; j < m; j++)
        for (int l = 0; l < m; l++) {
            for (int k = 0; k < m; k++) own[k] = duals.beta[k * square + j * m + l];
            for (int i = 0; i < j; i++, row += m) {
                const Number* from = &table[(size_t)i * m * square + j * m + l];
                for (int k = 0; k < m; k++) row[k] = from[(size_t)k * square];
            }
            const Number *there = &in.b_back[l * m], *back = &in.b[l * m];
            for (int i = j; i < m; i++, row += m) {
                const Number *alpha = &duals.alpha[j * square + i * m], *beta = &duals.beta[l * square + i * m];
                Number x = in.a[i * m + j], y = in.a_back[i * m + j], mine = duals.alpha[i * square + j * m + l];
#pragma clang loop vectorize(disable)
                for (int k = 0; k < m; k++)
                    row[k] = x * there[k] + y * back[k] - mine - own[k] - alpha[k] - beta[k];
            }
        }
}

// A child by such a table.
void kept_child(int m, const Numbers& table, const Form& form, int h, int g, Form& to) {
    int n = form.rows.size(), j = form.rows[h], l = form.columns[g];
    place(form, h, g, to);
    Number* out = to.entries.data();
    const Number* block = &table[(size_t)(j * m + l) * m * m];
    const int* columns = to.columns.data();
    for (int r = 0; r < n; r++) {
        if (r == h) continue;
        const Number *row = &form.entries[r * n], *left = block + form.rows[r] * m;
        for (int c = 0; c < g; c++) out[c] = row[c] + left[columns[c]];
        for (int c = g; c < n - 1; c++) out[c] = row[c + 1] + left[columns[c]];
        out += n - 1;
    }
}

// A form's value, and its first and last entry.
Number sum_of(const Form& form) { return form.value + form.entries.front() + form.entries.back(); }

Number bound(const Instance& in, const Duals& duals) {
    Form form = start(in, duals);
    Assigner assigner(in.m);
    Numbers u(in.m), v(in.m);
    return assigner.solve(in.m, form.entries.data(), u.data(), v.data());
}

struct Ascent {
    int m;
    Number z = 0;
    const Instance& in;
    Duals duals;
    Numbers pairs, matrix, block, u, v, t;
    Assigner assigner;

    explicit Ascent(const Instance& in)
        : m(in.m), in(in), duals{Numbers(m * m * m), Numbers(m * m * m)}, pairs((size_t)m * m * m * m), matrix(m * m),
          block(m * m), u(m), v(m), t(m * m), assigner(m) {
        fill();
    }

    // The m by m block of what is left of the pairs with i at k.
    Number* at(int i, int k) { return &pairs[(size_t)(i * m + k) * m * m]; }

    void fill() {
        int square = m * m;
        z = 0;
        matrix = start(in, duals).entries;
        for (int i = 0; i < m; i++)
            for (int k = 0; k < m; k++)
                for (int j = 0; j < m; j++) {
                    Number* left = at(i, k) + j * m;
                    for (int l = 0; l < m; l++)
                        left[l] = in.a[i * m + j] * in.b[k * m + l] + in.a_back[i * m + j] * in.b_back[k * m + l] -
                                  duals.alpha[j * square + i * m + k] - duals.beta[l * square + i * m + k] -
                                  duals.alpha[i * square + j * m + l] - duals.beta[k * square + j * m + l];
                }
    }

    void reduce_matrix() {
        z += assigner.solve(m, matrix.data(), u.data(), v.data());
        for (int i = 0; i < m; i++)
            for (int k = 0; k < m; k++) matrix[i * m + k] -= u[i] + v[k];
    }

    void spread() {
        int square = m * m;
        for (int p = 0; p < square; p++) {
            t[p] = matrix[p] / (m - 1);
            matrix[p] -= t[p] * (m - 1);
        }
        for (int j = 0; j < m; j++)
            for (int p = 0; p < square; p++) duals.alpha[j * square + p] -= t[p];
        for (int q = 0; q < square; q++) {
            Number* left = &pairs[(size_t)q * square];
            for (int p = 0; p < square; p++) left[p] += t[q] + t[p];
        }
    }

    // The assignment of what is left of the pairs with i at k: whole with facilities that came before it in this round,
    // else half.
    void reduce_block(int i, int k, bool ascending) {
        Number* left = at(i, k);
        Number* to = block.data();
        for (int j = 0; j < m; j++) {
            if (j == i) continue;
            const Number* row = left + j * m;
            if (ascending ? j < i : j > i) {
                for (int l = 0; l < k; l++) *to++ = row[l];
                for (int l = k + 1; l < m; l++) *to++ = row[l];
            } else {
                for (int l = 0; l < k; l++) *to++ = row[l] >> 1;
                for (int l = k + 1; l < m; l++) *to++ = row[l] >> 1;
            }
        }
        matrix[i * m + k] += assigner.solve(m - 1, block.data(), u.data(), v.data());
        for (int r = m - 1; r > i; r--) u[r] = u[r - 1];
        for (int c = m - 1; c > k; c--) v[c] = v[c - 1];
        u[i] = v[k] = 0;
        for (int j = 0; j < m; j++) {
            duals.alpha[(j * m + i) * m + k] += u[j];
            duals.beta[(j * m + i) * m + k] += v[j];
            for (int l = 0; l < m; l++) left[j * m + l] -= u[j] + v[l];
        }
    }

    // Writes what is left of the pairs with i to where the other facility looks for it.
    void copy_over(int i) {
        for (int j = 0; j < m; j++)
            if (j != i)
                for (int l = 0; l < m; l++) {
                    Number* row = at(j, l) + i * m;
                    for (int k = 0; k < m; k++) row[k] = at(i, k)[j * m + l];
                }
    }

    void round(bool ascending) {
        spread();
        for (int step = 0; step < m; step++) {
            int i = ascending ? step : m - 1 - step;
            for (int k = 0; k < m; k++) reduce_block(i, k, ascending);
            copy_over(i);
        }
        reduce_matrix();
    }

    void rounds(int count) {
        reduce_matrix();
        for (int r = 0; r < count; r++) round(r % 2 == 0);
    }

    void clear_own() {
        for (int j = 0; j < m; j++)
            for (int i = 0; i < m; i++) {
                duals.alpha[(j * m + j) * m + i] = 0;
                duals.beta[(j * m + i) * m + j] = 0;
            }
    }

    double cost_near() {
        double bound = z, single = 0, both = 0;
        for (Number left : matrix) single += left;
        for (int i = 0; i < m; i++)
            for (int k = 0; k < m; k++)
                for (int j = 0; j < m; j++)
                    for (int l = 0; l < m; l++)
                        if (i != j && k != l) both += at(i, k)[j * m + l];
        double mean = bound + single / m + both / (2.0 * m * (m - 1));
        return std::max({std::fabs(bound), std::fabs(mean) / 16, 1.0});
    }
};

const double MOST_LOG = 80, LEAST = exp(-MOST_LOG), MOST = exp(MOST_LOG);

double limited(double x) { return std::min(std::max(x, LEAST), MOST); }

double limited_log(double x) { return std::min(std::max(x, -MOST_LOG), MOST_LOG); }

// Soft sweeps: block coordinate ascent with entropy, at a temperature that falls.
struct Sweeps {
    int m, square;
    double temperature = 1;
    Ascent& ascent;
    std::vector<double> kernel, alpha_moves, beta_moves, alpha, beta, logs, weights, rows, columns, sums;

    explicit Sweeps(Ascent& ascent)
        : m(ascent.m), square(m * m), ascent(ascent), kernel((size_t)square * square), alpha_moves(square * m),
          beta_moves(square * m), alpha(square * m, 1), beta(square * m, 1), logs(square), weights(square), rows(m),
          columns(m), sums(m) {
        for (int p = 0; p < square; p++) logs[p] = -(double)ascent.matrix[p];
    }

    void absorb() {
        for (int p = 0; p < square * m; p++) alpha_moves[p] += temperature * log(alpha[p]), alpha[p] = 1;
        for (int p = 0; p < square * m; p++) beta_moves[p] += temperature * log(beta[p]), beta[p] = 1;
    }

    void set_temperature(double to) {
        absorb();
        for (double& x : logs) x = limited_log(x * (temperature / to));
        temperature = to;
        for (int i = 0; i < m; i++)
            for (int k = 0; k < m; k++) {
                int place = i * m + k;
                for (int l = 0; l < m; l++) columns[l] = beta_moves[l * square + place];
                for (int j = i + 1; j < m; j++) {
                    double own = alpha_moves[j * square + place];
                    double* row = &kernel[(size_t)place * square + j * m];
                    double *alpha = &alpha_moves[i * square + j * m], *beta = &beta_moves[k * square + j * m];
                    const Number* left = &ascent.pairs[(size_t)place * square + j * m];
                    for (int l = 0; l < m; l++) {
                        double x = (own + columns[l] + alpha[l] + beta[l] - (double)left[l]) / to;
                        row[l] = x < -MOST_LOG ? LEAST : exp(std::min(x, MOST_LOG));
                    }
                    row[k] = 0;
                    for (int l = 0; l < m; l++) kernel[(size_t)(j * m + l) * square + place] = row[l];
                }
            }
    }

    double balance(int own, double log_of_weight, std::vector<double>& factors) {
        sums[own] = 1;
        double sum = log_of_weight;
        for (int c = 0; c < m; c += 8) {
            double product = 1;
            for (int d = c; d < std::min(c + 8, m); d++) product *= sums[d];
            sum += log(product);
        }
        double mean = limited_log(sum / m), weight = exp(mean);
        for (int c = 0; c < m; c++) factors[c] *= weight / sums[c];
        factors[own] = 1;
        return mean;
    }

    void sweep_block(int i, int k) {
        int place = i * m + k;
        const double *from = &kernel[(size_t)place * square], *xs = &alpha[i * square], *ys = &beta[k * square];
        for (int p = 0; p < square; p++) weights[p] = from[p] * xs[p] * ys[p];
        for (int j = 0; j < m; j++) rows[j] = alpha[j * square + place], columns[j] = beta[j * square + place];
        for (int j = 0; j < m; j++) {
            const double* row = &weights[j * m];
            double even = 0, odd = 0;
            int l = 0;
            for (; l + 1 < m; l += 2) even += row[l] * columns[l], odd += row[l + 1] * columns[l + 1];
            if (l < m) even += row[l] * columns[l];
            sums[j] = limited(rows[j] * (even + odd));
        }
        double log_of_weight = balance(i, logs[place], rows);
        std::fill(sums.begin(), sums.end(), 0);
        for (int j = 0; j < m; j++) {
            const double* row = &weights[j * m];
            for (int l = 0; l < m; l++) sums[l] += rows[j] * row[l];
        }
        for (int l = 0; l < m; l++) sums[l] = limited(sums[l] * columns[l]);
        logs[place] = balance(k, log_of_weight, columns);
        for (int j = 0; j < m; j++) alpha[j * square + place] = rows[j], beta[j * square + place] = columns[j];
    }

    void normalize(double* line, int step) {
        double greatest = -MOST_LOG, sum = 0;
        for (int c = 0; c < m; c++) greatest = std::max(greatest, line[c * step]);
        for (int c = 0; c < m; c++) sum += exp(line[c * step] - greatest);
        double whole = greatest + log(sum);
        for (int c = 0; c < m; c++) line[c * step] -= whole;
    }

    void sweep() {
        for (int i = 0; i < m; i++)
            for (int k = 0; k < m; k++) sweep_block(i, k);
        for (int both = 0; both < 2; both++) {
            for (int i = 0; i < m; i++) normalize(&logs[i * m], 1);
            for (int k = 0; k < m; k++) normalize(&logs[k], m);
        }
    }

    void finish() {
        absorb();
        for (int p = 0; p < square * m; p++) ascent.duals.alpha[p] += (Number)round(alpha_moves[p]);
        for (int p = 0; p < square * m; p++) ascent.duals.beta[p] += (Number)round(beta_moves[p]);
    }
};

// Pair duals of the root, after a number of soft sweeps and hard rounds, and whether they fit.
Duals ascend(const Instance& in, int sweeps, int rounds) {
    Ascent ascent(in);
    if (sweeps > 0) {
        const int every = 4;
        const double first = 0.02, last = 0.00002;
        ascent.rounds(1);
        double temperature = first * ascent.cost_near();
        double ratio = pow(last / first, 1.0 / std::max((sweeps - 1) / every, 1));
        Sweeps soft(ascent);
        for (int sweep = 0; sweep < sweeps; sweep++) {
            if (sweep % every == 0) soft.set_temperature(temperature), temperature *= ratio;
            soft.sweep();
        }
        soft.finish();
        ascent.clear_own();
        ascent.fill();
    }
    ascent.rounds(rounds);
    ascent.clear_own();
    if (!fits(in, ascent.duals)) exit(1);
    return ascent.duals;
}

typedef std::chrono::steady_clock Clock;

double since(Clock::time_point start) { return std::chrono::duration<double, std::nano>(Clock::now() - start).count(); }

void print(const char* name, double time, Number number) { printf("%s %.0f %ld\n", name, time, number); }

int main(int argc, char** argv) {
    Instance in;
    if (argc < 3 || scanf("%d", &in.m) != 1) return 2;
    int m = in.m, repeats = atoi(argv[2]);
    in.scale = atol(argv[1]);
    for (Numbers* matrix : {&in.a, &in.b})
        for (int p = 0; p < m * m; p++) {
            Number x;
            if (scanf("%ld", &x) != 1) return 2;
            matrix->push_back(matrix == &in.a ? in.scale * x : x);
        }
    in.a_back = in.a, in.b_back = in.b;
    for (int i = 0; i < m; i++)
        for (int j = 0; j < m; j++) in.a_back[i * m + j] = in.a[j * m + i], in.b_back[i * m + j] = in.b[j * m + i];

    std::vector<Duals> found;
    for (int rounds = 1; rounds < 5; rounds++) found.push_back(ascend(in, 0, rounds));
    auto begin = Clock::now();
    Number count = 0;
    for (int r = 0; r < repeats; r++)
        for (const Duals& duals : found) count += fits(in, duals);
    print("fits", since(begin) / (4 * repeats), count);

    Form root = start(in, found[0]), next;
    begin = Clock::now();
    Number sum = 0;
    for (int r = 0; r < repeats; r++)
        for (int h = 0; h < m; h++)
            for (int g = 0; g < m; g++) {
                child(in, found[0], root, h, g, next);
                sum += sum_of(next);
            }
    print("child", since(begin) / (repeats * m * m), sum);

    Numbers table;
    fill(in, found[0], table);
    begin = Clock::now();
    sum = 0;
    for (int r = 0; r < repeats; r++)
        for (int h = 0; h < m; h++)
            for (int g = 0; g < m; g++) {
                kept_child(m, table, root, h, g, next);
                sum += sum_of(next);
            }
    print("kept", since(begin) / (repeats * m * m), sum);

    begin = Clock::now();
    sum = 0;
    for (int r = 0; r < repeats; r++)
        for (const Duals& duals : found) {
            fill(in, duals, table);
            kept_child(m, table, root, 0, 0, next);
            sum += sum_of(next);
        }
    print("fill", since(begin) / (4 * repeats), sum);

    begin = Clock::now();
    Duals few = ascend(in, 0, 1);
    double base = since(begin);
    begin = Clock::now();
    Duals many = ascend(in, 0, 21);
    print("round", (since(begin) - base) / 20, bound(in, many));

    begin = Clock::now();
    few = ascend(in, 4, 1);
    base = since(begin);
    begin = Clock::now();
    many = ascend(in, 24, 1);
    print("sweep", (since(begin) - base) / 20, bound(in, many));

    begin = Clock::now();
    Duals hard = ascend(in, 0, 50);
    print("hard", since(begin), bound(in, hard));
    begin = Clock::now();
    Duals soft = ascend(in, 200, 10);
    print("soft", since(begin), bound(in, soft));
}
