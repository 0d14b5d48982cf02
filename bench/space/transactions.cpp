// Transactions on spaces of several sizes, as an expert would write them with the standard library: entries in a map by
// number, searched from the newest one back; marks and writes of a transaction in vectors. Prints what the Rattle program does.
#include <chrono>
#include <cstdint>
#include <cstdio>
#include <map>
#include <optional>
#include <string>
#include <utility>
#include <variant>
#include <vector>

using Field = std::variant<__int128, std::string, std::vector<__int128>>;
using Tuple = std::vector<Field>;

// A field that has this value, or any field of this kind.
struct Pattern {
    std::optional<Field> is;
    std::size_t kind;
};
using Template = std::vector<Pattern>;

struct Hold {
    std::uint64_t by;
    bool taken;
};

struct Entry {
    Tuple tuple;
    std::uint64_t end;
    std::vector<Hold> holds;
};

constexpr std::uint64_t forever = UINT64_MAX;

struct Transaction {
    std::uint64_t number;
    std::vector<std::uint64_t> marks;
    std::vector<std::pair<Tuple, std::uint64_t>> writes;
};

static bool matches(const Template& wanted, const Tuple& tuple) {
    if (wanted.size() != tuple.size()) return false;
    for (std::size_t i = 0; i < wanted.size(); ++i) {
        if (wanted[i].is ? *wanted[i].is != tuple[i] : wanted[i].kind != tuple[i].index()) return false;
    }
    return true;
}

class Space {
public:
    void out(Tuple tuple, std::uint64_t end) { entries.emplace(++last, Entry{std::move(tuple), end, {}}); }

    Transaction begin(std::uint64_t lease) {
        live.emplace(++begun, moment + lease);
        return {begun, {}, {}};
    }

    // The newest entry that the transaction can take, or read, and its mark on it.
    const Tuple* find(Transaction& transaction, const Template& wanted, bool take) {
        if (!is_live(transaction)) return nullptr;
        for (auto at = entries.rbegin(); at != entries.rend(); ++at) {
            Entry& entry = at->second;
            if (entry.end <= moment || !is_open(entry, transaction.number, take) || !matches(wanted, entry.tuple)) continue;
            entry.holds.push_back({transaction.number, take});
            transaction.marks.push_back(at->first);
            return &entry.tuple;
        }
        return nullptr;
    }

    bool commit(Transaction& transaction) {
        if (!is_live(transaction)) return false;
        for (auto& write : transaction.writes) out(std::move(write.first), write.second);
        for (std::uint64_t number : transaction.marks) {
            auto at = entries.find(number);
            if (at == entries.end()) continue;
            if (is_taken(at->second)) {
                entries.erase(at);
            } else {
                std::erase_if(at->second.holds, [&](const Hold& hold) { return hold.by == transaction.number; });
            }
        }
        live.erase(transaction.number);
        ++commits;
        return true;
    }

private:
    static bool is_taken(const Entry& entry) {
        for (const Hold& hold : entry.holds)
            if (hold.taken) return true;
        return false;
    }

    static bool is_open(const Entry& entry, std::uint64_t holder, bool take) {
        for (const Hold& hold : entry.holds)
            if (hold.taken || (take && hold.by != holder)) return false;
        return true;
    }

    bool is_live(const Transaction& transaction) const {
        auto at = live.find(transaction.number);
        return at != live.end() && moment < at->second;
    }

    std::map<std::uint64_t, Entry> entries;
    std::map<std::uint64_t, std::uint64_t> live;
    std::uint64_t moment = 0, last = 0, begun = 0, commits = 0;
};

static Tuple node(std::uint64_t number) { return {Field(std::string("node")), Field(static_cast<__int128>(number))}; }

static std::int64_t number_of(const Tuple* tuple) {
    return tuple ? static_cast<std::int64_t>(std::get<__int128>((*tuple)[1])) : 0;
}

static void run(std::uint64_t size) {
    constexpr std::uint64_t count = 2000;
    Space space;
    for (std::uint64_t number = 0; number < size; ++number) space.out(node(number), forever);
    const Template any_node{{Field(std::string("node")), 1}, {std::nullopt, 0}};
    std::int64_t sum = 0;
    const auto start = std::chrono::steady_clock::now();
    for (std::uint64_t i = 0; i < count; ++i) {
        Transaction transaction = space.begin(1000);
        sum += number_of(space.find(transaction, any_node, true));
        sum += number_of(space.find(transaction, any_node, false));
        for (std::uint64_t k = 0; k < 10; ++k) transaction.writes.emplace_back(node(size + i * 10 + k), forever);
        space.commit(transaction);
    }
    const auto nanoseconds = std::chrono::duration_cast<std::chrono::nanoseconds>(std::chrono::steady_clock::now() - start);
    std::printf("%llu %lld %lld\n", static_cast<unsigned long long>(size), static_cast<long long>(nanoseconds.count()), static_cast<long long>(sum));
}

int main() {
    run(10);
    run(1000);
    run(100000);
}
