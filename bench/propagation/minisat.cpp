// The yardstick for mono_clauses: unit propagation in the form of MiniSat 2.2, over the same made clauses and rounds.
//
// Vectors of watchers with blocking literals, clauses inline in one array, literals swapped in place. A literal is 2v or,
// negative, 2v + 1, with v from 1.
//
//     c++ -O3 -std=c++17 -o /tmp/minisat bench/propagation/minisat.cpp && /tmp/minisat KIND ROUNDS
#include <cstdint>
#include <cstdio>
#include <cstdlib>
#include <vector>

struct Draw {
    uint64_t state;
    uint32_t below(uint32_t bound) {
        state = state * 6364136223846793005ull + 1442695040888963407ull;
        return (uint32_t)((state >> 33) % bound);
    }
};

struct Kind { uint32_t vars, threes, twos, longs; bool planted; uint32_t flips; };

static Kind kind_of(int number) {
    switch (number) {
    case 0: return {50000, 200000, 100000, 0, false, 0};
    case 1: return {50000, 200000, 50000, 0, true, 0};
    case 2: return {50000, 150000, 50000, 20000, true, 10};
    case 3: return {5000, 15000, 5000, 60000, true, 10};
    case 4: return {2000, 8000, 2000, 200000, true, 0};
    default: return {100, 300, 100, 50, true, 0};
    }
}

static bool hidden(uint32_t var) { return ((var * 2654435761u) >> 9) & 1; }

struct Watcher { uint32_t clause, blocker; };

struct Solver {
    std::vector<uint32_t> arena;
    std::vector<std::vector<Watcher>> watches;
    std::vector<int8_t> assigns;
    std::vector<uint32_t> trail, starts;
    struct Mark { uint32_t reason, level; };
    std::vector<Mark> marks;
    uint32_t given = 0;

    Solver(uint32_t vars) : watches(2 * vars + 2), assigns(vars + 1, 0), marks(vars + 1) { trail.reserve(vars); }

    int value(uint32_t lit) const { int v = assigns[lit >> 1]; return lit & 1 ? -v : v; }
    uint32_t level() const { return starts.size(); }

    void enqueue(uint32_t lit, uint32_t reason) {
        assigns[lit >> 1] = lit & 1 ? -1 : 1;
        marks[lit >> 1] = {reason, level()};
        trail.push_back(lit);
    }

    void decide(uint32_t lit) {
        starts.push_back(trail.size());
        enqueue(lit, 0xffffffff);
    }

    void backjump(uint32_t to) {
        uint32_t kept = starts[to];
        for (uint32_t i = trail.size(); i-- > kept;) assigns[trail[i] >> 1] = 0;
        trail.resize(kept);
        starts.resize(to);
        given = kept;
    }

    void add(const std::vector<uint32_t> &clause) {
        uint32_t place = arena.size();
        arena.push_back(clause.size());
        for (uint32_t lit : clause) arena.push_back(lit);
        watches[clause[0]].push_back({place, clause[1]});
        watches[clause[1]].push_back({place, clause[0]});
    }

    // Whether a clause is false.
    bool propagate() {
        bool is_false = false;
        while (given < trail.size()) {
            uint32_t fell = trail[given++] ^ 1;
            std::vector<Watcher> &list = watches[fell];
            Watcher *i = list.data(), *j = i, *end = i + list.size();
            while (i != end) {
                uint32_t blocker = i->blocker;
                if (value(blocker) == 1) { *j++ = *i++; continue; }
                uint32_t place = i->clause;
                uint32_t *clause = &arena[place] + 1;
                uint32_t count = clause[-1];
                if (clause[0] == fell) { clause[0] = clause[1]; clause[1] = fell; }
                i++;
                uint32_t first = clause[0];
                Watcher watcher{place, first};
                if (first != blocker && value(first) == 1) { *j++ = watcher; continue; }
                for (uint32_t k = 2; k < count; k++)
                    if (value(clause[k]) != -1) {
                        clause[1] = clause[k];
                        clause[k] = fell;
                        watches[clause[1]].push_back(watcher);
                        goto next;
                    }
                *j++ = watcher;
                if (value(first) == -1) {
                    is_false = true;
                    given = trail.size();
                    while (i < end) *j++ = *i++;
                } else enqueue(first, place);
            next:;
            }
            list.resize(j - list.data());
        }
        return is_false;
    }
};

static void join_all(Solver &solver, const Kind &kind) {
    Draw draw{12345};
    std::vector<uint32_t> clause;
    uint32_t count = kind.threes + kind.twos + kind.longs;
    for (uint32_t i = 0; i < count; i++) {
        uint32_t length = i < kind.threes ? 3 : i < kind.threes + kind.twos ? 2 : 8 + draw.below(32);
        clause.clear();
        bool is_true = false;
        for (uint32_t j = 0; j < length; j++) {
            uint32_t var = draw.below(kind.vars) + 1;
            uint32_t negative = draw.below(2);
            bool again = false;
            for (uint32_t lit : clause) again |= (lit >> 1) == var;
            if (again) continue;
            clause.push_back(2 * var + negative);
            is_true |= hidden(var) == (negative == 0);
        }
        if (clause.size() < 2) continue;
        if (kind.planted && !is_true) clause[0] ^= 1;
        solver.add(clause);
    }
}

int main(int argc, char **argv) {
    Kind kind = kind_of(argc > 1 ? atoi(argv[1]) : 5);
    uint64_t rounds = argc > 2 ? strtoull(argv[2], nullptr, 10) : 0;
    Solver solver(kind.vars);
    join_all(solver, kind);
    Draw draw{777};
    std::vector<uint32_t> cursors;
    uint32_t cursor = 1;
    uint64_t given = 0, conflicts = 0, decisions = 0, full = 0, sum = 0;
    for (uint64_t i = 0; i < rounds; i++) {
        uint32_t before = solver.trail.size();
        bool back = solver.propagate();
        given += solver.trail.size() - before;
        sum = sum * 31 + solver.trail.size();
        if (back) conflicts++;
        else {
            while (cursor <= kind.vars && solver.value(2 * cursor) != 0) cursor++;
            if (cursor > kind.vars) { full++; back = true; }
            else {
                bool positive = hidden(cursor);
                if (kind.flips && draw.below(kind.flips) == 0) positive = !positive;
                cursors.push_back(cursor);
                solver.decide(2 * cursor + (positive ? 0 : 1));
                decisions++;
                given++;
            }
        }
        if (back) {
            if (solver.level() == 0) break;
            uint32_t to = draw.below(solver.level());
            solver.backjump(to);
            cursor = kind.planted ? cursors[to] : draw.below(kind.vars) + 1;
            cursors.resize(to);
        }
    }
    printf("given %llu decisions %llu conflicts %llu full %llu sum %llu\n", (unsigned long long)given, (unsigned long long)decisions,
           (unsigned long long)conflicts, (unsigned long long)full, (unsigned long long)sum);
}
