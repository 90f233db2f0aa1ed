// The yardstick for mono_flows: the same method in plain C, on the same grids.
//
//     cc -O2 -o /tmp/flows bench/flows/flows.c && /tmp/flows
//
// Edges lead both ways between neighbours of a grid of 100 by 100 nodes, with weights from 1 to 9. A flow with a value
// of at least 2^53 is asked for, from corner to corner and from the first column to the last, so that each run ends
// with a cut. Each phase carries along the shortest augmenting path, then along all that rise level by level (Dinic).
#include <stdint.h>
#include <stdio.h>
#include <stdlib.h>
#include <string.h>
#include <time.h>

enum { SIDE = 100, NODES = SIDE * SIDE + 2, MOST_EDGES = 4 * SIDE * SIDE + 2 * SIDE };

typedef struct { uint32_t from, to; uint64_t weight; } Edge;
typedef struct { uint32_t node, place; int back; size_t before; uint64_t residual; } Visit;

static Edge edges[MOST_EDGES];
static uint32_t edge_count;
static uint32_t *leaving[NODES], *entering[NODES];
static uint32_t leaving_count[NODES], entering_count[NODES];
static uint8_t present[MOST_EDGES];

static uint64_t amounts[MOST_EDGES];
static uint8_t marks[NODES];
static uint32_t levels[NODES], next[NODES];
static Visit visits[NODES], path[NODES];
static size_t visit_count, path_count;

static void join(uint32_t from, uint32_t to, uint64_t weight) {
    edges[edge_count++] = (Edge){from, to, weight};
}

static uint64_t seed;

static uint64_t next_weight(void) {
    seed = seed * 6364136223846793005u + 1442695040888963407u;
    return 1 + (seed >> 33) % 9;
}

static void make_grid(int sides) {
    edge_count = 0;
    seed = 12345;
    for (uint32_t row = 0; row < SIDE; row++)
        for (uint32_t column = 0; column < SIDE; column++) {
            uint32_t node = row * SIDE + column;
            if (column + 1 < SIDE) {
                join(node, node + 1, next_weight());
                join(node + 1, node, next_weight());
            }
            if (row + 1 < SIDE) {
                join(node, node + SIDE, next_weight());
                join(node + SIDE, node, next_weight());
            }
        }
    if (sides)
        for (uint32_t row = 0; row < SIDE; row++) {
            join(SIDE * SIDE, row * SIDE, 1000);
            join(row * SIDE + SIDE - 1, SIDE * SIDE + 1, 1000);
        }
    memset(leaving_count, 0, sizeof leaving_count);
    memset(entering_count, 0, sizeof entering_count);
    for (uint32_t k = 0; k < edge_count; k++) {
        present[k] = 1;
        leaving_count[edges[k].from]++;
        entering_count[edges[k].to]++;
    }
    for (uint32_t u = 0; u < NODES; u++) {
        leaving[u] = malloc(leaving_count[u] * sizeof(uint32_t) + 1);
        entering[u] = malloc(entering_count[u] * sizeof(uint32_t) + 1);
        leaving_count[u] = entering_count[u] = 0;
    }
    for (uint32_t k = 0; k < edge_count; k++) {
        uint32_t from = edges[k].from, to = edges[k].to;
        leaving[from][leaving_count[from]++] = k;
        entering[to][entering_count[to]++] = k;
    }
}

static uint64_t residual(uint32_t k, int back) {
    uint64_t amount = amounts[k];
    if (back) return amount;
    uint64_t most = present[k] ? edges[k].weight : 0;
    return most > amount ? most - amount : 0;
}

static uint64_t least_of(uint64_t a, uint64_t b) { return a < b ? a : b; }

static int expand(uint32_t sink, size_t at, const uint32_t *places, uint32_t count, int back) {
    for (uint32_t i = 0; i < count; i++) {
        uint64_t more = residual(places[i], back);
        uint32_t node = back ? edges[places[i]].from : edges[places[i]].to;
        if (more == 0 || marks[node]) continue;
        visits[visit_count++] = (Visit){node, places[i], back, at, least_of(more, visits[at].residual)};
        marks[node] = 1;
        if (node == sink) return 1;
    }
    return 0;
}

static int find_path(uint32_t source, uint32_t sink, uint64_t most) {
    for (size_t i = 0; i < visit_count; i++) marks[visits[i].node] = 0;
    visit_count = 0;
    visits[visit_count++] = (Visit){source, 0, 0, 0, most};
    marks[source] = 1;
    for (size_t head = 0; head < visit_count; head++) {
        uint32_t node = visits[head].node;
        if (expand(sink, head, leaving[node], leaving_count[node], 0)) return 1;
        if (expand(sink, head, entering[node], entering_count[node], 1)) return 1;
    }
    return 0;
}

static uint64_t augment(const Visit *steps, size_t count) {
    size_t at = count - 1;
    uint64_t extra = steps[at].residual;
    while (at > 0) {
        if (steps[at].back) amounts[steps[at].place] -= extra;
        else amounts[steps[at].place] += extra;
        at = steps[at].before;
    }
    return extra;
}

static int next_visit(size_t at, Visit *found) {
    Visit last = path[at];
    for (;; next[last.node]++) {
        uint32_t number = next[last.node], place;
        int back = number >= leaving_count[last.node];
        if (!back) place = leaving[last.node][number];
        else if (number - leaving_count[last.node] < entering_count[last.node])
            place = entering[last.node][number - leaving_count[last.node]];
        else return 0;
        uint64_t more = residual(place, back);
        uint32_t node = back ? edges[place].from : edges[place].to;
        if (more == 0 || (uint64_t)levels[node] != (uint64_t)levels[last.node] + 1) continue;
        *found = (Visit){node, place, back, at, least_of(more, last.residual)};
        return 1;
    }
}

static uint64_t add_blocking_flow(uint32_t source, uint32_t sink, uint64_t most) {
    uint64_t carried = 0;
    if (most == 0) return 0;
    path_count = 0;
    path[path_count++] = (Visit){source, 0, 0, 0, most};
    for (;;) {
        size_t at = path_count - 1;
        Visit visit;
        if (path[at].node == sink) {
            carried += augment(path, path_count);
            if (carried == most) return carried;
            path_count = 0;
            path[path_count++] = (Visit){source, 0, 0, 0, most - carried};
        } else if (next_visit(at, &visit)) {
            path[path_count++] = visit;
        } else {
            if (at == 0) return carried;
            path_count = at;
            next[path[at - 1].node]++;
        }
    }
}

static uint64_t find_flow(uint32_t source, uint32_t sink, uint64_t goal) {
    uint64_t value = 0;
    memset(amounts, 0, edge_count * sizeof *amounts);
    memset(marks, 0, sizeof marks);
    memset(levels, 255, sizeof levels);
    memset(next, 0, sizeof next);
    visit_count = 0;
    while (value < goal) {
        for (size_t i = 0; i < visit_count; i++) {
            levels[visits[i].node] = UINT32_MAX;
            next[visits[i].node] = 0;
        }
        if (!find_path(source, sink, goal - value)) return value;
        value += augment(visits, visit_count);
        levels[source] = 0;
        for (size_t i = 1; i < visit_count; i++)
            levels[visits[i].node] = levels[visits[visits[i].before].node] + 1;
        value += add_blocking_flow(source, sink, goal - value);
    }
    return value;
}

static void measure(const char *name, uint32_t source, uint32_t sink, int times) {
    double best = 1e9;
    uint64_t value = 0;
    for (int turn = 0; turn < times; turn++) {
        struct timespec start, end;
        clock_gettime(CLOCK_MONOTONIC, &start);
        value = find_flow(source, sink, (uint64_t)1 << 53);
        clock_gettime(CLOCK_MONOTONIC, &end);
        double took = (end.tv_sec - start.tv_sec) * 1e3 + (end.tv_nsec - start.tv_nsec) / 1e6;
        if (took < best) best = took;
    }
    printf("%-30s value %6llu   best of %d: %8.3f ms\n", name, (unsigned long long)value, times, best);
}

int main(void) {
    make_grid(0);
    measure("corner to corner", 0, SIDE * SIDE - 1, 200);
    make_grid(1);
    measure("first column to last column", SIDE * SIDE, SIDE * SIDE + 1, 20);
    return 0;
}
