// The search by hand, by the rules of today: turned time, and leaves by tick, slot, average and weights. The speed that
// a program without proofs reaches; it makes no tree, no certificate and no pieces. No part of the gate.
//
//   g++ -O3 -march=native -o by_hand bench/reference/by_hand.cpp
//   by_hand SLOTS NODES BYTES/PERIOD ..
//
// prints the least cost that it found and the nodes that it made.
#include <algorithm>
#include <cstdio>
#include <cstdlib>
#include <numeric>
#include <vector>
using std::vector;

struct Unit { int bytes, period; };
static vector<Unit> units;
static vector<int> order, payload, groups, counts;  // of each tick and slot, and of each period, phase and slot
static vector<long> cost, raw;                      // of each tick
static int slots, ticks;
static long raw_total, demand, value = -1, nodes, budget;
static bool stopped;

static long wire(int bytes, int groups) { return groups ? 38 + std::max(46, 2 + bytes) : 0; }

static void put(int unit, int phase, int slot, int sign) {
    const Unit &u = units[unit];
    int &count = counts[(u.period * 60 + phase) * 8 + slot];
    bool header = count == (sign > 0 ? 0 : 1);
    count += sign;
    int bytes = sign * (u.bytes + (header ? 12 : 0));
    for (int t = phase; t < ticks; t += u.period) {
        int at = t * slots + slot;
        long wire_before = wire(payload[at], groups[at]), raw_before = groups[at] ? 40 + payload[at] : 0;
        payload[at] += bytes;
        if (header) groups[at] += sign;
        long raw_after = groups[at] ? 40 + payload[at] : 0;
        cost[t] += wire(payload[at], groups[at]) - wire_before;
        raw[t] += raw_after - raw_before;
        raw_total += raw_after - raw_before;
    }
    demand -= sign * (long)u.bytes * (ticks / u.period);
}

static long top() { return *std::max_element(cost.begin(), cost.end()); }

static bool fits() { return std::all_of(payload.begin(), payload.end(), [](int b) { return b <= 1498; }); }

static bool by_weights(size_t depth) {
    if (demand == 0 || top() < value - (demand + ticks - 1) / ticks) return false;
    long total = 0, sent = 0;
    for (int t = 0; t < ticks; t++) total += cost[t], sent += cost[t] * raw[t];
    if ((__int128)(value - 1) * ticks * total >= (__int128)sent * ticks + (__int128)demand * total) return false;
    for (size_t k = depth; k < order.size(); k++) {
        const Unit &u = units[order[k]];
        long least = -1;
        for (int phase = 0; phase < u.period; phase++) {
            long sum = 0;
            for (int t = phase; t < ticks; t += u.period) sum += cost[t];
            if (least < 0 || sum < least) least = sum;
        }
        sent += least * u.bytes;
    }
    return total > 0 && sent > (value - 1) * total;
}

static void explore(size_t depth, int used) {
    if (stopped) return;
    if (nodes >= budget) { stopped = true; return; }
    nodes++;
    if (!fits()) return;
    if (value >= 0 && (top() >= value || raw_total + demand > (value - 1) * ticks || by_weights(depth))) return;
    if (depth == order.size()) { value = top(); return; }
    int unit = order[depth], phases = used == 0 ? 1 : units[unit].period;
    for (int phase = 0; phase < phases; phase++)
        for (int slot = 0; slot <= std::min(used, slots - 1); slot++) {
            put(unit, phase, slot, 1);
            explore(depth + 1, std::max(used, slot + 1));
            put(unit, phase, slot, -1);
            if (stopped) return;
        }
}

static void greedy() {
    vector<vector<int>> placed;
    int used = 0;
    for (int unit : order) {
        long best = -1;
        vector<int> at;
        for (int phase = 0; phase < units[unit].period; phase++)
            for (int slot = 0; slot <= std::min(used, slots - 1); slot++) {
                put(unit, phase, slot, 1);
                if (fits() && (best < 0 || top() < best)) best = top(), at = {unit, phase, slot};
                put(unit, phase, slot, -1);
            }
        if (best < 0) break;
        put(unit, at[1], at[2], 1);
        used = std::max(used, at[2] + 1);
        placed.push_back(at);
    }
    if (placed.size() == order.size()) value = top();
    for (const auto &at : placed) put(at[0], at[1], at[2], -1);
}

int main(int argc, char **argv) {
    slots = atoi(argv[1]);
    budget = atol(argv[2]);
    ticks = 1;
    for (int i = 3; i < argc; i++) {
        Unit u;
        if (sscanf(argv[i], "%d/%d", &u.bytes, &u.period) != 2) return 2;
        units.push_back(u);
        ticks = std::lcm(ticks, u.period);
    }
    order.resize(units.size());
    std::iota(order.begin(), order.end(), 0);
    auto weight = [](int u) { return (long)units[u].bytes * (ticks / units[u].period); };
    std::stable_sort(order.begin(), order.end(), [&](int a, int b) { return weight(a) > weight(b); });
    payload.assign(ticks * slots, 0);
    groups = payload;
    counts.assign(61 * 60 * 8, 0);
    cost.assign(ticks, 0);
    raw = cost;
    for (int u : order) demand += weight(u);
    greedy();
    explore(0, 0);
    printf("%ld %ld\n", value, nodes);
}
