// The loads of a prefix.
#pragma once
#include "units.h"

struct Place {
    int phase, slot;
    bool operator==(const Place &o) const { return phase == o.phase && slot == o.slot; }
};
struct Loads {
    const Line &L;
    int H, S, N;
    vector<int> q, grp;
    vector<int> cost, raw;
    vector<int> cnt;
    ll rawTotal = 0, demand = 0;
    int over = 0;
    vector<char> has;
    explicit Loads(const Line &L)
        : L(L),
          H(L.H),
          S(L.slots),
          N((int)L.units.size()),
          q(H * S),
          grp(H * S),
          cost(H),
          raw(H),
          cnt(61 * 60 * 8),
          has(N) {
        for (auto &u : L.units) demand += (ll)u.bytes * (H / u.period);
    }
    void change(int u, Place p, int sign) {
        int T = L.units[u].period, b = L.units[u].bytes;
        int &c = cnt[(T * 60 + p.phase) * 8 + p.slot];
        bool head = sign > 0 ? c == 0 : c == 1;
        c += sign;
        int d = b + (head ? 12 : 0);
        for (int t = p.phase; t < H; t += T) {
            int i = t * S + p.slot;
            int w0 = grp[i] ? 38 + max(46, 2 + q[i]) : 0, r0 = grp[i] ? 40 + q[i] : 0;
            over -= q[i] > 1498;
            q[i] += sign * d;
            if (head) grp[i] += sign;
            over += q[i] > 1498;
            int w1 = grp[i] ? 38 + max(46, 2 + q[i]) : 0, r1 = grp[i] ? 40 + q[i] : 0;
            cost[t] += w1 - w0;
            raw[t] += r1 - r0;
            rawTotal += r1 - r0;
        }
        demand -= sign * (ll)b * (H / T);
        has[u] = sign > 0;
    }
    void place(int u, Place p) { change(u, p, 1); }
    void remove(int u, Place p) { change(u, p, -1); }
    int maxcost() const {
        int m = 0;
        for (int t = 0; t < H; t++) m = max(m, cost[t]);
        return m;
    }
    pair<ll, int> top() const {
        int m = maxcost();
        for (int t = 0; t < H; t++)
            if (cost[t] == m) return {m, t};
        return {0, 0};
    }
    bool full(int &t, int &s) const {
        if (!over) return false;
        for (int i = 0; i < H * S; i++)
            if (q[i] > 1498) {
                t = i / S;
                s = i % S;
                return true;
            }
        return false;
    }
    // A value below 0 stands for none.
    bool tick(ll v, int &t) const {
        if (v < 0 || maxcost() < v) return false;
        for (t = 0; t < H; t++)
            if (cost[t] >= v) return true;
        return false;
    }
    bool average(ll v) const { return v >= 0 && rawTotal + demand > (v - 1) * H; }
    bool weights(const vector<int> &w, ll v) const {
        if (v < 0 || (int)w.size() != H) return false;
        ll W = 0, sum = 0;
        for (int t = 0; t < H; t++) {
            W += w[t];
            sum += (ll)w[t] * raw[t];
        }
        if (W <= 0) return false;
        ll bytesAt[61] = {0};
        for (int u = 0; u < N; u++)
            if (!has[u]) bytesAt[L.units[u].period] += L.units[u].bytes;
        for (int p = 1; p <= 60; p++)
            if (bytesAt[p]) {
                ll acc[60] = {0};
                for (int base = 0; base < H; base += p)
                    for (int f = 0; f < p; f++) acc[f] += w[base + f];
                sum += bytesAt[p] * *min_element(acc, acc + p);
            }
        return sum > (v - 1) * W;
    }
};
// is_legal: empty text where legal. `debug` gives the Debug form, else the program's.
static string illegal(const Line &L, const vector<Place> &p, bool debug) {
    if (p.size() != L.units.size()) return debug ? "WrongCount" : "I1 WrongCount";
    for (size_t u = 0; u < p.size(); u++)
        if (p[u].phase >= L.units[u].period)
            return debug ? "PhaseRange(" + str(u) + ")" : "I2 PhaseRange " + str(u);
    for (size_t u = 0; u < p.size(); u++)
        if (p[u].slot >= L.slots) return debug ? "SlotRange(" + str(u) + ")" : "I3 SlotRange " + str(u);
    Loads ld(L);
    for (size_t u = 0; u < p.size(); u++) ld.place((int)u, p[u]);
    int t, s;
    if (ld.full(t, s)) {
        string b = str(ld.q[t * L.slots + s]);
        return debug ? "Full { tick: " + str(t) + ", slot: " + str(s) + ", bytes: " + b + " }"
                     : "I4 Full " + str(t) + " " + str(s) + " " + b;
    }
    return "";
}
static ll busiest(const Line &L, const vector<Place> &p) {
    Loads ld(L);
    for (size_t u = 0; u < p.size(); u++) ld.place((int)u, p[u]);
    return ld.top().first;
}
static vector<int> search_order(const Line &L) {
    vector<int> o(L.units.size());
    iota(o.begin(), o.end(), 0);
    stable_sort(o.begin(), o.end(), [&](int a, int b) {
        return (ll)L.units[a].bytes * (L.H / L.units[a].period) >
               (ll)L.units[b].bytes * (L.H / L.units[b].period);
    });
    return o;
}
// The width of a prefix: how many slots its children try.
static int width(const Line &L, int used) { return min(used + 1, L.slots); }
static int phases(const Line &L, int unit, int k, int version) {
    return k == 0 && version >= 2 ? 1 : L.units[unit].period;
}
// Greedy in the order of the children; in version 2 too the children of D9 (phases of the first unit make no
// difference to the first least).
static bool greedy(const Line &L, vector<Place> &plan, int version) {
    vector<int> o = search_order(L);
    Loads ld(L);
    int used = 0;
    plan.assign(L.units.size(), {0, 0});
    for (size_t k = 0; k < o.size(); k++) {
        int u = o[k];
        ll best = -1;
        Place at{0, 0};
        for (int f = 0; f < phases(L, u, (int)k, version); f++)
            for (int s = 0; s < width(L, used); s++) {
                ld.place(u, {f, s});
                if (!ld.over) {
                    ll c = ld.maxcost();
                    if (best < 0 || c < best) best = c, at = {f, s};
                }
                ld.remove(u, {f, s});
            }
        if (best < 0) return false;
        ld.place(u, at);
        plan[u] = at;
        used = max(used, at.slot + 1);
    }
    return true;
}
