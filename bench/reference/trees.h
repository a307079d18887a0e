// Search trees, their leaves and children.
#pragma once
#include "loads.h"

enum Kind : uint8_t { OPEN, SPLIT, TICK, FULL, AVG, WGT };
struct Node {
    int parent = -1, first = -1, n = 0;
    int a = 0;
    int8_t slot = 0;
    Kind kind = OPEN;
};
static vector<Node> pool;
static vector<vector<uint16_t>> wpool;
static int fresh(int parent) {
    Node x;
    x.parent = parent;
    pool.push_back(x);
    return (int)pool.size() - 1;
}
static void preorder(int n, const function<void(int)> &f) {
    vector<int> st{n};
    while (!st.empty()) {
        int x = st.back();
        st.pop_back();
        f(x);
        const Node &d = pool[x];
        if (d.kind == SPLIT)
            for (int i = d.n - 1; i >= 0; i--) st.push_back(d.first + i);
    }
}
static string debug_tree(int n) {
    const Node &d = pool[n];
    switch (d.kind) {
        case OPEN:
            return "OpenLeaf";
        case TICK:
            return "TickLeaf(" + str(d.a) + ")";
        case FULL:
            return "FullLeaf(" + str(d.a) + ", " + str(d.slot) + ")";
        case AVG:
            return "Average";
        case WGT: {
            string t = "Weights([";
            for (size_t i = 0; i < wpool[d.a].size(); i++) t += (i ? ", " : "") + str(wpool[d.a][i]);
            return t + "])";
        }
        default:
            break;
    }
    string t = "Split([";
    for (int i = 0; i < d.n; i++) {
        if (i) t += ", ";
        t += debug_tree(d.first + i);
    }
    return t + "])";
}
static string node_line(const Node &d) {
    switch (d.kind) {
        case SPLIT:
            return "S " + str(d.n) + "\n";
        case TICK:
            return "T " + str(d.a) + "\n";
        case FULL:
            return "F " + str(d.a) + " " + str(d.slot) + "\n";
        case AVG:
            return "A\n";
        case WGT: {
            string t = "W";
            for (auto w : wpool[d.a]) t += " " + str(w);
            return t + "\n";
        }
        default:
            return "O\n";
    }
}

struct Guide {
    virtual ll bound() = 0;
    virtual ll found(const vector<Place> &, ll) = 0;
    virtual bool stopped() = 0;
    virtual ~Guide() {}
};  // below 0: none
struct Explorer {
    const Line &L;
    const vector<int> &order;
    int version;
    Loads ld;
    vector<Place> at;
    Guide *g = nullptr;
    ll value = -1;
    ll left = 0;
    Explorer(const Line &L, const vector<int> &o, int version)
        : L(L), order(o), version(version), ld(L), at(L.units.size(), Place{0, 0}) {}
    void visit(int n, int k, int used) {
        if (left == 0 || g->stopped()) return;
        ll b = g->bound();
        if (b >= 0 && (value < 0 || b < value)) value = b;
        int t, s;
        if (ld.full(t, s)) {
            pool[n].kind = FULL;
            pool[n].a = t;
            pool[n].slot = (int8_t)s;
            left--;
            return;
        }
        if (ld.tick(value, t)) {
            pool[n].kind = TICK;
            pool[n].a = t;
            left--;
            return;
        }
        if (ld.average(value)) {
            pool[n].kind = AVG;
            left--;
            return;
        }
        if (version >= 2 && ld.weights(ld.cost, value)) {
            pool[n].kind = WGT;
            pool[n].a = (int)wpool.size();
            wpool.emplace_back(ld.cost.begin(), ld.cost.end());
            left--;
            return;
        }
        if (k == (int)order.size()) {
            auto [c, when] = ld.top();
            ll r = g->found(at, c);
            if (r < 0) return;
            if (value < 0 || r < value) value = r;
            pool[n].kind = TICK;
            pool[n].a = when;
            left--;
            return;
        }
        left--;
        int u = order[k], w = width(L, used), ph = phases(L, u, k, version), c = w * ph;
        int first = (int)pool.size();
        for (int i = 0; i < c; i++) fresh(n);
        pool[n].kind = SPLIT;
        pool[n].first = first;
        pool[n].n = c;
        for (int i = 0; i < c && left > 0 && !g->stopped(); i++) {
            Place p{i / w, i % w};
            ld.place(u, p);
            at[u] = p;
            visit(first + i, k + 1, max(used, p.slot + 1));
            ld.remove(u, p);
        }
    }
    // Explores from a prefix into node n; gives the threshold.
    ll explore(int n, const vector<Place> &prefix, Guide &guide, ll grant) {
        g = &guide;
        value = -1;
        left = grant;
        int used = 0;
        for (size_t i = 0; i < prefix.size(); i++) {
            ld.place(order[i], prefix[i]);
            at[order[i]] = prefix[i];
            used = max(used, prefix[i].slot + 1);
        }
        visit(n, (int)prefix.size(), used);
        for (size_t i = 0; i < prefix.size(); i++) ld.remove(order[i], prefix[i]);
        return value;
    }
};
