// The search.
#pragma once
#include "book.h"

struct OneGuide : Guide {
    ll came;
    ll cost = -1;
    vector<Place> kept;
    ll calls = 0;
    ll bound() override {
        calls++;
        return came;
    }
    ll found(const vector<Place> &p, ll c) override {
        kept = p;
        cost = c;
        return c;
    }
    bool stopped() override { return false; }
};
struct Outcome {
    bool open = false;
    ll value = -1;
    vector<Place> plan;
    vector<int> order;
    int root = -1;
    ll spent = 0;
    ll told = 0, others = 0;
    ll seeded = 0, freeAfterSeed = 0;
    ll pieces = 0;
};
// Works on a book until nothing can be handed out.
static void work_off(const Line &L, Book &b, int version, int workers, Outcome &out) {
    Explorer ex(L, b.order, version);
    auto work = [&](ll n, ll grant, bool seeding) {
        OneGuide g;
        g.came = b.value;
        vector<Place> pre = b.prefix(b.pieces[n].node);
        ll th = ex.explore(b.pieces[n].node, pre, g, grant);
        if (g.cost >= 0) b.better(0, g.kept);
        string r = b.report(0, n, pre, b.pieces[n].node, th);
        if (!r.empty()) {
            fprintf(stderr, "report refused %s\n", r.c_str());
            exit(9);
        }
        if (!seeding) {
            out.told += g.calls;
            if (n) out.others += g.calls;
        } else
            out.seeded += g.calls;
    };
    if (workers > 1)
        while (b.free_ < workers && b.free_ > 0 && b.room() > 0) {
            ll n = b.take(0, 1);
            if (n < 0) break;
            work(n, b.pieces[n].grant, true);
        }
    out.freeAfterSeed = b.free_;
    for (;;) {
        ll n = b.take(0, 4096);
        if (n < 0) break;
        work(n, b.pieces[n].grant, false);
        b.log.clear();
    }
    out.open = b.free_ > 0;
    out.value = b.value;
    out.plan = b.best;
    out.root = b.root;
    out.spent = b.spent;
    out.pieces = (ll)b.pieces.size();
}
static Outcome solve(const Line &L, int version, int workers, ll nodes) {
    pool.clear();
    wpool.clear();
    Outcome out;
    out.order = search_order(L);
    Book b(L, out.order, nodes, version);
    vector<Place> gp;
    if (greedy(L, gp, version)) b.better(0, gp);
    work_off(L, b, version, workers, out);
    return out;
}
// The greatest level that a tree shows at a value, at most 12304.
static ll level_of(const Line &L, const vector<int> &order, int version, int root, ll value) {
    Loads ld(L);
    ll least = value >= 0 ? min<ll>(value, 12304) : 12304;
    function<void(int, int, int)> walk = [&](int n, int k, int used) {
        const Node d = pool[n];
        if (d.kind == OPEN) least = min(least, max<ll>(ld.maxcost(), (ld.rawTotal + ld.demand + L.H - 1) / L.H));
        if (d.kind != SPLIT) return;
        int u = order[k], w = width(L, used);
        for (int i = 0; i < d.n; i++) {
            Place p{i / w, i % w};
            ld.place(u, p);
            walk(d.first + i, k + 1, max(used, p.slot + 1));
            ld.remove(u, p);
        }
    };
    walk(root, 0, 0);
    return least;
}
static string cert_text(const Line &L, const Outcome &o, int version) {
    if (version == 3 && !o.open) version = 2;
    string t = "ecplan " + str(version) + "\nslots " + str(L.slots) + "\n";
    for (auto &u : L.units) t += "unit " + u.name + " " + str(u.bytes) + " " + str(u.period) + "\n";
    t += "order";
    for (int i : o.order) t += " " + str(i);
    t += "\n";
    if (o.value < 0)
        t += "value none\n";
    else {
        t += "value " + str(o.value) + "\n";
        for (auto &p : o.plan) t += "place " + str(p.phase) + " " + str(p.slot) + "\n";
    }
    if (version == 3) t += "level " + str(level_of(L, o.order, version, o.root, o.value)) + "\n";
    t += "tree\n";
    preorder(o.root, [&](int x) { t += node_line(pool[x]); });
    return t + "end\n";
}
static string plan_text(const Line &L, const Outcome &o, int version) {
    string t;
    if (o.open)
        t = "unproved " + (o.value < 0 ? string("none") : str(o.value)) + "\ncut budget\n" +
            (version == 3 ? "at least " + str(level_of(L, o.order, version, o.root, o.value)) + "\n" : "");
    else if (o.value < 0)
        return "no plan\n";
    else
        t = "optimal " + str(o.value) + "\n";
    if (o.value >= 0)
        for (size_t i = 0; i < L.units.size(); i++)
            t += "unit " + L.units[i].name + " phase " + str(o.plan[i].phase) + " slot " +
                 str(o.plan[i].slot) + "\n";
    return t;
}
