// The book of pieces.
#pragma once
#include "trees.h"

static string opt(ll v) { return v < 0 ? "None" : "Some(" + str(v) + ")"; }
struct Piece {
    int node;
    int8_t state;
    int worker;
    ll grant;
};  // 0 free 1 taken 2 ended
struct Book {
    const Line &L;
    vector<int> order;
    ll nodes;
    int version;
    vector<Piece> pieces;
    size_t lowest = 0;
    ll value = -1, spent = 0, granted = 0;
    int taken = 0;
    ll free_ = 1;
    vector<Place> best;
    vector<string> log;
    int root;
    Book(const Line &L, vector<int> o, ll nodes, int version)
        : L(L), order(o), nodes(nodes), version(version) {
        root = fresh(-1);
        pieces.push_back({root, 0, 0, 0});
    }
    // Goes on with a tree: its open leaves are the pieces.
    Book(const Line &L, vector<int> o, ll nodes, int version, int given)
        : L(L), order(o), nodes(nodes), version(version), free_(0), root(given) {
        preorder(given, [&](int x) {
            if (pool[x].kind == OPEN) {
                pieces.push_back({x, 0, 0, 0});
                free_++;
            }
        });
    }
    vector<Place> prefix(int node) const {
        vector<int> ords;
        for (int x = node; pool[x].parent >= 0; x = pool[x].parent)
            ords.push_back(x - pool[pool[x].parent].first);
        reverse(ords.begin(), ords.end());
        vector<Place> p;
        int used = 0;
        for (int o : ords) {
            int w = width(L, used);
            Place q{o / w, o % w};
            p.push_back(q);
            used = max(used, q.slot + 1);
        }
        return p;
    }
    ll room() const { return nodes - spent - granted; }
    // piece number, or -1 later, -2 done
    ll hand(size_t n, int worker, ll most) {
        ll g = min(most, room());
        pieces[n].state = 1;
        pieces[n].worker = worker;
        pieces[n].grant = g;
        granted += g;
        taken++;
        free_--;
        log.push_back("Took { worker: " + str(worker) + ", piece: " + str(n) + ", grant: " + str(g) + " }");
        return (ll)n;
    }
    ll nothing() const { return taken == 0 && (free_ == 0 || room() == 0) ? -2 : -1; }
    ll take(int worker, ll most) {
        while (lowest < pieces.size() && pieces[lowest].state != 0) lowest++;
        if (lowest == pieces.size() || room() == 0) return nothing();
        return hand(lowest, worker, most);
    }
    ll take_piece(int worker, ll n, ll most) {
        if (n >= (ll)pieces.size() || pieces[n].state != 0) return -3;
        if (room() == 0) return nothing();
        return hand(n, worker, most);
    }
    string better(int worker, const vector<Place> &p) {
        string bad = illegal(L, p, true);
        if (!bad.empty()) return "Illegal(" + bad + ")";
        ll c = busiest(L, p);
        if (value >= 0 && c >= value) return "NotBetter(" + str(value) + ")";
        value = c;
        best = p;
        log.push_back("Better { worker: " + str(worker) + ", value: " + str(c) + " }");
        return "";
    }
    string report(int worker, ll n, const vector<Place> &pre, int tree, ll threshold) {
        if (n >= (ll)pieces.size() || pieces[n].state != 1) return "NotTaken";
        if (pieces[n].worker != worker) return "NotYours";
        if (!(prefix(pieces[n].node) == pre)) return "Stranger";
        if (threshold >= 0 && (value < 0 || threshold < value)) return "AheadOfBook(" + opt(value) + ")";
        ll s = 0;
        preorder(tree, [&](int x) {
            if (pool[x].kind != OPEN) s++;
        });
        if (s > pieces[n].grant) return "OverGrant";
        int at = pieces[n].node;
        if (at != tree) {
            int parent = pool[at].parent;
            pool[at] = pool[tree];
            pool[at].parent = parent;
            if (pool[at].kind == SPLIT)
                for (int i = 0; i < pool[at].n; i++) pool[pool[at].first + i].parent = at;
        }
        ll first = (ll)pieces.size(), count = 0;
        preorder(at, [&](int x) {
            if (pool[x].kind == OPEN) {
                pieces.push_back({x, 0, 0, 0});
                count++;
            }
        });
        granted -= pieces[n].grant;
        taken--;
        pieces[n].state = 2;
        spent += s;
        free_ += count;
        log.push_back("Reported { worker: " + str(worker) + ", piece: " + str(n) + ", spent: " + str(s) +
                      ", first: " + str(first) + ", count: " + str(count) + " }");
        return "";
    }
    string back(int worker, ll n) {
        if (n >= (ll)pieces.size() || pieces[n].state != 1) return "NotTaken";
        if (pieces[n].worker != worker) return "NotYours";
        granted -= pieces[n].grant;
        taken--;
        free_++;
        pieces[n].state = 0;
        lowest = min(lowest, (size_t)n);
        log.push_back("Back { worker: " + str(worker) + ", piece: " + str(n) + " }");
        return "";
    }
};
