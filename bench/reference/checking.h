// Certificates: their text, read and checked.
#pragma once
#include "solve.h"

struct CertFault {
    string name;
    ll line;
};  // line below 0: none
static const map<string, string> codes = {{"NotText", "C2"}, {"Version", "C3"}, {"BadLine", "C4"},
                                          {"Number", "C5"},  {"Early", "C6"},   {"Late", "C7"},
                                          {"TooDeep", "C8"}, {"TooLarge", "C9"}};
struct Cert {
    int version = 1;
    int slots = 0;
    vector<Unit> units;
    vector<ll> order;
    ll value = -1;
    vector<Place> plan;
    ll level = -1;
    int root = -1;
};
struct CertReader {
    const string &s;
    size_t i = 0;
    ll line = 0;
    int known;
    Cert c;
    CertReader(const string &s, int known) : s(s), known(known) {}
    [[noreturn]] void fault(const char *n, ll l) { throw CertFault{n, l}; }
    // The next line, complete, or Early.
    string next() {
        line++;
        size_t e = s.find('\n', i);
        if (e == string::npos) fault("Early", line);
        string t = s.substr(i, e - i);
        i = e + 1;
        return t;
    }
    static vector<string> words(const string &t) {
        vector<string> w;
        string x;
        for (char ch : t) {
            if (ch == ' ') {
                w.push_back(x);
                x.clear();
            } else
                x += ch;
        }
        w.push_back(x);
        return w;
    }
    static bool digits(const string &w) {
        if (w.empty()) return false;
        for (char ch : w)
            if (ch < '0' || ch > '9') return false;
        return true;
    }
    void bad() { fault("BadLine", line); }
    ll number(const string &w, ll lo, ll hi) {
        if (w.size() > 1 && w[0] == '0') fault("Number", line);
        if (w.size() > 15) fault("Number", line);
        ll n = atoll(w.c_str());
        if (n < lo || n > hi) fault("Number", line);
        return n;
    }
    static bool name(const string &w) {
        if (w.empty() || w.size() > 32) return false;
        for (unsigned char ch : w)
            if (!isalnum(ch) && ch != '_' && ch != '-') return false;
        return true;
    }
    void all_digits(const vector<string> &w, size_t from) {
        for (size_t j = from; j < w.size(); j++)
            if (!digits(w[j])) bad();
    }
    Cert read() {
        if (s.size() > 67108864) fault("TooLarge", -1);
        for (unsigned char ch : s)
            if (ch != '\n' && (ch < 0x20 || ch > 0x7e)) fault("NotText", -1);
        {
            size_t e = s.find('\n');
            string t = e == string::npos ? "" : s.substr(0, e);
            c.version = 0;
            for (int v = 1; v <= known; v++)
                if (t == "ecplan " + str(v)) c.version = v;
            if (!c.version) fault("Version", -1);
            i = e + 1;
            line = 1;
        }
        {
            auto w = words(next());
            if (w[0] != "slots" || w.size() != 2) bad();
            all_digits(w, 1);
            c.slots = (int)number(w[1], 1, 8);
        }
        vector<string> w;
        for (;;) {
            w = words(next());
            if (w[0] != "unit" || w.size() == 1) break;
            if (c.units.size() == 48) bad();
            if (w.size() != 4 || !name(w[1])) bad();
            all_digits(w, 2);
            Unit u;
            u.name = w[1];
            u.bytes = (int)number(w[2], 1, 1486);
            u.period = (int)number(w[3], 1, 60);
            c.units.push_back(u);
        }
        if (c.units.empty() || w[0] != "order" || w.size() != c.units.size() + 1) bad();
        all_digits(w, 1);
        for (size_t j = 1; j < w.size(); j++) c.order.push_back(number(w[j], 0, (ll)c.units.size() - 1));
        w = words(next());
        if (w[0] != "value" || w.size() != 2) bad();
        if (w[1] != "none") {
            all_digits(w, 1);
            c.value = number(w[1], 84, 12304);
            for (size_t j = 0; j < c.units.size(); j++) {
                w = words(next());
                if (w[0] != "place" || w.size() != 3) bad();
                all_digits(w, 1);
                Place p;
                p.phase = (int)number(w[1], 0, 59);
                p.slot = (int)number(w[2], 0, 7);
                c.plan.push_back(p);
            }
        }
        if (c.version >= 3) {
            w = words(next());
            if (w[0] != "level" || w.size() != 2) bad();
            all_digits(w, 1);
            c.level = number(w[1], 0, 12304);
        }
        if (next() != "tree") bad();
        c.root = fresh(-1);
        vector<pair<int, int>> due{{c.root, 0}};  // node, splits above it
        while (!due.empty()) {
            auto [n, depth] = due.back();
            due.pop_back();
            string t = next();
            if (t == "end") fault("Early", line);
            w = words(t);
            Node d = pool[n];
            int kids = 0;
            if (w[0] == "S") {
                if (w.size() != 2) bad();
                all_digits(w, 1);
                kids = (int)number(w[1], 1, 480);
                d.kind = SPLIT;
            } else if (w[0] == "T") {
                if (w.size() != 2) bad();
                all_digits(w, 1);
                d.kind = TICK;
                d.a = (int)number(w[1], 0, 1023);
            } else if (w[0] == "F") {
                if (w.size() != 3) bad();
                all_digits(w, 1);
                d.kind = FULL;
                d.a = (int)number(w[1], 0, 1023);
                d.slot = (int8_t)number(w[2], 0, 7);
            } else if (w[0] == "A") {
                if (w.size() != 1) bad();
                d.kind = AVG;
            } else if (w[0] == "W" && c.version >= 2) {
                if (w.size() < 2 || w.size() > 1025) bad();
                all_digits(w, 1);
                d.kind = WGT;
                d.a = (int)wpool.size();
                vector<uint16_t> ws;
                for (size_t j = 1; j < w.size(); j++) ws.push_back((uint16_t)number(w[j], 0, 65535));
                wpool.push_back(ws);
            } else if (w[0] == "O" && c.version >= 3) {
                if (w.size() != 1) bad();
            } else
                bad();
            if (depth > 48) fault("TooDeep", line);
            if (kids) {
                d.first = (int)pool.size();
                d.n = kids;
                for (int j = 0; j < kids; j++) fresh(n);
                for (int j = kids - 1; j >= 0; j--) due.push_back({d.first + j, depth + 1});
            }
            pool[n] = d;
        }
        if (next() != "end") fault("Late", line);
        if (i < s.size()) {
            next();
            fault("Late", line);
        }
        return c;
    }
};
static string cert_text(const Cert &c) {
    string t = "ecplan " + str(c.version) + "\nslots " + str(c.slots) + "\n";
    for (auto &u : c.units) t += "unit " + u.name + " " + str(u.bytes) + " " + str(u.period) + "\n";
    t += "order";
    for (ll i : c.order) t += " " + str(i);
    t += "\n";
    if (c.value < 0)
        t += "value none\n";
    else {
        t += "value " + str(c.value) + "\n";
        for (auto &p : c.plan) t += "place " + str(p.phase) + " " + str(p.slot) + "\n";
    }
    if (c.level >= 0) t += "level " + str(c.level) + "\n";
    t += "tree\n";
    preorder(c.root, [&](int x) { t += node_line(pool[x]); });
    return t + "end\n";
}
// The checker's answer: {program's text, Debug text, status}.
struct Verdict {
    string text, debug;
    int status;
};
static Verdict check(const Line &L, const Cert &c) {
    auto no = [](const string &t, const string &d) {
        return Verdict{"refused " + t + "\n", "Err(" + d + ")", 3};
    };
    bool same = c.slots == L.slots && c.units.size() == L.units.size();
    if (same)
        for (size_t i = 0; i < c.units.size(); i++)
            if (c.units[i].name != L.units[i].name || c.units[i].bytes != L.units[i].bytes ||
                c.units[i].period != L.units[i].period)
                same = false;
    if (!same) return no("K2 OtherUnits", "OtherUnits");
    set<ll> seen(c.order.begin(), c.order.end());
    if (seen.size() != L.units.size() || c.order.size() != L.units.size()) return no("K3 Order", "Order");
    if (c.value >= 0) {
        string bad = illegal(L, c.plan, false);
        if (!bad.empty()) return no("K4 Plan " + bad, "Plan(" + illegal(L, c.plan, true) + ")");
        ll found = busiest(L, c.plan);
        if (found != c.value)
            return no("K5 Value " + str(c.value) + " " + str(found),
                      "Value(" + str(c.value) + ", " + str(found) + ")");
    }
    if (c.level >= 0 && c.value >= 0 && c.level > c.value)
        return no("K9 Level " + str(c.level) + " " + str(c.value),
                  "Level(" + str(c.level) + ", " + str(c.value) + ")");
    Loads ld(L);
    ll number = 0;
    Verdict bad;
    bool ok = true;
    int N = (int)L.units.size();
    function<bool(int, int, int)> walk = [&](int n, int k, int used) -> bool {
        ll me = number++;
        const Node d = pool[n];
        if (d.kind == SPLIT) {
            if (k == N) {
                bad = no("K8 Depth " + str(me), "Depth(" + str(me) + ")");
                return false;
            }
            int u = (int)c.order[k], w = width(L, used), want = w * phases(L, u, k, c.version);
            if (d.n != want) {
                bad = no("K6 Children " + str(me) + " " + str(want) + " " + str(d.n),
                         "Children(" + str(me) + ", " + str(want) + ", " + str(d.n) + ")");
                return false;
            }
            for (int i = 0; i < want; i++) {
                Place p{i / w, i % w};
                ld.place(u, p);
                bool r = walk(d.first + i, k + 1, max(used, p.slot + 1));
                ld.remove(u, p);
                if (!r) return false;
            }
            return true;
        }
        bool holds = false;
        int t = d.a % L.H;
        if (d.kind == TICK) holds = c.value >= 0 && ld.cost[t] >= c.value;
        if (d.kind == FULL) holds = d.slot < L.slots && ld.q[t * L.slots + d.slot] > 1498;
        if (d.kind == AVG) holds = ld.average(c.value);
        if (d.kind == WGT)
            holds = c.version >= 2 && ld.weights(vector<int>(wpool[d.a].begin(), wpool[d.a].end()), c.value);
        if (d.kind == OPEN) holds = c.level >= 0 && (ld.maxcost() >= c.level || ld.average(c.level));
        if (!holds) bad = no("K7 Leaf " + str(me), "Leaf(" + str(me) + ")");
        return holds;
    };
    ok = walk(c.root, 0, 0);
    if (!ok) return bad;
    if (c.level >= 0) return {"at least " + str(c.level) + "\n", "Ok(AtLeast(" + str(c.level) + "))", 2};
    if (c.value >= 0) return {"least " + str(c.value) + "\n", "Ok(Least(" + str(c.value) + "))", 0};
    return {"no plan\n", "Ok(NoPlan)", 1};
}
static string cert_fault_debug(const CertFault &f) {
    return f.name + (f.line >= 0 ? "(" + str(f.line) + ")" : "");
}
static string cert_fault_text(const CertFault &f) {
    return "refused " + codes.at(f.name) + " " + f.name + (f.line >= 0 ? " " + str(f.line) : "") + "\n";
}
// Goes on with the search of a certificate that the checker answers with a level.
static Outcome solve_from(const Line &L, const Cert &c, int version, int workers, ll nodes) {
    Outcome out;
    for (ll i : c.order) out.order.push_back((int)i);
    Book b(L, out.order, nodes, version, c.root);
    b.value = c.value;
    b.best = c.plan;
    work_off(L, b, version, workers, out);
    return out;
}
