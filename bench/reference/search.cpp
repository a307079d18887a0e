// A reference of the planner and the checker, written from the definitions and not from the program: the text and the
// certificate of `plan` in versions 1 to 3, and the answers to the lines of the scripts. No part of the gate.
//
//   g++ -O2 -std=c++17 -o search bench/reference/search.cpp
//   search [--version 1|2|3] [--nodes N] [--workers N] [--out PATH] [--stats] < units.toml
//   search --resume CERT [--nodes N] [--workers N] [--out PATH] < units.toml
//   search --check CERT [--known 1|2|3] < units.toml
//   search --scripts FILE --version V          (the books of `unturned` are of version 1)
//   search --line SLOTS BYTES/PERIOD[/NAME] .. [--version ..]
//
// With more workers than one the seeding alone differs.
#include "checking.h"

static vector<string> split_ws(const string &t) {
    istringstream in(t);
    vector<string> w;
    string x;
    while (in >> x) w.push_back(x);
    return w;
}
static bool num(const string &w, ll &n) {
    if (w.empty()) return false;
    for (char c : w)
        if (!isdigit((unsigned char)c)) return false;
    n = atoll(w.c_str());
    return true;
}
static string word(const vector<string> &w, size_t i) { return i < w.size() ? w[i] : ""; }
static ll numo(const vector<string> &w, size_t i) {
    ll n;
    return num(word(w, i), n) ? n : -1;
}
static bool line_of(int slots, const vector<string> &words, Line &L) {
    L = Line();
    L.slots = slots;
    L.tick_ns = 1000000;
    int k = 0;
    for (auto &x : words) {
        int o = 0, in = 0, p = 0, n = 1;
        string b = x.substr(0, x.find('/')), r = x.substr(x.find('/') + 1);
        if (sscanf(b.c_str(), "%d+%d", &o, &in) < 1) return false;
        if (sscanf(r.c_str(), "%d/%d", &p, &n) < 1) return false;
        for (int j = 0; j < n; j++, k++) {
            Unit u;
            u.name = string(1, (char)('a' + k % 26)) + (k < 26 ? "" : "_");
            u.period = p;
            u.bytes = o + in;
            if (u.bytes > 1486) return false;
            L.units.push_back(u);
        }
    }
    if (L.units.empty() || L.units.size() > 48) return false;
    ll h = 1;
    for (auto &u : L.units) {
        h = lcm(h, (ll)u.period);
        if (h > 1024) return false;
    }
    L.H = (int)h;
    return slots >= 1 && slots <= 8;
}
static vector<Place> places_from(const vector<string> &w, size_t i) {
    vector<Place> p;
    for (; i < w.size(); i++) {
        int f, s;
        char c;
        if (sscanf(w[i].c_str(), "%d,%d%c", &f, &s, &c) != 2) break;
        p.push_back({f, s});
    }
    return p;
}
static string places_text(const vector<Place> &p) {
    string t;
    for (auto &x : p) t += (t.empty() ? "" : " ") + str(x.phase) + "," + str(x.slot);
    return t;
}
static string unbar(string t) {
    for (auto &c : t)
        if (c == '|') c = '\n';
    return t;
}
static string bar(string t) {
    for (auto &c : t)
        if (c == '\n') c = '|';
    return t;
}
static string after(string t, int n) {
    for (int i = 0; i < n; i++) {
        size_t e = t.find(' ');
        t = e == string::npos ? "" : t.substr(e + 1);
    }
    return t;
}
static const char *EXAMPLE =
    "ecplan 1\nslots 1\nunit a 200 2\nunit b 200 3\norder 0 1\nvalue 464\nplace 0 0\nplace 0 0\ntree\nS 2\nS "
    "3\nT 0\nT 4\nT 2\nS 3\nT 3\nT 1\nT 5\nend\n";
struct ScriptGuide : Guide {
    ll value, floor;
    bool stops;
    ll asked = 0, told = 0, dearer = 0;
    bool halted = false;
    ll bound() override {
        asked++;
        return value;
    }
    ll found(const vector<Place> &, ll c) override {
        told++;
        if (value >= 0 && c >= value) dearer++;
        if (stops || c < floor) {
            halted = true;
            return -1;
        }
        value = c;
        return c;
    }
    bool stopped() override { return halted; }
};
struct Scripts {
    int asked, version;
    Line L;
    string subject;
    unique_ptr<Book> book;
    ll nodes = 0;
    int slots = 0;
    unique_ptr<Loads> ld;
    map<int, Place> placed;
    bool reached(const vector<int> &order, const vector<Place> &p) {
        if (p.empty()) return true;
        if (p.size() != 1) return false;
        return p[0].slot == 0 && p[0].phase < phases(L, order[0], 0, version);
    }
    bool head(const string &t) {
        auto w = split_ws(t);
        subject = word(w, 0);
        version = subject == "unturned" ? 1 : asked;
        if (subject == "unturned") subject = "book";
        pool.clear();
        wpool.clear();
        book.reset();
        ld.reset();
        placed.clear();
        if (subject == "texts") return true;
        slots = (int)numo(w, 1);
        if (subject == "sweep") return true;
        size_t from = subject == "book" ? 3 : 2;
        vector<string> rest(w.begin() + min(from, w.size()), w.end());
        if (!line_of(slots, rest, L)) return false;
        if (subject == "book") {
            nodes = numo(w, 2);
            book = make_unique<Book>(L, search_order(L), nodes, version);
        }
        if (subject == "loads") ld = make_unique<Loads>(L);
        return true;
    }
    string outcome(const Outcome &o, bool whole) {
        string v = o.value < 0 ? "none" : str(o.value);
        if (o.open) return "unproved " + v + " Budget" + (whole ? " " + debug_tree(o.root) : "");
        if (o.value < 0) return "no plan";
        return "optimal " + v + " " + places_text(o.plan);
    }
    string checked(const Outcome &o) {
        string t = cert_text(L, o, version);
        CertReader r(t, version);
        Cert c = r.read();
        return check(L, c).debug;
    }
    string crewed(int workers, ll n, Outcome &o) {
        o = solve(L, version, max(1, min(16, workers)), n);
        if (o.open) return "unproved " + (o.value < 0 ? string("none") : str(o.value)) + " Budget";
        return (o.value < 0 ? "no plan" : "optimal " + str(o.value)) + " " + checked(o);
    }
    // What a search ended with, of one without a proof its level and what the checker answers; and its certificate.
    pair<string, string> ended(const Outcome &o) {
        string t = cert_text(L, o, version), v = o.value < 0 ? "none" : str(o.value);
        if (!o.open) return {(o.value < 0 ? "no plan" : "optimal " + v) + " " + checked(o), bar(t)};
        CertReader r(t, version);
        Cert c = r.read();
        return {"unproved " + v + " Budget " + str(c.level) + " " + check(L, c).debug, bar(t)};
    }
    pair<string, string> resumed(int workers, ll n, const string &text) {
        pool.clear();
        wpool.clear();
        try {
            CertReader r(text, version);
            Cert c = r.read();
            Verdict v = check(L, c);
            if (v.status != 2) return {v.debug, ""};
            return ended(solve_from(L, c, version, max(1, min(16, workers)), n));
        } catch (CertFault &f) {
            return {cert_fault_debug(f), ""};
        }
    }
    string judged(const string &text, bool only_read) {
        try {
            CertReader r(text, version);
            Cert c = r.read();
            if (only_read) return "right";
            return check(L, c).debug;
        } catch (CertFault &f) {
            return cert_fault_debug(f);
        }
    }
    string written(const string &text, ll room) {
        try {
            CertReader r(text, version);
            Cert c = r.read();
            string t = cert_text(c);
            if ((ll)t.size() > room) return bar(t.substr(0, room)) + " failed";
            return bar(t);
        } catch (CertFault &f) {
            return cert_fault_debug(f);
        }
    }
    string edited(ll first, ll last, const string &add) {
        string t, all = EXAMPLE;
        size_t at = 0;
        ll i = 0;
        for (; at < all.size(); i++) {
            size_t e = all.find('\n', at);
            string l = all.substr(at, e - at);
            at = e + 1;
            if (i == max<ll>(first - 1, 0)) t += add;
            if (i < max<ll>(first - 1, 0) || last <= i) t += l + "|";
        }
        return unbar(t);
    }
    optional<string> answer(const string &call) {
        auto w = split_ws(call);
        string n = word(w, 0);
        if (subject == "search") {
            auto order = search_order(L);
            if (n == "order") {
                string t = "[";
                for (size_t i = 0; i < order.size(); i++) t += (i ? ", " : "") + str(order[i]);
                return t + "]";
            }
            if (n == "greedy") {
                vector<Place> p;
                if (!greedy(L, p, version)) return "none";
                return places_text(p) + " " + str(busiest(L, p));
            }
            if (n == "explore") {
                ScriptGuide g;
                g.floor = max<ll>(0, numo(w, 2));
                g.value = numo(w, 1);
                if (g.value >= 0) g.value = max(g.value, g.floor);
                ll grant = numo(w, 3);
                g.stops = word(w, 4) == "stops";
                auto p = places_from(w, 5);
                if (grant <= 0 || !reached(order, p)) return "no node, or a place that is not reached";
                Explorer ex(L, order, version);
                int r = fresh(-1);
                ll th = ex.explore(r, p, g, grant);
                return debug_tree(r) + " " + opt(th) + " asked " + str(g.asked) + " told " + str(g.told) +
                       " dearer " + str(g.dearer);
            }
            if (n == "solve") {
                auto o = solve(L, version, 1, max<ll>(1, numo(w, 1)));
                return outcome(o, word(w, 2) == "whole") + " told " + str(o.told) + " " + str(o.others);
            }
            if (n == "crew") {
                Outcome o;
                string t = crewed((int)numo(w, 1), numo(w, 2), o);
                if (word(w, 3) == "told") t += " told " + str(o.told);
                return t;
            }
            if (n == "again") {
                Outcome o;
                return crewed((int)numo(w, 2), numo(w, 3), o) + " " + word(w, 1) + " times";
            }
            if (n == "meet") {
                Outcome o;
                string t = crewed((int)numo(w, 1), numo(w, 2), o);
                return t + (o.freeAfterSeed >= numo(w, 1) ? " met" : " missed");
            }
            if (n == "checked" || n == "certificate" || n == "lines") {
                auto o = solve(L, version, 1, 1000000);
                if (o.open) return n == "checked" ? "unproved" : n == "lines" ? "0" : "";
                if (n == "checked") return checked(o);
                string t = bar(cert_text(L, o, version));
                if (n == "certificate") return t;
                string want = after(call, 1);
                if (call == "lines") want = "";
                ll c = 0;
                size_t at = 0;
                while (at < t.size()) {
                    size_t e = t.find('|', at);
                    if (want.empty() || t.substr(at, e - at) == want) c++;
                    at = e + 1;
                }
                return str(c);
            }
            if (n == "level") return ended(solve(L, version, 1, numo(w, 1))).first;
            if (n == "partial") return ended(solve(L, version, 1, numo(w, 1))).second;
            if (n == "resume") return resumed((int)numo(w, 1), numo(w, 2), unbar(after(call, 3))).first;
            if (n == "resumed") return resumed((int)numo(w, 1), numo(w, 2), unbar(after(call, 3))).second;
            if (n == "onward") {
                string cut = ended(solve(L, version, (int)numo(w, 1), numo(w, 2))).second;
                return resumed((int)numo(w, 1), numo(w, 3), unbar(cut)).first;
            }
            return "no call";
        }
        if (subject == "sweep" && n == "pairs") {
            static const char *K[] = {"1/1",    "1/2",    "1/3",    "1/4",   "100/1", "100/2",
                                      "100/3",  "100/4",  "744/1",  "744/2", "744/3", "744/4",
                                      "1486/1", "1486/2", "1486/3", "1486/4"};
            ll a = 0, b = 0, c = 0;
            for (auto x : K)
                for (auto y : K) {
                    if (!line_of(slots, {x, y}, L)) continue;
                    Outcome o1, o2;
                    string s1 = crewed((int)numo(w, 1), numo(w, 3), o1),
                           s2 = crewed((int)numo(w, 2), numo(w, 3), o2);
                    if (s1 != s2)
                        c++;
                    else if (s1.substr(0, 8) == "optimal " &&
                             s1.substr(8, s1.find(" Ok") - 8) ==
                                 s1.substr(s1.find("Least(") + 6, s1.size() - 2 - s1.find("Least(") - 6))
                        a++;
                    else if (s1 == "no plan Ok(NoPlan)")
                        b++;
                    else
                        c++;
                }
            return "optimal " + str(a) + " no plan " + str(b) + " otherwise " + str(c);
        }
        if (subject == "book") {
            auto res = [](const string &r) { return r.empty() ? string("Ok(())") : "Err(" + r + ")"; };
            int worker = (int)numo(w, 1);
            Book &b = *book;
            if (n == "better") return res(b.better(worker, places_from(w, 2)));
            if (n == "take") {
                ll most = numo(w, 2);
                if (most <= 0) return "no grant";
                ll p = numo(w, 3);
                ll r = p >= 0 ? b.take_piece(worker, p, most) : b.take(worker, most);
                if (r == -1) return "later";
                if (r == -2) return "done";
                if (r == -3) return "NotFree";
                return "piece " + str(r) + " " + opt(b.value) + " " + str(b.pieces[r].grant) + " (" +
                       places_text(b.prefix(b.pieces[r].node)) + ")";
            }
            if (n == "report") {
                ll piece = numo(w, 2);
                if (piece < 0) return "no piece";
                ll grant = numo(w, 4);
                auto p = places_from(w, 5);
                if (grant <= 0 || !reached(b.order, p)) return "no node, or a place that is not reached";
                ScriptGuide g;
                g.floor = 0;
                g.value = numo(w, 3);
                g.stops = false;
                Explorer ex(L, b.order, version);
                int r = fresh(-1);
                ll th = ex.explore(r, p, g, grant);
                if (pool[r].kind == OPEN) return "an open leaf alone";
                return res(b.report(worker, piece, p, r, th));
            }
            if (n == "back") {
                ll piece = numo(w, 2);
                if (piece < 0) return "no piece";
                return res(b.back(worker, piece));
            }
            if (n == "resume") try {
                    const string text = unbar(after(call, 2));
                    CertReader r(text, version);
                    Cert c = r.read();
                    Verdict v = check(L, c);
                    if (v.status != 2) return v.debug;
                    nodes = numo(w, 1);
                    book = make_unique<Book>(L, vector<int>(c.order.begin(), c.order.end()), nodes, version, c.root);
                    book->value = c.value;
                    book->best = c.plan;
                    return "Ok(())";
                } catch (CertFault &f) {
                    return cert_fault_debug(f);
                }
            if (n == "counts") return str(b.spent) + " " + str(b.free_ + b.taken) + " " + str(b.log.size());
            if (n == "log") {
                string t = "[";
                for (size_t i = 0; i < b.log.size(); i++) t += (i ? ", " : "") + b.log[i];
                return t + "]";
            }
            if (n == "finish") {
                string t = str(b.spent) + " " + debug_tree(b.root) + " " + str(max<ll>(0, b.value)) + " " +
                           str(b.log.size());
                auto order = b.order;
                book = make_unique<Book>(L, order, nodes, version);
                return t;
            }
            return "no call";
        }
        if (subject == "certs") {
            pool.clear();
            wpool.clear();
            if (n == "read") return judged(unbar(after(call, 1)), true);
            if (n == "write") return written(unbar(after(call, 2)), numo(w, 1));
            if (n == "example") return written(EXAMPLE, numo(w, 1));
            if (n == "check") return judged(unbar(after(call, 1)), false);
            if (n == "wide") {
                string t =
                    "ecplan 1\nslots 1\nunit a 1 60\nunit b 1 60\nunit c 1 60\norder 0 1 2\nvalue 84\nplace "
                    "0 0\nplace 0 0\nplace 0 0\ntree\nS 60\n";
                for (int x = 0; x < 60; x++) {
                    string tick = x < 59 ? str(x) : word(w, 1);
                    t += "S 60\n";
                    for (int i = 0; i < 60; i++) {
                        t += "S 60\n";
                        for (int j = 0; j < 60; j++) t += "T " + tick + "\n";
                    }
                }
                return judged(t + "end\n", false);
            }
            if (n == "lines") return judged(edited(numo(w, 1), numo(w, 2), after(call, 3)), true);
            if (n == "judge") return judged(edited(numo(w, 1), numo(w, 2), after(call, 3)), false);
            string t;
            ll c = max<ll>(0, min<ll>(numo(w, 1), 70000000));
            if (n == "front")
                t = string(EXAMPLE).substr(0, c);
            else if (n == "tab") {
                t = EXAMPLE;
                if (c < (ll)t.size()) t[c] = 9;
            } else if (n == "twice")
                t = string(EXAMPLE) + EXAMPLE;
            else {
                string h, l = " ", e;
                if (n == "splits")
                    h = "ecplan 1\nslots 1\nunit a 4 1\norder 0\nvalue none\ntree\n", l = "S 1\n",
                    e = "F 0 0\nend\n";
                if (n == "units") h = "ecplan 1\nslots 8\n", l = "unit a 1486 60\n";
                t = h;
                for (ll i = 0; i < c; i++) t += l;
                t += e;
            }
            return judged(t, true);
        }
        if (subject == "loads") {
            if (n == "place") {
                auto p = places_from(w, 2);
                ld->place((int)numo(w, 1), p[0]);
                placed[(int)numo(w, 1)] = p[0];
                return nullopt;
            }
            if (n == "remove") {
                int u = (int)numo(w, 1);
                ld->remove(u, placed[u]);
                return nullopt;
            }
            if (n == "weight_bound") {
                vector<int> ws;
                for (size_t i = 2; i < w.size(); i++) {
                    ll x;
                    if (!num(w[i], x)) break;
                    ws.push_back((int)x);
                }
                return ld->weights(ws, numo(w, 1)) ? "true" : "false";
            }
            if (n == "average_bound") {
                const string v = word(w, 1);
                if (v.size() > 15) return "false";
                return ld->average(numo(w, 1)) ? "true" : "false";
            }
            if (n == "raw") return str(ld->raw[numo(w, 1) % ld->H]);
            if (n == "cost") return str(ld->cost[numo(w, 1) % ld->H]);
            if (n == "demand") return str(ld->demand);
            if (n == "raw_total") return str(ld->rawTotal);
            return nullopt;
        }
        return nullopt;
    }
};
static string slurp(istream &in) { return string(istreambuf_iterator<char>(in), {}); }
int main(int argc, char **argv) {
    int version = 3, workers = 1, known = 3;
    ll nodes = 1000000;
    string out, cert, scripts, given;
    bool stats = false;
    int slots = 0;
    vector<string> line;
    for (int i = 1; i < argc; i++) {
        string a = argv[i];
        auto val = [&]() { return string(argv[++i]); };
        if (a == "--version") {
            version = atoi(val().c_str());
            known = version;
        } else if (a == "--known")
            known = atoi(val().c_str());
        else if (a == "--nodes")
            nodes = atoll(val().c_str());
        else if (a == "--workers")
            workers = atoi(val().c_str());
        else if (a == "--out")
            out = val();
        else if (a == "--check")
            cert = val();
        else if (a == "--resume")
            given = val();
        else if (a == "--scripts")
            scripts = val();
        else if (a == "--stats")
            stats = true;
        else if (a == "--line") {
            slots = atoi(val().c_str());
            while (i + 1 < argc && argv[i + 1][0] != '-') line.push_back(val());
        } else {
            fprintf(stderr, "what is %s\n", a.c_str());
            return 5;
        }
    }
    if (!scripts.empty()) {
        ifstream f(scripts);
        string t = slurp(f);
        Scripts sc;
        sc.asked = version;
        bool first = true, ok = false;
        int no = 0;
        size_t at = 0;
        while (at < t.size()) {
            size_t e = t.find('\n', at);
            if (e == string::npos) e = t.size();
            string l = t.substr(at, e - at);
            at = e + 1;
            no++;
            if (l == "====") break;
            if (l == "~") {
                first = true;
                continue;
            }
            if (first) {
                first = false;
                ok = sc.head(l);
                if (!ok) printf("%d\tno script\n", no);
                continue;
            }
            if (!ok || l.empty() || l[0] == '#') continue;
            size_t s = l.find(" => ");
            string call = s == string::npos ? l : l.substr(0, s);
            auto a = sc.answer(call);
            if (a) printf("%d\t%s\n", no, a->c_str());
        }
        return 0;
    }
    try {
        Line L;
        if (slots) {
            if (!line_of(slots, line, L)) return 3;
        } else
            L = read_units(slurp(cin));
        if (!cert.empty()) {
            ifstream f(cert, ios::binary);
            string t = slurp(f);
            try {
                CertReader r(t, known);
                Cert c = r.read();
                Verdict v = check(L, c);
                cout << v.text;
                return v.status;
            } catch (CertFault &e) {
                cout << cert_fault_text(e);
                return 3;
            }
        }
        Outcome o;
        string same;
        if (given.empty())
            o = solve(L, version, workers, nodes);
        else {
            ifstream f(given, ios::binary);
            string t = slurp(f);
            try {
                CertReader r(t, known);
                Cert c = r.read();
                Verdict v = check(L, c);
                if (v.status > 2) {
                    cout << v.text;
                    return v.status;
                }
                if (v.status < 2) {
                    o.value = c.value, o.plan = c.plan;
                    same = t;
                } else
                    o = solve_from(L, c, version, workers, nodes);
            } catch (CertFault &e) {
                cout << cert_fault_text(e);
                return 3;
            }
        }
        if (!out.empty() && (!o.open || version == 3)) {
            string t = same.empty() ? cert_text(L, o, version) : same;
            if (out == "-")
                cout << t;
            else {
                ofstream f(out, ios::binary);
                f << t;
            }
        }
        if (stats) {
            ll k[6] = {0};
            preorder(o.root, [&](int x) { k[pool[x].kind]++; });
            printf(
                "units %d H %d value %lld %s nodes %lld S %lld T %lld F %lld A %lld W %lld open %lld pieces "
                "%lld\n",
                (int)L.units.size(), L.H, o.value, o.open ? "unproved" : "proved", o.spent, k[SPLIT], k[TICK],
                k[FULL], k[AVG], k[WGT], k[OPEN], o.pieces);
        } else
            cout << plan_text(L, o, version);
        return o.open ? 2 : o.value < 0 ? 1 : 0;
    } catch (Refused &r) {
        cout << r.text;
        return r.status;
    }
}
