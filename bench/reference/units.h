// The unit text.
#pragma once
#include <algorithm>
#include <cstdint>
#include <cstdio>
#include <cstdlib>
#include <cstring>
#include <fstream>
#include <functional>
#include <iostream>
#include <map>
#include <memory>
#include <numeric>
#include <optional>
#include <set>
#include <sstream>
#include <string>
#include <vector>
using namespace std;
typedef long long ll;

struct Unit {
    string name;
    int period = 0;
    int bytes = 0;
};
struct Line {
    int slots = 1;
    ll tick_ns = 0;
    vector<Unit> units;
    int H = 1;
};
struct Refused {
    string text;
    int status;
};

// A small reader of the TOML that rows use.
struct Val {
    int kind = 0;
    ll num = 0;
    string str;
    vector<Val> arr;
    vector<pair<string, Val>> tab;
};  // 1 int 2 str 3 array 4 table 5 other
static const Val *get(const Val &t, const char *k) {
    for (auto &p : t.tab)
        if (p.first == k) return &p.second;
    return nullptr;
}
struct Toml {
    const string &s;
    size_t i = 0;
    Toml(const string &s) : s(s) {}
    [[noreturn]] void bad() { throw Refused{"refused U2 NotToml\n", 3}; }
    void ws() {
        while (i < s.size() && (s[i] == ' ' || s[i] == '\t')) i++;
    }
    void wsnl() {
        for (;;) {
            ws();
            if (i < s.size() && (s[i] == '\n' || s[i] == '\r'))
                i++;
            else if (i < s.size() && s[i] == '#') {
                while (i < s.size() && s[i] != '\n') i++;
            } else
                break;
        }
    }
    string key() {
        ws();
        string k;
        while (i < s.size() && (isalnum((unsigned char)s[i]) || s[i] == '_' || s[i] == '-')) k += s[i++];
        if (k.empty()) bad();
        ws();
        return k;
    }
    Val value() {
        ws();
        Val v;
        if (i >= s.size()) bad();
        if (s[i] == '"') {
            i++;
            v.kind = 2;
            while (i < s.size() && s[i] != '"' && s[i] != '\n') v.str += s[i++];
            if (i >= s.size() || s[i] != '"') bad();
            i++;
            return v;
        }
        if (s[i] == '[') {
            i++;
            v.kind = 3;
            for (;;) {
                wsnl();
                if (i < s.size() && s[i] == ']') {
                    i++;
                    return v;
                }
                v.arr.push_back(value());
                wsnl();
                if (i < s.size() && s[i] == ',') {
                    i++;
                    continue;
                }
                if (i < s.size() && s[i] == ']') {
                    i++;
                    return v;
                }
                bad();
            }
        }
        if (s[i] == '{') {
            i++;
            v.kind = 4;
            ws();
            if (i < s.size() && s[i] == '}') {
                i++;
                return v;
            }
            for (;;) {
                string k = key();
                if (i >= s.size() || s[i] != '=') bad();
                i++;
                v.tab.push_back({k, value()});
                ws();
                if (i < s.size() && s[i] == ',') {
                    i++;
                    continue;
                }
                if (i < s.size() && s[i] == '}') {
                    i++;
                    return v;
                }
                bad();
            }
        }
        string w;
        while (i < s.size() &&
               (isalnum((unsigned char)s[i]) || s[i] == '-' || s[i] == '+' || s[i] == '.' || s[i] == '_'))
            w += s[i++];
        if (w.empty()) bad();
        bool digits = true;
        size_t b = w[0] == '-' || w[0] == '+';
        for (size_t j = b; j < w.size(); j++)
            if (!isdigit((unsigned char)w[j])) digits = false;
        if (digits && w.size() > b) {
            v.kind = 1;
            v.num = atoll(w.c_str());
        } else
            v.kind = 5;
        return v;
    }
    Val doc() {
        Val top;
        top.kind = 4;
        vector<size_t> path;
        int where = 0;  // 0 top, 1 unit, 2 slave
        auto arr = [&](Val &t, const char *k) -> Val & {
            for (auto &p : t.tab)
                if (p.first == k) return p.second;
            Val a;
            a.kind = 3;
            t.tab.push_back({k, a});
            return t.tab.back().second;
        };
        for (;;) {
            wsnl();
            if (i >= s.size()) return top;
            if (s[i] == '[') {
                if (s.compare(i, 8, "[[unit]]") == 0) {
                    i += 8;
                    Val t;
                    t.kind = 4;
                    arr(top, "unit").arr.push_back(t);
                    where = 1;
                } else if (s.compare(i, 14, "[[unit.slave]]") == 0) {
                    i += 14;
                    Val t;
                    t.kind = 4;
                    Val &u = arr(top, "unit");
                    if (u.arr.empty()) bad();
                    arr(u.arr.back(), "slave").arr.push_back(t);
                    where = 2;
                } else
                    bad();
            } else {
                string k = key();
                if (i >= s.size() || s[i] != '=') bad();
                i++;
                Val v = value();
                Val *t = &top;
                if (where >= 1) t = &arr(top, "unit").arr.back();
                if (where == 2) t = &arr(*t, "slave").arr.back();
                if (get(*t, k.c_str())) bad();
                t->tab.push_back({k, v});
            }
            ws();
            if (i < s.size() && s[i] == '#')
                while (i < s.size() && s[i] != '\n') i++;
            if (i < s.size() && s[i] != '\n' && s[i] != '\r') bad();
        }
    }
};
static string str(ll n) { return to_string(n); }
// Of the faults only those that rows with a plan or a check meet, in the order of their numbers.
static Line read_units(const string &text) {
    Val top = Toml(text).doc();
    Line L;
    auto no = [](const string &t) { throw Refused{"refused " + t + "\n", 3}; };
    if (!get(top, "tick_ns")) no("U3 Missing - - tick_ns");
    if (!get(top, "slots")) no("U3 Missing - - slots");
    const Val *us = get(top, "unit");
    if (!us || us->arr.empty()) no("U6 NoUnits");
    if (us->arr.size() > 48) no("U7 TooManyUnits");
    L.tick_ns = get(top, "tick_ns")->num;
    L.slots = (int)get(top, "slots")->num;
    vector<ll> sizes;
    for (auto &u : us->arr) {
        Unit x;
        if (!get(u, "name") || !get(u, "period")) throw Refused{"unsupported\n", 9};
        x.name = get(u, "name")->str;
        x.period = (int)get(u, "period")->num;
        ll b = 0;
        const Val *ss = get(u, "slave");
        if (ss)
            for (auto &s : ss->arr) {
                if (!get(s, "out_bytes") || !get(s, "in_bytes")) throw Refused{"unsupported\n", 9};
                b += get(s, "out_bytes")->num + get(s, "in_bytes")->num;
            }
        x.bytes = (int)min<ll>(b, 100000);
        L.units.push_back(x);
    }
    for (size_t i = 0; i < L.units.size(); i++)
        for (size_t j = 0; j < i; j++)
            if (L.units[i].name == L.units[j].name) no("U9 DuplicateName " + str(i) + " -");
    for (size_t i = 0; i < L.units.size(); i++)
        if (L.units[i].period < 1 || L.units[i].period > 60) no("U10 PeriodRange " + str(i) + " -");
    for (size_t i = 0; i < L.units.size(); i++) {
        const Val *ss = get(us->arr[i], "slave");
        if (!ss || ss->arr.empty() || ss->arr.size() > 8) no("U11 SlaveCount " + str(i) + " -");
    }
    for (size_t i = 0; i < L.units.size(); i++)
        if (L.units[i].bytes > 1486) no("U13 UnitTooBig " + str(i) + " -");
    ll h = 1;
    for (auto &u : L.units) {
        h = lcm(h, (ll)u.period);
        if (h > 1024) no("U17 HyperTooLong");
    }
    if (L.slots < 1 || L.slots > 8) no("U18 SlotsRange");
    L.H = (int)h;
    return L;
}
