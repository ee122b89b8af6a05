"""The C++ that the benches' baselines have in common: it loads a journal of arrivals by the program's method.

It reads the file, finds the words of each text, sorts the numbers of these, then sorts the texts by document, and makes all
lists at once. Words are stretches of ASCII letters and digits, in small letters. A list is a vector of 32 bytes a posting.
"""
TEXT = r"""
#include <algorithm>
#include <chrono>
#include <cstdint>
#include <cstdio>
#include <cstring>
#include <iostream>
#include <sstream>
#include <string>
#include <unordered_map>
#include <vector>
using namespace std;
typedef vector<uint8_t> Bytes;
typedef chrono::steady_clock Clock;
struct Posting { uint32_t doc; uint64_t from, to; uint32_t tf; };
typedef vector<Posting> List;
struct Turn { uint32_t doc; uint64_t at; vector<pair<uint32_t, uint32_t>> weights; };
static const uint64_t NOW = 1ull << 40;

static unordered_map<string, uint32_t> words;
static vector<List> lists;
static uint64_t last_time, entries, weights;
// how long the parts of a load took
static Clock::duration reading, finding, sorting, listing;

static uint64_t be(const uint8_t *p, int n) { uint64_t v = 0; while (n--) v = v << 8 | *p++; return v; }

static Bytes whole(const char *name) {
    FILE *f = fopen(name, "rb");
    Bytes all, piece(1 << 16);
    for (size_t n; (n = fread(piece.data(), 1, piece.size(), f)) > 0;) all.insert(all.end(), piece.begin(), piece.begin() + n);
    fclose(f);
    return all;
}

static vector<pair<uint32_t, uint32_t>> weighed(const uint8_t *text, size_t length) {
    unordered_map<uint32_t, uint32_t> counts;
    string word;
    for (size_t i = 0; i <= length; i++) {
        uint8_t c = i < length ? text[i] : ' ';
        if (isalnum(c)) { word.push_back(tolower(c)); continue; }
        if (word.empty()) continue;
        counts[words.emplace(word, words.size()).first->second]++;
        word.clear();
    }
    return {counts.begin(), counts.end()};
}

static void load(const char *name) {
    auto start = Clock::now();
    auto lap = [&](Clock::duration &of) { auto now = Clock::now(); of += now - start; start = now; };
    Bytes all = whole(name);
    vector<Turn> turns;
    for (size_t gate = 16; gate < all.size() && all[gate] == 0xa5;) {
        size_t length = be(&all[gate + 1], 4);
        const uint8_t *body = &all[gate + 5];
        Turn turn{(uint32_t)be(body + 1, 4), be(body + 5, 8), {}};
        lap(reading);
        turn.weights = weighed(body + 13, length - 13);
        lap(finding);
        sort(turn.weights.begin(), turn.weights.end());
        lap(sorting);
        weights += turn.weights.size();
        last_time = turn.at;
        entries++;
        turns.push_back(move(turn));
        gate += 5 + length;
    }
    lap(reading);
    stable_sort(turns.begin(), turns.end(), [](const Turn &a, const Turn &b) { return a.doc < b.doc; });
    lap(sorting);
    lists.resize(words.size());
    for (size_t k = 0; k < turns.size(); k++) {
        const Turn &turn = turns[k];
        static const vector<pair<uint32_t, uint32_t>> none;
        const auto &old = k && turns[k - 1].doc == turn.doc ? turns[k - 1].weights : none;
        size_t i = 0, j = 0;
        while (i < old.size() || j < turn.weights.size()) {
            uint32_t a = i < old.size() ? old[i].first : UINT32_MAX, b = j < turn.weights.size() ? turn.weights[j].first : UINT32_MAX;
            uint32_t w = min(a, b), before = a == w ? old[i++].second : 0, after = b == w ? turn.weights[j++].second : 0;
            if (before == after) continue;
            List &list = lists[w];
            if (before) { if (list.back().from < turn.at) list.back().to = turn.at; else list.pop_back(); }
            if (after) list.push_back({turn.doc, turn.at, NOW, after});
        }
    }
    lap(listing);
}

static const List &list_of(const string &word) {
    static const List none;
    auto found = words.find(word);
    return found == words.end() ? none : lists[found->second];
}

static void show(const string &reply) {
    fwrite(reply.data(), 1, reply.size(), stdout);
    fflush(stdout);
}

// what was loaded, and in how many nanoseconds; `Loaded` of the module takes it apart
static void tell_load() {
    size_t postings = 0;
    for (auto &list : lists) postings += list.size();
    fprintf(stderr, "%zu %zu %zu", postings, words.size(), (size_t)weights);
    for (auto part : {reading, finding, sorting, listing}) fprintf(stderr, " %lld", (long long)chrono::duration_cast<chrono::nanoseconds>(part).count());
    fprintf(stderr, "\n");
}
"""


class Loaded:
    """What the C++ program says of its load: what there is, and the seconds of each part."""

    PARTS = ("reading", "terms", "sorting", "lists")

    def __init__(self, told):
        self.postings, self.words, self.weights, *times = map(int, told.split())
        self.times = {part: spent / 1e9 for part, spent in zip(self.PARTS, times)}
