#include "measure.h"
#include <algorithm>
#include <chrono>
#include <cstdio>
#include <cstdlib>

volatile uint64_t sink;

static double took(const Call &call, size_t calls) {
    using clock = std::chrono::steady_clock;
    auto began = clock::now();
    for (size_t i = 0; i < calls; i++)
        call();
    return std::chrono::duration<double, std::nano>(clock::now() - began).count();
}

// as many calls as take some 10 ms
static size_t enough(const Call &call) {
    size_t calls = 1;
    while (took(call, calls) < 1e7 && calls < (size_t(1) << 30))
        calls *= 2;
    return calls;
}

std::vector<double> measure(const std::vector<Call> &calls, int turns) {
    std::vector<size_t> times;
    for (auto &call : calls)
        times.push_back(enough(call));
    std::vector<double> least(calls.size(), 1e300);
    for (int turn = 0; turn < turns; turn++)
        for (size_t i = 0; i < calls.size(); i++)
            least[i] = std::min(least[i], took(calls[i], times[i]) / double(times[i]));
    return least;
}

void print(const std::string &what, double ours, const std::string &peer, double theirs) {
    printf("%-62s ours %11.1f ns   %-22s %11.1f ns   %8.2f times as fast\n", what.c_str(), ours, peer.c_str(), theirs, theirs / ours);
}

void compare(const std::string &what, const Call &ours, const std::vector<Peer> &peers) {
    std::vector<Call> calls = {ours};
    for (auto &peer : peers)
        calls.push_back(peer.call);
    std::vector<double> ns = measure(calls);
    for (size_t i = 0; i < peers.size(); i++)
        print(i == 0 ? what : "", ns[0], peers[i].name, ns[i + 1]);
}

void must(bool holds, const std::string &what) {
    if (holds)
        return;
    fprintf(stderr, "%s: no figures\n", what.c_str());
    exit(1);
}

static uint64_t next_random(uint64_t x) {
    x ^= x << 13, x ^= x >> 7;
    return x ^ x << 17;
}

static const uint64_t SEED = 88172645463325252u;

std::vector<uint8_t> random_bytes(size_t n) {
    std::vector<uint8_t> bytes(n);
    uint64_t x = SEED;
    for (auto &b : bytes) {
        x = next_random(x);
        b = uint8_t(x);
    }
    return bytes;
}

Key drawn_key() {
    uint64_t drawn = 0;
    gfp_draw(61, 0x1234567890abcdefu, &drawn);
    return Key(61, drawn);
}

// the first random word that is accepted
static Key random_key(uint32_t degree) {
    uint64_t x = next_random(SEED);
    while (gfp_test_key(KEY(Key(degree, x))) != GFP_OK)
        x = next_random(x);
    return Key(degree, x);
}

static std::vector<uint32_t> degrees() {
    std::vector<uint32_t> all = {8, 31, 32, 63, 64};
    while (all.back() > GREATEST_DEGREE)
        all.pop_back();
    return all;
}

std::vector<Named> stock_keys() {
    std::vector<Named> keys;
    for (uint32_t degree : degrees())
        keys.push_back({"degree " + std::to_string(degree), Key(degree, gfp_stock_key(degree))});
    return keys;
}

std::vector<Named> random_keys() {
    std::vector<Named> keys;
    for (uint32_t degree : degrees())
        keys.push_back({"degree " + std::to_string(degree) + ", random", random_key(degree)});
    return keys;
}
