#define OPENSSL_SUPPRESS_DEPRECATED
#include "feeding.h"
#include "measure.h"
#include "peers.h"
#include <algorithm>
#include <cstdio>
#include <cstdlib>
#include <lzma.h>
#include <openssl/sha.h>
#include <zlib.h>

const std::vector<size_t> SIZES = {64, 256, 1024, 4096, 65536, size_t(1) << 20, size_t(64) << 20};

static const char *SLICING = "C slicing by 4";

struct Input {
    Key key;
    std::vector<uint64_t> words;
    std::vector<uint8_t> file;
    Input(const Key &key, size_t n) : key(key), words(GFP_TABLE_WORDS), file(random_bytes(n)) {
        gfp_make_table(KEY(key), words.data(), words.size());
    }
};

struct Way {
    std::string name;
    bool ours;
    Call call;
};

using Feed = uint32_t (*)(const Input &in, uint64_t *f, uint64_t *bits, uint32_t used);

static uint32_t fed_by_house(const Input &in, uint64_t *f, uint64_t *bits, uint32_t used) {
    return gfp_feed_house(KEY(in.key), f, bits, in.file.data(), in.file.size(), used);
}

static uint32_t fed_by_table(const Input &in, uint64_t *f, uint64_t *bits, uint32_t used) {
    return gfp_feed_table(KEY(in.key), f, bits, in.words.data(), in.words.size(), in.file.data(), in.file.size(), used);
}

static uint32_t fed_without_table(const Input &in, uint64_t *f, uint64_t *bits, uint32_t used) {
    return gfp_feed(KEY(in.key), f, bits, in.file.data(), in.file.size(), used);
}

template <Feed feed> static Call with_used(const Input &in, uint32_t used) {
    return [&in, used] {
        uint64_t f = 1, bits = 0;
        feed(in, &f, &bits, used), sink = f;
    };
}

static Way by_house(const Input &in) { return {"gfp_feed_house", true, with_used<fed_by_house>(in, 8)}; }

static Way by_table(const Input &in) { return {"gfp_feed_table", true, with_used<fed_by_table>(in, 8)}; }

static Way without_table(const Input &in) { return {"gfp_feed", true, with_used<fed_without_table>(in, 8)}; }

static Way slicing(const Input &in) {
    return {SLICING, false, [&in] { sink = peer_slicing_by_4(in.key.degree, 1, in.words.data(), in.file.data(), in.file.size()); }};
}

static Way carryless(const Input &in) {
    return {"C carry-less", false, [&in] { sink = peer_carryless(1, in.file.data(), in.file.size()); }};
}

static Way carryless_wide(const Input &in) {
    return {"C carry-less 512", false, [&in] { sink = peer_carryless_wide(1, in.file.data(), in.file.size()); }};
}

static Way zlib_crc32(const Input &in) {
    return {"zlib crc32", false, [&in] { sink = crc32(0, in.file.data(), uInt(in.file.size())); }};
}

static Way liblzma_crc64(const Input &in) {
    return {"liblzma crc64", false, [&in] { sink = lzma_crc64(in.file.data(), in.file.size(), 0); }};
}

// by the functions that OpenSSL 3 calls deprecated: at 64 bytes they take about half the time of the others
static Way openssl_sha256(const Input &in) {
    return {"OpenSSL SHA-256", false, [&in] {
                SHA256_CTX state;
                uint8_t digest[SHA256_DIGEST_LENGTH];
                SHA256_Init(&state), SHA256_Update(&state, in.file.data(), in.file.size()), SHA256_Final(digest, &state);
                sink = digest[0];
            }};
}

static std::vector<Way> house_ways(const Input &in) {
    std::vector<Way> ways = {by_house(in), by_table(in), without_table(in), slicing(in)};
    if (peer_carryless_runs())
        ways.push_back(carryless(in));
    if (peer_carryless_wide_runs())
        ways.push_back(carryless_wide(in));
    for (auto &way : {zlib_crc32(in), liblzma_crc64(in), openssl_sha256(in)})
        ways.push_back(way);
    return ways;
}

static std::vector<Way> drawn_ways(const Input &in) { return {by_table(in), slicing(in)}; }

static void same(const char *what, size_t n, uint64_t value, uint64_t ours) {
    must(value == ours, std::string(what) + " is not ours at " + std::to_string(n) + " bytes");
}

// one length, behind a residue that depends on it, from an address that does
static void check_length(const Input &in, size_t n) {
    const uint8_t *part = in.file.data() + n % 17;
    const uint64_t start = (n + 1) * UINT64_C(0x9e3779b97f4a7c15) >> (64 - in.key.degree);
    uint64_t bits = 0, f = start, g = start, h = start;
    must(gfp_feed_table(KEY(in.key), &f, &bits, in.words.data(), in.words.size(), part, n, 8) == GFP_OK, "gfp_feed_table refuses");
    bits = 0, gfp_feed(KEY(in.key), &g, &bits, part, n, 8);
    same("gfp_feed", n, g, f);
    same(SLICING, n, peer_slicing_by_4(in.key.degree, start, in.words.data(), part, n), f);
    same("C branch-free loop", n, peer_feed_bits(PAIR(in.key), start, part, n), f);
    same("C loop with an if", n, peer_feed_bits_by_if(PAIR(in.key), start, part, n), f);
    if (in.key.degree != HOUSE.degree || in.key.word != HOUSE.word)
        return;
    bits = 0, gfp_feed_house(KEY(in.key), &h, &bits, part, n, 8);
    same("gfp_feed_house", n, h, f);
    if (peer_carryless_runs())
        same("C carry-less", n, peer_carryless(start, part, n), f);
    if (peer_carryless_wide_runs())
        same("C carry-less 512", n, peer_carryless_wide(start, part, n), f);
}

static void check_lengths(const Key &key, size_t longest) {
    Input in(key, longest + 16);
    for (size_t n = 0; n <= longest; n += n < 3000 ? 1 : 9973)
        check_length(in, n);
}

void check_peers() {
    check_lengths(HOUSE, 1 << 20);
    check_lengths(drawn_key(), 1 << 20);
    for (auto &keys : {stock_keys(), random_keys()})
        for (auto &k : keys)
            check_lengths(k.key, 1 << 16);
    if (!peer_carryless_runs())
        printf("C carry-less: not measured, since this machine has no PCLMULQDQ.\n");
    if (!peer_carryless_wide_runs())
        printf("C carry-less 512: not measured, since this machine has no VPCLMULQDQ in registers of 512 bits.\n");
}

// a part of 64 MiB is fed in fewer turns
static int turns(size_t n) { return n > 1 << 20 ? 7 : 31; }

// each of ours beside C slicing by 4, and the first of ours beside the other peers
static void print_lines(const std::string &what, const std::vector<Way> &ways, const std::vector<double> &ns) {
    size_t c = 0;
    while (ways[c].name != SLICING)
        c++;
    for (size_t i = 0; i < ways.size(); i++)
        if (ways[i].ours)
            print(i == 0 ? what + ways[i].name : "  " + ways[i].name, ns[i], SLICING, ns[c]);
        else if (i != c)
            print("  " + ways[0].name, ns[0], ways[i].name, ns[i]);
}

static Figures measured(const Key &key, const std::string &name, std::vector<Way> (*ways_of)(const Input &)) {
    Figures figures;
    for (size_t n : SIZES) {
        Input in(key, n);
        std::vector<Way> ways = ways_of(in);
        std::vector<Call> calls;
        for (auto &way : ways)
            calls.push_back(way.call);
        std::vector<double> ns = measure(calls, turns(n));
        print_lines("feed, " + name + ", " + size_name(n) + ": ", ways, ns);
        figures.resize(ways.size());
        for (size_t i = 0; i < ways.size(); i++) {
            figures[i].name = ways[i].name, figures[i].ours = ways[i].ours;
            figures[i].ns_a_byte.push_back(ns[i] / double(n));
        }
    }
    return figures;
}

Figures feed_under_house_key() { return measured(HOUSE, "house key", house_ways); }

Figures feed_under_drawn_key() { return measured(drawn_key(), "drawn key", drawn_ways); }

static void feed_by_table(const Key &key, const std::string &name, size_t n) {
    Input in(key, n);
    std::vector<double> ns = measure({by_table(in).call, slicing(in).call}, turns(n));
    print("feed by table, " + name + ", " + std::to_string(n) + " bytes", ns[0], SLICING, ns[1]);
    printf("%-62s      %11.3f ns a byte\n", "", ns[0] / double(n));
}

static Peer branch_free_loop(const Input &in) {
    return {"C branch-free loop", [&in] { sink = peer_feed_bits(PAIR(in.key), 1, in.file.data(), in.file.size()); }};
}

static Peer loop_with_an_if(const Input &in) {
    return {"C loop with an if", [&in] { sink = peer_feed_bits_by_if(PAIR(in.key), 1, in.file.data(), in.file.size()); }};
}

static void feed_alone(const Key &key, const std::string &name, const std::vector<Peer (*)(const Input &)> &loops) {
    Input in(key, 65536);
    std::vector<Peer> peers;
    for (auto &loop : loops)
        peers.push_back(loop(in));
    compare("feed with no table, " + name + ", 65536 bytes", without_table(in).call, peers);
}

void feed_in_other_ways() {
    for (auto &k : stock_keys()) {
        for (size_t n : {size_t(64), size_t(4096), size_t(65536), size_t(1) << 20, size_t(64) << 20})
            feed_by_table(k.key, k.name, n);
        feed_alone(k.key, k.name, {branch_free_loop});
    }
    for (auto &k : random_keys()) {
        for (size_t n : {size_t(64), size_t(4096), size_t(65536)})
            feed_by_table(k.key, k.name, n);
        feed_alone(k.key, k.name, {branch_free_loop});
    }
    feed_alone(HOUSE, "house key", {branch_free_loop});
    feed_alone(drawn_key(), "drawn key", {branch_free_loop, loop_with_an_if});
}

// the part with u = 3 beside the same part with u = 8, and how much longer it takes
template <Feed feed> static void compare_used(const std::string &what, const Input &in) {
    std::vector<double> ns = measure({with_used<feed>(in, 3), with_used<feed>(in, 8)});
    print(what + ", " + size_name(in.file.size()) + ", u = 3", ns[0], "the same, u = 8", ns[1]);
    printf("%-62s      %11.1f ns more\n", "", ns[0] - ns[1]);
}

void feed_unfinished() {
    for (size_t n : {size_t(64), size_t(4096), size_t(65536)}) {
        Input house(HOUSE, n), drawn(drawn_key(), n);
        house.file.back() &= 0xe0, drawn.file.back() &= 0xe0;
        compare_used<fed_by_house>("gfp_feed_house, house key", house);
        compare_used<fed_by_table>("gfp_feed_table, house key", house);
        compare_used<fed_without_table>("gfp_feed, house key", house);
        compare_used<fed_by_table>("gfp_feed_table, drawn key", drawn);
    }
}
