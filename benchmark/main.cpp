// Ours beside the peers, in one run: each line gives both times and how many times as fast ours is. Built and run by `make benchmark`.
#include "feeding.h"
#include "librestic.h"
#include "measure.h"
#include "peers.h"
#include <NTL/GF2X.h>
#include <NTL/GF2XFactoring.h>
#include <cstdio>
#include <cstring>
#include <flint/nmod_poly.h>
#include <pari/pari.h>
#include <vector>

extern "C" {
// inner functions, exported for this program alone (crate gf2_measured)
uint64_t measured_product(uint64_t a, uint64_t b);
uint64_t measured_power_of_t(uint64_t n);
}

static NTL::GF2X polynomial(uint64_t p) {
    NTL::GF2X f;
    for (int i = 0; i < 64; i++)
        if (p >> i & 1)
            NTL::SetCoeff(f, i);
    return f;
}

static NTL::GF2X polynomial(const Key &key) {
    NTL::GF2X f = polynomial(key.word);
    NTL::SetCoeff(f, key.degree);
    return f;
}

static void arithmetic() {
    NTL::GF2XModulus modulus(polynomial(HOUSE));
    uint64_t a = 0x1234567890abcdefu, b = 0x0fedcba987654321u;
    NTL::GF2X x = polynomial(a), y = polynomial(b), z;
    compare("product modulo the house key", [&] { sink = a = measured_product(a, b); }, {{"NTL MulMod", [&] { MulMod(z, x, y, modulus), x = z; }}});
    NTL::ZZ n = NTL::ZZ(4294967295) * 8;
    compare("t^(8 (2^32 - 1)) modulo the house key", [&] { sink = measured_power_of_t(UINT64_C(8) * 4294967295); },
            {{"NTL PowerXMod", [&] { PowerXMod(z, n, modulus); }}});
}

// the coefficient of t^i
static unsigned long coefficient(const Key &key, uint32_t i) { return i < key.degree ? key.word >> i & 1 : i == key.degree; }

// a key that is accepted, but for restic's chunker at degree 64: its polynomials have 64 bits
static void test_accepted(const std::string &what, const Key &key) {
    NTL::GF2X f = polynomial(key);
    nmod_poly_t g;
    nmod_poly_init(g, 2);
    GEN coefficients = cgetg(key.degree + 1 + 2, t_VECSMALL);
    coefficients[1] = 0;
    for (uint32_t i = 0; i <= key.degree; i++) {
        nmod_poly_set_coeff_ui(g, i, coefficient(key, i));
        coefficients[i + 2] = long(coefficient(key, i));
    }
    GEN q = Flx_to_F2x(coefficients);
    pari_sp stack = avma;
    std::vector<Peer> peers = {{"NTL IterIrredTest", [&] { sink = IterIrredTest(f); }},
                               {"FLINT", [&] { sink = nmod_poly_is_irreducible(g); }},
                               {"PARI", [&] { sink = uint64_t(F2x_is_irred(q)), avma = stack; }}};
    if (key.degree < 64)
        peers.push_back({"restic's chunker", [&] { sink = restic_irreducible(key.number); }});
    for (auto &peer : peers)
        peer.call(), must(sink == 1, peer.name + " refuses a key, " + what);
    compare(what, [&] { sink = gfp_test_key(KEY(key)); }, peers);
    nmod_poly_clear(g);
}

static void test_stock(const std::string &what, const Key &key) {
    NTL::GF2X f = polynomial(key);
    compare(what, [&] { sink = gfp_test_key(KEY(key)); }, {{"NTL IterIrredTest", [&] { sink = IterIrredTest(f); }}});
}

static void key_tests() {
    test_accepted("test of an accepted key of degree 61", drawn_key());
    for (auto &k : random_keys())
        test_accepted("test of an accepted key, " + k.name, k.key);
    test_stock("test of the house key", HOUSE);
    for (auto &k : stock_keys())
        test_stock("test of the stock key, " + k.name, k.key);
}

static void tables_under(const Key &key, const std::string &whose) {
    static uint64_t words[1024], peer_words[1024];
    gfp_make_table(KEY(key), words, 1024), peer_fill(PAIR(key), peer_words);
    must(memcmp(words, peer_words, sizeof words) == 0 && peer_test(PAIR(key), words) == 0, "C's table is not ours" + whose);
    compare("make a table" + whose, [&] { sink = gfp_make_table(KEY(key), words, 1024); },
            {{"C", [&] { peer_fill(PAIR(key), peer_words), sink = peer_words[1023]; }}});
    compare("test of a table" + whose, [&] { sink = gfp_test_table(KEY(key), words, 1024); },
            {{"C linear test", [&] { sink = peer_test(PAIR(key), words); }}});
}

static void tables() {
    tables_under(HOUSE, "");
    for (auto &k : stock_keys())
        tables_under(k.key, ", " + k.name);
}

static void join_under(const Key &key, const std::string &whose) {
    uint64_t f, bits;
    NTL::GF2XModulus modulus(polynomial(key));
    NTL::GF2X x = polynomial(0x1234567890abcdefu) % modulus, power, product;
    NTL::ZZ n = NTL::ZZ(4294967295) * 8;
    compare("join with 2^32 - 1 bytes, " + whose,
            [&] { f = 5, bits = 0, gfp_join_behind(KEY(key), &f, &bits, 3, UINT64_C(8) * 4294967295), sink = f; },
            {{"NTL PowerXMod, MulMod", [&] { PowerXMod(power, n, modulus), MulMod(product, x, power, modulus); }}});
}

static void joining() {
    join_under(HOUSE, "house key");
    join_under(drawn_key(), "drawn key, with its test");
    for (auto &k : stock_keys())
        join_under(k.key, k.name);
}

// plain marks joined beside marks joined, which is the same work: F t^n + G and (F + 1) t^n + G
static void join_plain_under(const Key &key, const std::string &whose) {
    uint64_t n = UINT64_C(8) * 4294967295, f, g, bits;
    Call plain = [&] { f = 5, bits = 0, gfp_join_plain_behind(PAIR(key), &f, &bits, 3, n), sink = f; };
    Call with_one = [&] { g = 4, bits = 0, gfp_join_behind(KEY(key), &g, &bits, 3, n), sink = g; };
    plain(), with_one(), must(f == g, "plain marks do not join as marks do, " + whose);
    compare("join plain marks with 2^32 - 1 bytes, " + whose, plain, {{"gfp_join_behind", with_one}});
}

// t^n under the longest mark; NTL does not add it to a fingerprint
static void turn_under(const Key &key, const std::string &whose) {
    uint64_t f = 5, bits = UINT64_C(8) * 4294967295;
    NTL::GF2XModulus modulus(polynomial(key));
    NTL::GF2X power;
    NTL::ZZ n = NTL::ZZ(4294967295) * 8;
    Call turn = [&] { gfp_turn(PAIR(key), &f, &bits), sink = f; };
    turn(), PowerXMod(power, n, modulus), must(polynomial(f ^ 5) == power, "NTL's power is not ours, " + whose);
    compare("turn a mark of 34359738360 bits, " + whose, turn, {{"NTL PowerXMod", [&] { PowerXMod(power, n, modulus); }}});
}

static void plain_marks() {
    if (!gfp_turn || !gfp_join_plain_behind) {
        printf("Plain marks: not measured, since this library has none.\n");
        return;
    }
    for (auto call : {join_plain_under, turn_under}) {
        call(HOUSE, "house key");
        call(drawn_key(), "drawn key, with its test");
        for (auto &k : stock_keys())
            call(k.key, k.name);
    }
}

// a page in the middle of a file of 1 MiB; C feeds both pages by a table that stands ready
static void replace_under(const Key &key, const std::string &whose) {
    static uint64_t words[1024];
    gfp_make_table(KEY(key), words, 1024);
    for (size_t size : {64, 4096, 65536}) {
        std::vector<uint8_t> from = random_bytes(size), to(from.rbegin(), from.rend());
        const uint8_t *old_page = from.data(), *new_page = to.data();
        uint64_t f, bits;
        Call replace = [&] {
            f = 5, bits = UINT64_C(8) << 20;
            sink = gfp_replace_page(KEY(key), &f, &bits, 1 << 19, old_page, size, 8, new_page, size, 8);
        };
        replace(), must(sink == GFP_OK, "a page is refused");
        auto fed = [&](const uint8_t *page) { return peer_slicing_by_4(key.degree, 1, words, page, size); };
        compare("replace a page of " + std::to_string(size) + " bytes, " + whose, replace,
                {{"C slicing by 4, twice", [&] { sink = fed(old_page) ^ fed(new_page); }}});
    }
}

static void replacing() {
    replace_under(HOUSE, "house key");
    replace_under(drawn_key(), "drawn key, with its test");
    for (auto &k : stock_keys())
        replace_under(k.key, k.name);
}

static void search_under(const Key &key, const std::string &whose) {
    size_t n = 1 << 20;
    std::vector<uint8_t> random = random_bytes(n), log(n);
    const char *line = "2026-11-15T04:12:07Z gauge 0417 tilt +0.0125 mrad, pore pressure 183.2 kPa, ok\n";
    for (size_t i = 0; i < n; i++)
        log[i] = uint8_t(line[i % strlen(line)] + (random[i] < 8));
    static uint32_t words[64];
    uint32_t places, alarms;
    for (auto *text : {&random, &log}) {
        std::vector<uint8_t> pattern(text->begin() + 500000, text->begin() + 500016);
        compare(std::string(text == &random ? "search, 1 MiB random" : "search, 1 MiB log-like") + ", pattern 16, " + whose,
                [&] { gfp_search(KEY(key), text->data(), n, pattern.data(), 16, words, 64, &places, &alarms), sink = places; },
                {{"C Rabin-Karp 2^32", [&] { sink = peer_rabin_karp(text->data(), n, pattern.data(), 16, words, 64); }},
                 {"memmem", [&] { sink = peer_memmem(text->data(), n, pattern.data(), 16, words, 64); }}});
    }
}

static void searching() {
    search_under(HOUSE, "degree 61");
    for (auto &k : stock_keys())
        search_under(k.key, k.name);
}

static void sheets_under(const Key &key, const std::string &whose) {
    size_t n = size_t(16) << 20;
    std::vector<uint8_t> file = random_bytes(n);
    static uint64_t words[1024];
    gfp_make_table(KEY(key), words, 1024);
    const uint8_t *part = file.data();
    uint64_t f, bits;
    uint32_t outcome, page;
    Contents c;
    std::vector<Peer> peers = {
        {"our feed by table", [&] { f = 1, bits = 0, gfp_feed_table(KEY(key), &f, &bits, words, 1024, part, n, 8), sink = f; }},
        {"C slicing by 4", [&] { sink = peer_slicing_by_4(key.degree, 1, words, part, n); }}};
    for (uint64_t size : {16, 4096}) {
        std::vector<uint8_t> sheet(GFP_SHEET_BYTES + 8 * ((n + size - 1) / size));
        std::string pages = whose + "16 MiB, pages of " + std::to_string(size) + " bytes";
        uint8_t *lent = sheet.data();
        size_t m = sheet.size();
        Call write = [&] { sink = gfp_write_sheet(KEY(key), size, part, n, 8, lent, m); };
        Call read = [&] { sink = gfp_read_sheet(lent, m, &c.version, KEY_PLACES(c), &c.bits, &c.page_size, &c.pages, &c.fingerprint); };
        Call check = [&] { sink = gfp_check_file(lent, m, part, n, 8, &outcome, &page); };
        for (auto &call : {write, read, check})
            call(), must(sink == GFP_OK, "a sheet is refused, " + pages);
        compare("write a sheet, " + pages, write, peers);
        compare("read a sheet, " + pages, read, peers);
        compare("check a file, " + pages, check, peers);
    }
}

static void sheets() {
    sheets_under(HOUSE, "");
    sheets_under(drawn_key(), "drawn key, ");
    for (auto &k : random_keys())
        sheets_under(k.key, k.name + ", ");
}

static void drawing() {
    NTL::GF2XModulus modulus(polynomial(HOUSE));
    uint64_t e = 0x1234567890abcdefu, drawn;
    NTL::GF2X x = polynomial(e), z;
    compare("draw a key of degree 61", [&] { gfp_draw(61, e, &drawn), sink = drawn; }, {{"NTL MinPolyMod", [&] { MinPolyMod(z, x, modulus); }}});
}

// the table and the picture of what was fed under both keys; the picture shows C slicing by 4 once, since no key changes its time
static void feeding(const char *picture) {
    Figures house = feed_under_house_key(), drawn = feed_under_drawn_key(), both;
    feed_in_other_ways();
    feed_unfinished();
    printf("\nFeeding under the house key, ns a byte; times as fast as C slicing by 4\n\n");
    print_table(house);
    printf("\nFeeding under a drawn key of degree 61\n\n");
    print_table(drawn);
    for (auto &c : house)
        both.push_back({c.ours && c.name != "gfp_feed_house" ? c.name + ", house key" : c.name, c.ours, c.ns_a_byte});
    both.push_back({drawn[0].name + ", drawn key", true, drawn[0].ns_a_byte});
    draw(both, picture);
}

int main(int, char **arguments) {
    check_peers();
    pari_init(1 << 26, 0);
    printf("Times are the least of several turns on this machine, all sides by turns.\n");
    arithmetic();
    key_tests();
    tables();
    joining();
    plain_marks();
    replacing();
    drawing();
    searching();
    sheets();
    feeding(arguments[1]);
    return 0;
}
