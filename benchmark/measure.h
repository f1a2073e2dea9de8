// Timing, for all parts of the benchmark: calls by turns, lines of output, random input.
#ifndef MEASURE_H
#define MEASURE_H
#include "calls.h"
#include <cstddef>
#include <cstdint>
#include <functional>
#include <string>
#include <vector>

using Call = std::function<void()>;

// where a call puts its result, so that the compiler keeps the call
extern volatile uint64_t sink;

// the least time of each call in ns, all by turns so that a busy moment of the machine meets all
std::vector<double> measure(const std::vector<Call> &calls, int turns = 31);

struct Peer {
    std::string name;
    Call call;
};

// a line of the output: both times, and how many times as fast ours is
void print(const std::string &what, double ours, const std::string &peer, double theirs);

// measures ours beside the peers and prints a line for each of them
void compare(const std::string &what, const Call &ours, const std::vector<Peer> &peers);

// ends the program, with no further figures, where something does not hold that they rest on
void must(bool holds, const std::string &what);

std::vector<uint8_t> random_bytes(size_t n);

// a key of degree 61 drawn by Rabin's method, so that no shortcut for the stock keys is measured
Key drawn_key();

struct Named {
    std::string name;
    Key key;
};

// keys of the degrees that are measured beside 61: the ends of the range and both sides of 32; none of 64 where the library takes none.
// The stock keys ("degree 8"), and keys with a random word, the same in every run ("degree 8, random").
std::vector<Named> stock_keys();
std::vector<Named> random_keys();

#endif
