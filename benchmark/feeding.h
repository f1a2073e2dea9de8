// Feeding beside the peers, and its figures as a table and as a picture.
#ifndef FEEDING_H
#define FEEDING_H
#include <cstddef>
#include <string>
#include <vector>

// the sizes of the parts that are fed
extern const std::vector<size_t> SIZES;

// one way to take a part's fingerprint or checksum, with the ns a byte that it took at each of the sizes
struct Column {
    std::string name;
    bool ours;
    std::vector<double> ns_a_byte;
};

using Figures = std::vector<Column>;

// ends the program where a peer's residue is not ours, at any of many lengths
void check_peers();

// print a line for each pair; the first two give the figures
Figures feed_under_house_key();
Figures feed_under_drawn_key();
void feed_in_other_ways();

// a part of which 3 bits of the final byte are used, beside the same part with all 8
void feed_unfinished();

// "64 B", "4 KiB"
std::string size_name(size_t n);

// the figures as a table in Markdown: ours also by how many times it is as fast as the first peer
void print_table(const Figures &figures);

// writes the picture: ns a byte over the size, a line for each column
void draw(const Figures &figures, const char *path);

#endif
