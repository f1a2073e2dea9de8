// The figures of feeding as a table in Markdown and as a picture in SVG.
#include "feeding.h"
#include <algorithm>
#include <cmath>
#include <cstdio>
#include <cstdlib>

std::string size_name(size_t n) {
    if (n < 1024)
        return std::to_string(n) + " B";
    return n < 1 << 20 ? std::to_string(n >> 10) + " KiB" : std::to_string(n >> 20) + " MiB";
}

void print_table(const Figures &figures) {
    auto peer = std::find_if(figures.begin(), figures.end(), [](const Column &c) { return !c.ours; });
    std::string head = "| size |", rule = "|---|";
    for (auto &c : figures) {
        head += c.ours ? " `" + c.name + "` | times as fast |" : " " + c.name + " |";
        rule += c.ours ? "---|---|" : "---|";
    }
    printf("%s\n%s\n", head.c_str(), rule.c_str());
    for (size_t row = 0; row < SIZES.size(); row++) {
        printf("| %s |", size_name(SIZES[row]).c_str());
        for (auto &c : figures) {
            printf(" %#.3g |", c.ns_a_byte[row]);
            if (c.ours)
                printf(" %#.3g |", peer->ns_a_byte[row] / c.ns_a_byte[row]);
        }
        printf("\n");
    }
}

// ---- the picture

static const double WIDTH = 960, HEIGHT = 600, LEFT = 84, RIGHT = 690, TOP = 72, BOTTOM = 522;
static const double LABELS = RIGHT + 36, LABEL_HEIGHT = 21;

// both axes are logarithmic
struct Axes {
    double least, most; // ns a byte
    double x(size_t n) const { return LEFT + (RIGHT - LEFT) * log(double(n) / double(SIZES.front())) / log(double(SIZES.back()) / double(SIZES.front())); }
    double y(double ns) const { return BOTTOM - (BOTTOM - TOP) * log(ns / least) / log(most / least); }
};

// 1, 2 and 5 times the powers of ten that reach around all figures
static std::vector<double> ticks(const Figures &figures) {
    double least = 1e300, most = 0;
    for (auto &c : figures)
        for (double ns : c.ns_a_byte)
            least = std::min(least, ns), most = std::max(most, ns);
    std::vector<double> all;
    for (double power = 1e-4; power < 1e4; power *= 10)
        for (double first : {1.0, 2.0, 5.0})
            all.push_back(first * power);
    auto from = std::upper_bound(all.begin(), all.end(), least) - 1, to = std::lower_bound(all.begin(), all.end(), most);
    return std::vector<double>(from, to + 1);
}

static void text(FILE *out, double x, double y, const char *anchor, const std::string &fill, const std::string &words, const char *more = "") {
    fprintf(out, "<text x=\"%.1f\" y=\"%.1f\" text-anchor=\"%s\" fill=\"%s\"%s>%s</text>\n", x, y, anchor, fill.c_str(), more, words.c_str());
}

static void line(FILE *out, double x, double y, double to_x, double to_y, const char *stroke) {
    fprintf(out, "<line x1=\"%.1f\" y1=\"%.1f\" x2=\"%.1f\" y2=\"%.1f\" stroke=\"%s\"/>\n", x, y, to_x, to_y, stroke);
}

static void draw_axes(FILE *out, const Axes &axes, const std::vector<double> &heights) {
    for (double ns : heights) {
        char number[16];
        snprintf(number, sizeof number, "%g", ns);
        line(out, LEFT, axes.y(ns), RIGHT, axes.y(ns), "#e4e4e4");
        text(out, LEFT - 8, axes.y(ns) + 4.5, "end", "#333", number);
    }
    for (size_t n : SIZES) {
        line(out, axes.x(n), TOP, axes.x(n), BOTTOM, "#e4e4e4");
        text(out, axes.x(n), BOTTOM + 20, "middle", "#333", size_name(n));
    }
    text(out, (LEFT + RIGHT) / 2, BOTTOM + 46, "middle", "#333", "size of the part that is fed");
    fprintf(out, "<g transform=\"translate(%.1f %.1f) rotate(-90)\">", LEFT - 56, (TOP + BOTTOM) / 2);
    text(out, 0, 0, "middle", "#333", "ns a byte");
    fprintf(out, "</g>\n");
}

struct Style {
    const char *colour, *dashes;
};

// ours drawn through and thick, peers dashed and thin
static Style style(const Figures &figures, size_t column) {
    static const char *OURS[] = {"#d55e00", "#e69f00", "#cc79a7", "#8c2d04"};
    static const char *PEERS[] = {"#222222", "#0072b2", "#3a9bdc", "#009e73", "#6a5acd", "#777777"};
    size_t before = 0;
    for (size_t i = 0; i < column; i++)
        before += figures[i].ours == figures[column].ours;
    return figures[column].ours ? Style{OURS[before % 4], ""} : Style{PEERS[before % 6], " stroke-dasharray=\"6 4\""};
}

static void draw_column(FILE *out, const Axes &axes, const Column &c, Style style) {
    fprintf(out, "<polyline fill=\"none\" stroke=\"%s\" stroke-width=\"%s\"%s points=\"", style.colour, c.ours ? "3" : "1.8", style.dashes);
    for (size_t i = 0; i < SIZES.size(); i++)
        fprintf(out, "%.1f,%.1f ", axes.x(SIZES[i]), axes.y(c.ns_a_byte[i]));
    fprintf(out, "\"/>\n");
    for (size_t i = 0; i < SIZES.size(); i++)
        fprintf(out, "<circle cx=\"%.1f\" cy=\"%.1f\" r=\"%s\" fill=\"%s\"/>\n", axes.x(SIZES[i]), axes.y(c.ns_a_byte[i]), c.ours ? "4" : "3", style.colour);
}

// the heights of the labels: beside the ends of their lines, moved apart where they would overlap
static std::vector<double> label_heights(const Axes &axes, const Figures &figures) {
    std::vector<size_t> order(figures.size());
    for (size_t i = 0; i < order.size(); i++)
        order[i] = i;
    std::vector<double> height;
    for (auto &c : figures)
        height.push_back(axes.y(c.ns_a_byte.back()));
    std::stable_sort(order.begin(), order.end(), [&](size_t a, size_t b) { return height[a] < height[b]; });
    for (size_t i = 1; i < order.size(); i++)
        height[order[i]] = std::max(height[order[i]], height[order[i - 1]] + LABEL_HEIGHT);
    double below = BOTTOM + LABEL_HEIGHT;
    for (size_t i = order.size(); i-- > 0;)
        below = height[order[i]] = std::min(height[order[i]], below - LABEL_HEIGHT);
    return height;
}

static void draw_labels(FILE *out, const Axes &axes, const Figures &figures) {
    std::vector<double> heights = label_heights(axes, figures);
    for (size_t i = 0; i < figures.size(); i++) {
        const char *colour = style(figures, i).colour;
        line(out, RIGHT + 6, axes.y(figures[i].ns_a_byte.back()), LABELS - 6, heights[i], colour);
        text(out, LABELS, heights[i] + 4.5, "start", colour, figures[i].name, figures[i].ours ? " font-weight=\"bold\"" : "");
    }
}

void draw(const Figures &figures, const char *path) {
    std::vector<double> heights = ticks(figures);
    Axes axes = {heights.front(), heights.back()};
    FILE *out = fopen(path, "w");
    if (!out) {
        perror(path);
        exit(1);
    }
    fprintf(out, "<svg xmlns=\"http://www.w3.org/2000/svg\" viewBox=\"0 0 %g %g\" width=\"%g\" height=\"%g\"", WIDTH, HEIGHT, WIDTH, HEIGHT);
    fprintf(out, " role=\"img\" font-family=\"sans-serif\" font-size=\"14\">\n");
    fprintf(out, "<title>Feeding: ns a byte over the size of the part, ours and the peers</title>\n");
    fprintf(out, "<rect x=\"0.5\" y=\"0.5\" width=\"%g\" height=\"%g\" rx=\"8\" fill=\"#ffffff\" stroke=\"#cccccc\"/>\n", WIDTH - 1, HEIGHT - 1);
    text(out, LEFT, 34, "start", "#111", "Feeding a part of a file: ns a byte, less is faster", " font-size=\"18\" font-weight=\"bold\"");
    text(out, LEFT, 56, "start", "#333", "Whole calls, ours (thick) and the peers (dashed), degree 61. 1 ns a byte is 1 GB a second.");
    draw_axes(out, axes, heights);
    for (size_t i = figures.size(); i-- > 0;) // the first on top
        draw_column(out, axes, figures[i], style(figures, i));
    draw_labels(out, axes, figures);
    fprintf(out, "</svg>\n");
    fclose(out);
}
