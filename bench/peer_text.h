// What the peers have in common: an edit file that is read at once, and a text that is gathered and written at once.
#pragma once

#include <algorithm>
#include <array>
#include <cstdint>
#include <cstdio>
#include <cstring>
#include <string>
#include <unordered_set>
#include <vector>

using Place = std::array<int, 3>;

struct Edit {
    char sign; // '+', '-' or '='
    Place from, to; // `to` of a move alone
};

struct Input {
    std::vector<Place> points, queries;
    std::vector<Edit> edits;
    std::vector<long> radii;
};

// One number for a place, for tables by hash.
inline std::uint64_t key_of(const Place &p) {
    return std::uint64_t(p[0]) << 28 | std::uint64_t(p[1]) << 14 | std::uint64_t(p[2]);
}

// An edit file from standard input, which is taken to be one.
inline Input read_input() {
    std::string text;
    static char piece[1 << 16];
    while (const std::size_t count = std::fread(piece, 1, sizeof piece, stdin)) text.append(piece, count);
    Input input;
    char section = 0;
    const char *at = text.c_str();
    const auto number = [&] {
        while (*at == ' ') ++at;
        long value = 0;
        while ('0' <= *at && *at <= '9') value = 10 * value + (*at++ - '0');
        return value;
    };
    const auto place = [&] {
        Place p;
        for (int &x : p) x = static_cast<int>(number());
        return p;
    };
    while (*at) {
        if ('a' <= *at && *at <= 'z')
            section = *at;
        else if (section == 'p')
            input.points.push_back(place());
        else if (section == 'q')
            input.queries.push_back(place());
        else if (section == 'r')
            input.radii.push_back(number());
        else if (section == 'e') {
            const char sign = *at++;
            const Place from = place();
            input.edits.push_back({sign, from, sign == '=' ? place() : from});
        }
        while (*at && *at != '\n') ++at;
        if (*at) ++at;
    }
    return input;
}

// The places that the lines of a file leave, in order. It has no moves.
inline std::vector<Place> places_left(const Input &input) {
    std::unordered_set<std::uint64_t> there;
    there.reserve(input.points.size() + input.edits.size());
    for (const Place &p : input.points) there.insert(key_of(p));
    for (const Edit &edit : input.edits) {
        if (edit.sign == '+')
            there.insert(key_of(edit.from));
        else
            there.erase(key_of(edit.from));
    }
    std::vector<Place> places;
    for (const std::uint64_t k : there) places.push_back({int(k >> 28), int(k >> 14 & 16383), int(k & 16383)});
    std::sort(places.begin(), places.end());
    return places;
}

class Text {
    std::string held;

public:
    void word(const char *text) { held += text; }

    void number(long value) {
        char digits[24];
        int at = sizeof digits;
        do {
            digits[--at] = static_cast<char>('0' + value % 10);
            value /= 10;
        } while (value);
        held.append(digits + at, sizeof digits - at);
    }

    void head(const char *text, std::size_t count) {
        held += text;
        held += ' ';
        number(static_cast<long>(count));
        held += '\n';
    }

    template <class Rows> void rows(const Rows &rows) {
        for (const auto &row : rows) {
            for (std::size_t i = 0; i < row.size(); i++) {
                if (i) held += ' ';
                number(row[i]);
            }
            held += '\n';
        }
    }

    void write() const { std::fwrite(held.data(), 1, held.size(), stdout); }
};

// The cells and the hull of a triangulation, in order, by the indices that its vertices have for `info`.
template <class Mesh> void put_cells(Text &text, const Mesh &mesh) {
    std::vector<std::array<int, 4>> cells;
    std::vector<std::array<int, 3>> hull;
    cells.reserve(mesh.number_of_cells());
    for (const auto cell : mesh.all_cell_handles()) {
        std::array<int, 4> ids;
        int count = 0;
        for (int i = 0; i < 4; i++)
            if (!mesh.is_infinite(cell->vertex(i))) ids[count++] = cell->vertex(i)->info();
        std::sort(ids.begin(), ids.begin() + count);
        if (count == 4)
            cells.push_back(ids);
        else
            hull.push_back({ids[0], ids[1], ids[2]});
    }
    std::sort(cells.begin(), cells.end());
    std::sort(hull.begin(), hull.end());
    text.head("cells", cells.size());
    text.rows(cells);
    text.head("hull", hull.size());
    text.rows(hull);
}
