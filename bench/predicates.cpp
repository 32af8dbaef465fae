// The program of crates/predicate_bench in C++: the same draws, the same formulas, the same sums.
#include <array>
#include <cstdint>
#include <cstdio>
#include <cstdlib>
#include <string>

using wide = __int128;

struct Point {
    uint64_t packed;
    int64_t x() const { return int64_t(packed >> 28); }
    int64_t y() const { return int64_t(packed >> 14 & 16383); }
    int64_t z() const { return int64_t(packed & 16383); }
};

struct Step {
    int64_t x, y, z;
    Step(Point a, Point b) : x(b.x() - a.x()), y(b.y() - a.y()), z(b.z() - a.z()) {}
    int64_t square() const { return x * x + y * y + z * z; }
    int64_t triple(const Step& v, const Step& w) const {
        return x * (v.y * w.z - v.z * w.y) + y * (v.z * w.x - v.x * w.z) + z * (v.x * w.y - v.y * w.x);
    }
};

static int64_t orient(Point a, Point b, Point c, Point d) {
    return Step(a, b).triple(Step(a, c), Step(a, d));
}

static wide sphere(Point a, Point b, Point c, Point d, Point e) {
    const Step u(a, b), v(a, c), w(a, d), t(a, e);
    return wide(u.triple(v, w)) * t.square() - wide(u.triple(v, t)) * w.square()
        + wide(u.triple(w, t)) * v.square() - wide(v.triple(w, t)) * u.square();
}

static uint64_t next(uint64_t state) {
    return state * 6364136223846793005u + 1442695040888963407u;
}

static uint64_t coordinate(uint64_t state) {
    return (state >> 33) % 16384;
}

static std::string text(wide value) {
    const bool negative = value < 0;
    unsigned __int128 rest = negative ? -(unsigned __int128)value : (unsigned __int128)value;
    std::string digits;
    do {
        digits.insert(digits.begin(), char('0' + int(rest % 10)));
        rest /= 10;
    } while (rest != 0);
    return negative ? "-" + digits : digits;
}

int main(int count, char** words) {
    if (count != 3) {
        return 1;
    }
    const unsigned long orientations = std::strtoul(words[1], nullptr, 10);
    const unsigned long spheres = std::strtoul(words[2], nullptr, 10);
    std::array<Point, 1028> points;
    uint64_t state = 12345;
    for (Point& point : points) {
        const uint64_t first = next(state);
        const uint64_t second = next(first);
        state = next(second);
        point.packed = coordinate(first) << 28 | coordinate(second) << 14 | coordinate(state);
    }
    uint64_t sum = 0;
    state = 99;
    for (unsigned long k = 0; k < orientations; ++k) {
        state = next(state);
        const Point* p = &points[(state >> 33) % 1024];
        sum += uint64_t(orient(p[0], p[1], p[2], p[3]));
    }
    unsigned __int128 wide_sum = 0;
    state = 99;
    for (unsigned long k = 0; k < spheres; ++k) {
        state = next(state);
        const Point* p = &points[(state >> 33) % 1024];
        wide_sum += (unsigned __int128)sphere(p[0], p[1], p[2], p[3], p[4]);
    }
    std::printf("orient %lu %s\n", orientations, text(wide(int64_t(sum))).c_str());
    std::printf("sphere %lu %s\n", spheres, text(wide(wide_sum)).c_str());
}
