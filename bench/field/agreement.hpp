// What the programs in C++ share. Standard input has sets of points, each as their number and then their coordinates.
// For each point of a set, the corners and the doubled area of the convex hull of the points up to it are written.
#pragma once

#include <cstddef>
#include <cstdint>
#include <cstdlib>
#include <iostream>
#include <vector>

struct Point {
    std::int64_t east;
    std::int64_t north;
    bool operator==(const Point &other) const { return east == other.east && north == other.north; }
};

using Points = std::vector<Point>;

// The corners of the hull by a library, in order around it. The last may be the first again.
Points corners_of(const Points &points);

// In whole numbers, from the first corner, so that no sum is past 2^50.
inline std::int64_t doubled_area(const Points &corners) {
    std::int64_t sum = 0;
    const Point &first = corners.front();
    for (std::size_t i = 1; i < corners.size(); ++i) {
        const Point &one = corners[i - 1], &two = corners[i];
        sum += (one.east - first.east) * (two.north - first.north) - (two.east - first.east) * (one.north - first.north);
    }
    return std::llabs(sum);
}

inline void write_hulls(const Points &points) {
    Points prefix;
    for (const Point &point : points) {
        prefix.push_back(point);
        Points corners = corners_of(prefix);
        while (corners.size() > 1 && corners.back() == corners.front()) corners.pop_back();
        std::cout << corners.size() << ' ' << doubled_area(corners) << '\n';
    }
}

int main() {
    std::ios::sync_with_stdio(false);
    std::cin.tie(nullptr);
    for (std::size_t count; std::cin >> count;) {
        Points points(count);
        for (Point &point : points) std::cin >> point.east >> point.north;
        write_hulls(points);
    }
}
