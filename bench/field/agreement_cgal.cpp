// The hulls of CGAL's `convex_hull_2`, by a kernel whose predicates are exact.
#include "agreement.hpp"

#include <CGAL/Exact_predicates_inexact_constructions_kernel.h>
#include <CGAL/convex_hull_2.h>

#include <iterator>

using Place = CGAL::Exact_predicates_inexact_constructions_kernel::Point_2;

Points corners_of(const Points &points) {
    std::vector<Place> places, hull;
    places.reserve(points.size());
    for (const Point &point : points) places.emplace_back(point.east, point.north);
    CGAL::convex_hull_2(places.begin(), places.end(), std::back_inserter(hull));
    Points corners;
    for (const Place &place : hull) {
        corners.push_back({static_cast<std::int64_t>(place.x()), static_cast<std::int64_t>(place.y())});
    }
    return corners;
}
