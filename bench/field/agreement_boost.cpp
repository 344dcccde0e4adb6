// The hulls of Boost.Geometry's `convex_hull`, of coordinates that are doubles.
#include "agreement.hpp"

// A header of Boost includes one that says it is deprecated.
#define BOOST_ALLOW_DEPRECATED_HEADERS
#include <boost/geometry.hpp>
#include <boost/geometry/geometries/geometries.hpp>
#include <boost/geometry/geometries/point_xy.hpp>

using Place = boost::geometry::model::d2::point_xy<double>;

Points corners_of(const Points &points) {
    boost::geometry::model::multi_point<Place> places;
    places.reserve(points.size());
    for (const Point &point : points) places.emplace_back(point.east, point.north);
    boost::geometry::model::ring<Place> hull;
    boost::geometry::convex_hull(places, hull);
    Points corners;
    for (const Place &place : hull) {
        corners.push_back({static_cast<std::int64_t>(place.x()), static_cast<std::int64_t>(place.y())});
    }
    return corners;
}
