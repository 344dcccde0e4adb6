// The hulls of GEOS's `GEOSConvexHull`, whose coordinates are doubles.
#include "agreement.hpp"

#include <geos_c.h>

#include <memory>

using Geometry = std::unique_ptr<GEOSGeometry, decltype(&GEOSGeom_destroy)>;

[[maybe_unused]] static const bool begun = (initGEOS(nullptr, nullptr), true);

// A line through the points; a single one is in it twice.
static Geometry line_of(const Points &points) {
    std::vector<double> numbers;
    numbers.reserve(2 * points.size() + 2);
    for (const Point &point : points) {
        numbers.push_back(point.east);
        numbers.push_back(point.north);
    }
    if (points.size() == 1) numbers.insert(numbers.end(), {numbers[0], numbers[1]});
    GEOSCoordSequence *places = GEOSCoordSeq_copyFromBuffer(numbers.data(), numbers.size() / 2, 0, 0);
    return {GEOSGeom_createLineString(places), GEOSGeom_destroy};
}

Points corners_of(const Points &points) {
    const Geometry line = line_of(points);
    const Geometry hull(GEOSConvexHull(line.get()), GEOSGeom_destroy);
    const bool is_polygon = GEOSGeomTypeId(hull.get()) == GEOS_POLYGON;
    const GEOSGeometry *edge = is_polygon ? GEOSGetExteriorRing(hull.get()) : hull.get();
    const GEOSCoordSequence *places = GEOSGeom_getCoordSeq(edge);
    unsigned int count = 0;
    GEOSCoordSeq_getSize(places, &count);
    std::vector<double> numbers(2 * count);
    GEOSCoordSeq_copyToBuffer(places, numbers.data(), 0, 0);
    Points corners;
    for (unsigned int i = 0; i < count; ++i) {
        corners.push_back({static_cast<std::int64_t>(numbers[2 * i]), static_cast<std::int64_t>(numbers[2 * i + 1])});
    }
    return corners;
}
