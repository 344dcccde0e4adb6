# Reference systems: of which kind they are, those of zones, and how they are written. docs/TABLES.md, Reference systems.
#
# A system of a site alone has no way to degrees: sf would end the session where it is asked for one. Nothing here asks it.

system_of_a_site <- "\\b(ENGCRS|ENGINEERINGCRS|LOCAL_CS)\\["
unit_of_a_site <- "UNIT\\[\"([^\"]*)\",\\s*([-+.0-9eE]+)"
names_of_metre <- c("metre", "meter", "metres", "meters", "m")  # in small letters

radius_of_earth <- c(6350000, 6400000)  # metres between which that of a body is one of the Earth

has_sf <- function() requireNamespace("sf", quietly = TRUE)

# Refuses a reference system, that of an argument or of points, which have it under the same name.
refuse_crs <- function(..., kind = "crs") refuse(kind, "crs: ", ...)

# How the program says where the first fix is by columns of longitude and latitude that are not read; and how many metres from there,
# of which the tenth of a degree is 11,000 at most, some fix has to be.
first_of_degrees <- "^by column [0-9]+ .*, which are not read, the first fix is near ([0-9.]+) ([EW]) ([0-9.]+) ([NS])$"
most_away <- 20000

# Refuses a reference system by which no fix is where the program said that the first one is.
check_elsewhere <- function(crs, said, table) {
  line <- grep(first_of_degrees, said, value = TRUE)[1]
  if (is.na(line)) return(invisible())
  part <- function(which) sub(first_of_degrees, paste0("\\", which), line)
  degrees <- as.numeric(c(part(1), part(3))) * ifelse(c(part(2), part(4)) %in% c("W", "S"), -1, 1)
  at <- sf::sf_project("+proj=longlat +datum=WGS84 +no_defs", crs$wkt, rbind(degrees), keep = TRUE, warn = FALSE)
  away <- min(sqrt((table$easting - at[1])^2 + (table$northing - at[2])^2))
  if (!is.na(away) && away <= most_away) return(invisible())
  refuse_crs(line, ", and by ", crs$Name, " no fix is within ", most_away / 1000, " km of there: name the system of easting and northing, ",
             "or leave out the columns that are not theirs")
}

# Degrees beside the area of a reference system in which it is used too; and how systems are projected that whole countries use beside
# their own area, where areas tell more.
beside_area <- 1
projection_of_zones <- "METHOD[\"Transverse Mercator"

# What may be odd of two coordinates that lie elsewhere: whether they are exchanged, and what their signs are to be.
odd_places <- list(
  list("{0} and {1} are exchanged, perhaps: give them the other way", TRUE, c(1, 1)),
  list("{0} and {1} are without their signs, perhaps: give them a minus", FALSE, c(-1, -1)),
  list("{0} is without its sign, perhaps: give it a minus", FALSE, c(-1, 1)),
  list("{1} is without its sign, perhaps: give it a minus", FALSE, c(1, -1)),
  list("{0} and {1} are exchanged and without their signs, perhaps: give them the other way, and a minus", TRUE, c(-1, -1))
)
help_elsewhere <- "name the system that they have, or are {0} and {1} exchanged, or without their signs?"

# The area of a reference system in degrees, to the south, west, north and east; NULL where it has none.
area_of_crs <- function(crs) {
  form <- "BBOX\\[([-+.0-9eE]+), *([-+.0-9eE]+), *([-+.0-9eE]+), *([-+.0-9eE]+)\\]"
  found <- as.numeric(regmatches(crs$wkt, regexec(form, crs$wkt))[[1]][-1])
  if (length(found)) `names<-`(found, c("south", "west", "north", "east"))
}

# Which of some places in degrees lie in an area, or near it.
are_within <- function(area, degrees) {
  wide <- (area[["east"]] - area[["west"]]) %% 360
  if (wide == 0) wide <- 360
  is_of_latitude <- degrees[, 2] >= area[["south"]] - beside_area & degrees[, 2] <= area[["north"]] + beside_area
  is_within <- is_of_latitude & (degrees[, 1] - area[["west"]] + beside_area) %% 360 <= wide + 2 * beside_area
  is.finite(rowSums(degrees)) & is_within
}

# Degrees as they are written, with where they go.
placed <- function(degrees, ways) sprintf("%.1f %s", abs(degrees), ways[1 + (degrees < 0)])

place_text <- function(degrees) {
  if (!all(is.finite(degrees))) return("where that has no place")
  paste("near", placed(degrees[1], c("E", "W")), placed(degrees[2], c("N", "S")))
}

# What is to be said of where fixes lie by their reference system: the middle of them, or else one that lies where the system is made
# for. Refused if none does, unless it is a zone, or degrees, that have no other place for them.
line_of_place <- function(crs, at, sides = c("easting", "northing")) {
  at <- at[is.finite(rowSums(at)), , drop = FALSE]
  if (!nrow(at)) return(NULL)
  middle <- rbind((apply(at, 2, min) + apply(at, 2, max)) / 2)
  place <- in_degrees(middle, crs)
  area <- area_of_crs(crs)
  if (!is.null(area) && !are_within(area, place)) {
    several <- in_degrees(at, crs)
    near <- which(are_within(area, several))[1]
    if (is.na(near)) refuse_place(crs, area, place, middle, sides) else place <- several[near, , drop = FALSE]
  }
  if (all(is.finite(place))) paste(place_text(place), "by", sub("^([A-Za-z]+:[A-Za-z0-9]+) \\(.*\\)$", "\\1", text_of_crs(crs)))
}

# Refuses a reference system by which fixes lie elsewhere, with what is odd of their coordinates, if there is one such thing.
refuse_place <- function(crs, area, place, middle, sides) {
  likely <- Filter(function(odd) lie_so(crs, middle, odd[[2]], odd[[3]]), odd_places)
  is_used_beside <- isTRUE(sf::st_is_longlat(crs)) || grepl(projection_of_zones, crs$wkt, fixed = TRUE)
  if (length(likely) != 1 && is_used_beside) return(invisible())
  ways <- list(west = c("E", "W"), east = c("E", "W"), south = c("N", "S"), north = c("N", "S"))
  own <- vapply(names(ways), function(side) placed(area[[side]], ways[[side]]), "")
  helps <- if (length(likely) == 1) likely[[1]][[1]] else help_elsewhere
  refuse_crs("the fixes lie ", place_text(place), ", and ", one_line(crs$Name), " is of ", own["west"], " to ", own["east"], ", ", own["south"],
             " to ", own["north"], ": ", sub("{1}", sides[2], sub("{0}", sides[1], helps, fixed = TRUE), fixed = TRUE))
}

# Whether coordinates lie where their reference system is made for once they are exchanged, and those above 0 get these signs.
lie_so <- function(crs, middle, is_exchanged, signs = c(1, 1)) {
  area <- area_of_crs(crs)
  own <- if (is_exchanged) rev(as.vector(middle)) else as.vector(middle)
  !is.null(area) && all(own > 0 | signs > 0) && are_within(area, in_degrees(rbind(own * signs), crs))
}

# Refuses columns titled x and y, which nobody named as a side, of a system whose own x is the northing, as surveyors have it.
check_turned_sides <- function(crs, said, given) {
  line <- in_small(sub(";.*", "", grep("^columns: ", said, value = TRUE)))
  if (is.null(crs) || !is.null(given$easting) || !any(endsWith(line, ", x, y"))) return(invisible())
  wkt <- sf::st_crs(crs$wkt)$wkt
  names <- in_small(of_axes("AXIS\\[\"[^\"]*\\(([A-Za-z]+)\\)\"", wkt))
  ways <- in_small(of_axes("AXIS\\[\"[^\"]*\",\\s*([A-Za-z]+)", wkt))
  if (identical(names[order(names)], c("x", "y")) && identical(ways[order(names)], c("north", "east"))) {
    refuse_crs("x of ", one_line(crs$Name), " is the northing, and that of a table the easting: say which it is, as by easting = \"y\", ",
               "northing = \"x\", or by easting = \"x\", northing = \"y\"", kind = "ambiguous")
  }
}

# Whether a reference system is that of no place: none, or that of a site in metres. Of a site in another unit it is refused.
is_without_place <- function(crs, name) {
  if (is.na(crs) || !isTRUE(nzchar(crs$wkt))) return(TRUE)
  if (!grepl(system_of_a_site, crs$wkt)) return(FALSE)
  found <- regmatches(crs$wkt, regexec(unit_of_a_site, crs$wkt))[[1]]
  if (length(found) && !as.numeric(found[3]) %in% c(0, 1)) {
    refuse("crs", if (name == "x") "crs" else name, ": the unit of the coordinates is not the metre but ", found[2], ": turn them into metres first, ",
           if (name == "crs") "and leave crs out" else paste0("as by sf::st_set_geometry(x, sf::st_geometry(x) * ", found[3], ")"))
  }
  turned <- turned_axes(crs$wkt)
  if (!is.null(turned)) {
    own <- sub("^[A-Z_]+\\[\"([^\"]*)\".*", "\\1", crs$wkt)
    refuse_crs(axes_text(own, turned), ": make eastings and northings of its coordinates, which need no CRS")
  }
  TRUE
}

# Whether a reference system that has a place has longitude and latitude. What is no plane of eastings and northings in metres either
# is refused.
is_in_degrees <- function(crs, name, coordinates) {
  major <- as.numeric(crs$SemiMajor)
  if (is.finite(major) && !(major > radius_of_earth[1] && major < radius_of_earth[2])) {
    refuse_crs("the CRS ", one_line(crs$Name), " is of another body than the Earth")
  }
  if (isTRUE(sf::st_is_longlat(crs))) return(TRUE)
  has_way <- isTRUE(nzchar(crs$proj4string)) && !grepl("+proj=geocent", crs$proj4string, fixed = TRUE)
  if (!has_way) refuse_crs("the CRS ", one_line(crs$Name), " is not a plane one in metres: project the points first")
  wkt <- sf::st_crs(crs$wkt)$wkt  # in its newest form: systems that older versions of sf have written are in another
  unit <- unit_of_plane(wkt)
  if (is.null(unit) && is.na(crs$proj4string)) {
    refuse_crs("the CRS ", one_line(crs$Name), " has no way to longitude and latitude that sf knows: name another one, such as by its code")
  }
  turned <- turned_axes(wkt)
  kind <- "crs"
  why <- if (!is.null(unit)) {
    paste0("the CRS ", one_line(crs$Name), " is in ", unit, " and not in metres")
  } else if (!is.null(turned)) {
    name <- sub("EASTING, NORTHING", paste0(toupper(turned), "ING", collapse = ", "), name, fixed = TRUE)
    axes_text(crs$Name, turned)
  } else if (grepl("Pseudo.Mercator", crs$wkt)) {
    kind <- "scale"
    paste0("areas in the CRS ", one_line(crs$Name), " grow away from the equator")
  }
  if (!is.null(why)) refuse_crs(why, ": sf::st_transform(", name, ", ", utm_code_of(coordinates(), crs), ")", kind = kind)
  FALSE
}

# What the definition of a plane has of each of its two axes, as the group of a form says.
of_axes <- function(form, wkt) {
  axes <- sub("(?s)^.*?CS\\[Cartesian,", "", wkt, perl = TRUE)
  found <- utils::head(regmatches(axes, gregexpr(form, axes))[[1]], 2)
  sub(paste0(form, ".*"), "\\1", found)
}

# The unit of a plane, if it is not the metre, by its name and its factor. GDAL itself knows none of projections that its older form
# of text cannot have, such as Equal Earth.
unit_of_plane <- function(wkt) {
  names <- of_axes("LENGTHUNIT\\[\"([^\"]*)\",[-+.0-9eE]+", wkt)
  factors <- as.numeric(of_axes("LENGTHUNIT\\[\"[^\"]*\",([-+.0-9eE]+)", wkt))
  are_metres <- in_small(names) %in% names_of_metre
  odd <- ifelse(are_metres, paste(names, "of", vapply(factors, format, ""), "m"), names)[!are_metres | factors != 1]
  if (length(odd)) paste(sort(unique(odd), method = "radix"), collapse = ", ")
}

# Where the axes of a plane go, if one goes west, or one alone south, and so what stands on the map as north and east is another way;
# NULL else. Around a pole both go south.
turned_axes <- function(wkt) {
  ways <- in_small(of_axes("AXIS\\[\"[^\"]*\",\\s*([A-Za-z]+)", wkt))
  if ("west" %in% ways || sum(ways == "south") == 1) ways
}

axes_text <- function(name, ways) {
  paste0("the axes of the CRS ", one_line(name), " go ", paste(ways, collapse = " and "), ", and not east and north")
}

# The EPSG code of the UTM zone of most points; the word EPSG where none has a place.
utm_code_of <- function(coordinates, crs) {
  coordinates <- coordinates[is.finite(rowSums(coordinates)), , drop = FALSE]
  degrees <- if (nrow(coordinates)) in_degrees(coordinates, crs) else coordinates
  degrees <- degrees[is.finite(rowSums(degrees)), , drop = FALSE]
  if (!nrow(degrees)) return("EPSG")
  zones <- paste0(floor((degrees[, 1] + 180) / 6) %% 60 + 1, ifelse(degrees[, 2] >= 0, "N", "S"))
  code_of_zone(names(which.max(table(zones))))
}

# Coordinates of a reference system that has a place as longitude and latitude of WGS 84; not finite where they have none.
in_degrees <- function(coordinates, crs) {
  sf::sf_project(crs$wkt, "EPSG:4326", coordinates, keep = TRUE, warn = FALSE, authority_compliant = FALSE)
}

# A reference system that was named.
named_crs <- function(crs) {
  if (!has_sf()) refuse("option", "crs: this wants the package sf, which is not installed")
  if (!inherits(crs, "crs") && length(crs) != 1) refuse("crs", argument_text("crs", crs), " names no reference system")
  found <- tryCatch(suppressWarnings(sf::st_crs(crs)), error = function(fault) sf::NA_crs_)
  is_zone <- is_text(crs) && grepl("^[0-9]{1,2} ?[NSns]$", crs)
  if (is.na(found)) {
    refuse("crs", argument_text("crs", crs), " names no reference system", if (is_zone) paste0(": a zone is named by zone = \"", crs, "\""))
  }
  found
}

# The EPSG code of a zone, on the ellipsoid of WGS 84.
code_of_zone <- function(zone) (if (endsWith(zone, "N")) 32600 else 32700) + as.numeric(sub("[NS]", "", zone))

# A reference system of sf as it is written: its code and its name, or how it is defined where it has neither; those of UTM
# are written alike in all languages.
text_of_crs <- function(crs) {
  zone <- zone_of_crs(crs)
  if (!is.null(zone)) return(text_of_zone(zone))
  own <- "^.*ID\\[\"([^\"]+)\",\"?([^]\"]+)\"?\\]\\]$"
  wkt <- gsub("\\s*\n\\s*", "", crs$wkt)
  if (grepl(own, wkt)) return(paste0(sub(own, "\\1:\\2", wkt), " (", crs$Name, ")"))
  if (crs$Name == "unknown") crs$proj4string else crs$Name
}

# The reference system of a zone as it is written.
text_of_zone <- function(zone) sprintf("EPSG:%.0f (WGS 84 / UTM zone %s)", code_of_zone(zone), zone)

# The zone of a reference system of sf; NULL where it is that of none.
zone_of_crs <- function(crs) {
  code <- if (is.null(crs)) NA else crs$epsg
  number <- code %% 100
  if (!(code %/% 100) %in% c(326, 327) || !number %in% 1:60) return(NULL)
  paste0(number, if (code < 32700) "N" else "S")
}
