# Layers for a GIS: a GeoPackage with the polygons, the fixes, and how QGIS draws them, by sf. Two runs write the same bytes, so
# its dates are those of a run that is not known.

last_of_pandas <- 9223372036  # the last second that tables have: the times of pandas end in the year 2262

no_date <- "1970-01-01T00:00:00.000Z"
# Where no reference system is known: sf would write that the unit is not known either.
plane_in_metres <- "LOCAL_CS[\"Undefined Cartesian SRS\",UNIT[\"metre\",1]]"

# Writes the layer of polygons that have an area, and that of fixes; says which polygons have none.
write_layers <- function(ranges, path) {
  polygons <- layer_of_polygons(ranges)
  has_area <- polygons$corners > 2
  for (level in unique(ranges$percents$level)) {
    flat <- polygons$animal[!has_area & polygons$level == level]
    if (length(flat)) {
      tell_note(paste0("not in ", basename(path), ", since they have no area at ", level, " %: ", paste(flat, collapse = ", ")), "left_out")
    }
  }
  before <- Sys.getenv("OGR_CURRENT_DATE", NA)
  Sys.setenv(OGR_CURRENT_DATE = no_date)
  on.exit(if (is.na(before)) Sys.unsetenv("OGR_CURRENT_DATE") else Sys.setenv(OGR_CURRENT_DATE = before))
  local_plain()
  if (any(has_area)) write_layer(polygons[has_area, ], path, "ranges", ranges)
  write_fixes(ranges, path)
  sf::st_write(qgis_styles(c("ranges"[any(has_area)], "fixes")), path, "layer_styles", quiet = TRUE, append = TRUE,
               layer_options = "FID=id")
}

# Adds the layer of polygons. Seconds that have no date are whole numbers, which sf alone would write with decimals.
write_layer <- function(layer, path, name, ranges) {
  if (is.na(sf::st_crs(layer))) layer <- sf::st_set_crs(layer, plane_in_metres)
  if (has_dates(ranges)) return(sf::st_write(layer, path, name, quiet = TRUE, append = TRUE))
  in_folder(function(folder) {
    own <- file.path(folder, "layer.gpkg")
    sf::st_write(layer, own, name, quiet = TRUE)
    titles <- setdiff(names(layer), attr(layer, "sf_column"))
    fields <- sprintf(ifelse(titles %in% c("first", "last"), "CAST(\"%1$s\" AS bigint) AS \"%1$s\"", "\"%1$s\""), titles)
    select <- paste("SELECT", paste(fields, collapse = ", "), "FROM", name)
    sf::gdal_utils("vectortranslate", own, path, c("-f", "GPKG", "-nln", name, "-dialect", "OGRSQL", "-sql", select), quiet = TRUE)
  })
}

# The polygons of all levels, those of an animal together, with its times and the unit.
layer_of_polygons <- function(ranges) {
  levels <- unique(ranges$percents$level)
  shapes <- do.call(rbind, lapply(levels, function(level) as_sf(ranges, level, rings_of(ranges, level))))
  own <- ranges$percents[match(paste(shapes$animal, shapes$level), paste(ranges$percents$animal, ranges$percents$level)), ]
  place <- match(shapes$animal, ranges$animals$animal)
  last <- last_rows(ranges)[place]
  shapes$fixes <- ranges$animals$fixes[place]
  shapes$corners <- own$corners
  whole <- c("level", "fixes", "kept", "corners")
  shapes[whole] <- lapply(sf::st_drop_geometry(shapes)[whole], as.integer)
  shapes$first <- layer_time(ranges$rows$second[last - shapes$fixes + 1], ranges)
  shapes$last <- layer_time(ranges$rows$second[last], ranges)
  shapes$unit <- rep(ranges$unit, nrow(shapes))
  shapes[order(place), c("animal", whole, "hectares", "first", "last", "unit")]
}

# Adds the layer of fixes, numbered by the order of time. GDAL makes it of a text: by sf a point takes ten times as long.
write_fixes <- function(ranges, path) {
  crs <- crs_or_none(ranges)
  system <- if (is.na(crs)) plane_in_metres else crs$wkt
  in_folder(function(folder) {
    text <- file.path(folder, "fixes.csv")
    write_parts(parts_of_frame(columns_of_layer(ranges)), text)
    kind <- if (has_dates(ranges)) "DateTime" else "Integer64"
    writeLines(paste0("\"String\",\"Integer\",\"", kind, "\",\"CoordX\",\"CoordY\""), file.path(folder, "fixes.csvt"))
    options <- c("-f", "GPKG", "-nln", "fixes", "-nlt", "POINT", "-lco", "SPATIAL_INDEX=NO", "-a_srs", system, "-oo",
                 "KEEP_GEOM_COLUMNS=NO", "-gt", "unlimited")
    sf::gdal_utils("vectortranslate", text, path, c(if (file.exists(path)) "-update", options), quiet = TRUE)
  })
}

# The columns of that text.
columns_of_layer <- function(ranges) {
  metres <- in_metres(ranges, ranges$fixes)
  list(animal = as.character(ranges$fixes$animal), n = sequence(ranges$animals$fixes), time = layer_time(ranges$fixes$moment, ranges),
       x = metres[, 1], y = metres[, 2])
}

# Times of UTC, or seconds where these have no date.
layer_time <- function(seconds, ranges) if (has_dates(ranges)) .POSIXct(seconds, tz = "UTC") else seconds

# Whether all seconds are dates, to where the times of pandas end.
has_dates <- function(ranges) all(ranges$rows$second >= 1e8 & ranges$rows$second < last_of_pandas)

# How QGIS draws layers, in the columns in which it looks for that.
qgis_styles <- function(layers) {
  style <- function(name) {
    path <- system.file("extdata", paste0(name, ".qml"), package = "homerange", mustWork = TRUE)
    readChar(path, file.size(path), useBytes = TRUE)
  }
  data.frame(
    f_table_catalog = "", f_table_schema = "", f_table_name = layers, f_geometry_column = "geom", styleName = "homerange",
    styleQML = vapply(layers, style, "", USE.NAMES = FALSE), styleSLD = "", useAsDefault = TRUE, description = "homerange",
    owner = "", ui = NA_character_, update_time = .POSIXct(0, tz = "UTC")
  )
}
