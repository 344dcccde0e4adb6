# What functions of R and of other packages make of fixes: tables that keep how these were read, as long as they have their columns.
# The methods for other packages are registered where these are loaded.

merge.homerange_fixes <- function(x, y, ...) with_reading(NextMethod(), x)

transform.homerange_fixes <- function(`_data`, ...) with_reading(NextMethod(), `_data`)

cbind.homerange_fixes <- function(..., deparse.level = 1) {
  with_reading(cbind.data.frame(..., deparse.level = deparse.level), Find(is_fixes, list(...)))
}

# Of dplyr: groups, and what its verbs call. That of a template puts what is known back.
group_by.homerange_fixes <- function(.data, ...) with_reading(NextMethod(), .data)

rowwise.homerange_fixes <- function(data, ...) with_reading(NextMethod(), data)

ungroup.homerange_fixes <- function(x, ...) with_reading(NextMethod(), x)

select.homerange_fixes <- function(.data, ...) with_reading(NextMethod(), .data)

group_modify.homerange_fixes <- function(.data, .f, ...) with_reading(NextMethod(), .data)

# Fixes that have lost a column so are said to have, and may get it back: groups would forget what is known.
`names<-.homerange_fixes` <- function(x, value) {
  found <- NextMethod()
  structure(found, class = union("homerange_fixes", class(found)), homerange = facts_of(x))
}

dplyr_row_slice.homerange_fixes <- function(data, i, ...) with_reading(NextMethod(), data)

dplyr_col_modify.homerange_fixes <- function(data, cols) with_reading(NextMethod(), data)

dplyr_reconstruct.homerange_fixes <- function(data, template) with_reading(NextMethod(), template)

as_tibble.homerange_fixes <- function(x, ...) with_reading(NextMethod(), x)

# Of vctrs, by which dplyr and others bind rows: fixes of several readings have to be alike in what rbind wants them to be.
vec_ptype2.homerange_fixes.homerange_fixes <- function(x, y, ...) {
  check_bound(y, x)
  new_fixes(vctrs::df_ptype2(as.data.frame(x), as.data.frame(y), ...), bound_facts(list(facts_of(x), facts_of(y))))
}

vec_cast.homerange_fixes.homerange_fixes <- function(x, to, ...) {
  new_fixes(vctrs::df_cast(as.data.frame(x), as.data.frame(to), ...), facts_of(to))
}

# Of tidyr.
verb_of_tidyr <- function(data, ...) with_reading(NextMethod(), data)

# Of sf: points of fixes keep what is known, also without a column that fixes need, so that they are said to have lost it.
with_points <- function(table, points) {
  if (!is.data.frame(table)) return(table)
  attr(table, "homerange") <- facts_of(points)
  if (inherits(table, "sf")) class(table) <- union("homerange_points", class(table))
  table
}

points_of_sf <- function(x, ...) with_points(NextMethod(), x)

points_of_dplyr <- function(.data, ...) with_points(NextMethod(), .data)

`[.homerange_points` <- function(x, ...) with_points(NextMethod(), x)

`[[<-.homerange_points` <- function(x, i, value) with_points(NextMethod(), x)

`$<-.homerange_points` <- function(x, name, value) with_points(NextMethod(), x)

transform.homerange_points <- function(`_data`, ...) with_points(NextMethod(), `_data`)

`st_crs<-.homerange_points` <- function(x, value) with_points(NextMethod(), x)

`st_geometry<-.homerange_points` <- function(x, value) with_points(NextMethod(), x)

rbind.homerange_points <- function(..., deparse.level = 1) {
  all <- Filter(Negate(is.null), list(...))
  bound <- do.call(rbind.homerange_fixes, lapply(all, fixes_of_points))
  with_points(do.call(utils::getS3method("rbind", "sf", envir = asNamespace("sf")), all), bound)
}

st_drop_geometry.homerange_points <- function(x, ...) fixes_of_points(x)

# Points of fixes as these, wherever the points lie now.
fixes_of_points <- function(points) {
  if (!inherits(points, "sf")) return(points)
  with_reading(structure(columns_of(points), class = "data.frame", row.names = attr(points, "row.names")), points)
}

# What sf makes of points it makes of those of fixes.
sf_of_fixes <- function(x, ...) getExportedValue("sf", .Generic)(st_as_sf.homerange_fixes(x), ...)
