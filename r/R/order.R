# Values for each row of a table that may be those of its rows in another order, as of a table that was sorted since, which are
# refused: docs/TABLES.md, Filters.

# Refuses values for each of fixes that were read, where these may be values of the rows of their table: the program sorts rows, and
# leaves some out. Sure are values of which the call says that they are made of these fixes, and such as a column of these has.
check_order <- function(x, by, is_made) {
  fixes <- as_fixes(x)
  if (inherits(by, "POSIXlt")) by <- as.POSIXct(by)
  if (is.null(by) || is_made || !is.atomic(by) || is_text(by) || !is_fixes(fixes) || length(by) != nrow(fixes)) return(invisible())
  is_column <- vapply(as.list(fixes), function(column) identical(as.vector(column), as.vector(by)), NA)
  if (any(is_column) || are_rows_of_table(fixes)) return(invisible())
  refuse("option", "by: it is not known which of the fixes each value is of, since these may stand in another order than the rows that ",
         "were read, or be fewer: make the values a column of that table before read_fixes, or, if they were made of these fixes, ",
         "a column of these, as by fixes$group <- .., and name it, as by by = \"group\"")
}

# Refuses values that may be of other rows of a table: those of a column in another order, those that are made of what another table has
# under the title of a column, where that differs, and such with the names of rows in another order.
check_turned <- function(x, by, expression, where) {
  x <- as_fixes(x)
  if (!is.data.frame(x) || !is.atomic(by) || length(by) != nrow(x) || length(by) < 2) return(invisible())
  columns <- Filter(is.atomic, columns_of(x))
  labels <- row.names(x)
  if (identical(names(by), labels) || any(vapply(columns, are_same, NA, by))) return(invisible())
  turned <- Filter(function(title) are_turned(columns[[title]], by), names(columns))
  if (length(turned)) {
    refuse("option", "by: the values are those of the column '", turned[1], "' of the table in another order than that of its rows: name it, as by ",
           "by = \"", turned[1], "\", or make others a column of the table, as by x$group <- .., and by = \"group\"")
  }
  other <- Filter(function(call) is_of_other(call, columns, where), columns_in(expression))
  if (length(other)) {
    title <- as.character(other[[1]][[3]])
    refuse("option", "by is made of ", deparse(other[[1]]), ", and the column of that title says otherwise: by = \"", title, "\" takes the column; ",
           "if other values are meant, make them a column of the table, as by x$group <- .., and by = \"group\"")
  }
  if (!is.null(names(by)) && setequal(names(by), labels)) {
    refuse("option", "by has the names of rows in another order, so that nobody knows of which each value is: unname(by) goes by the places of ",
           "values, and by[row.names(x)] by their names")
  }
}

# The columns of tables in an expression, as x$title or x[["title"]].
columns_in <- function(expression) {
  if (!is.call(expression)) return(NULL)
  is_column <- length(expression) == 3 && is.symbol(expression[[1]]) && as.character(expression[[1]]) %in% c("$", "[[") &&
    is.symbol(expression[[2]]) && (is.symbol(expression[[3]]) || is.character(expression[[3]]))
  if (is_column) list(expression) else unlist(lapply(as.list(expression), columns_in))
}

# Whether a column of a table in an expression has as many values as one of its title among these, and others.
is_of_other <- function(call, columns, where) {
  own <- columns[[as.character(call[[3]])]]
  found <- tryCatch(eval(call, where), error = function(fault) NULL)
  !is.null(own) && is.atomic(found) && length(found) == length(own) && !are_same(found, own)
}

# Two vectors without names and classes, of one kind.
of_one_kind <- function(one, other) {
  both <- lapply(list(one, other), function(values) {
    own <- as.vector(unname(values))
    if (is.integer(own)) as.double(own) else own
  })
  if (typeof(both[[1]]) == typeof(both[[2]])) both else lapply(both, as.character)
}

are_same <- function(one, other) {
  both <- of_one_kind(one, other)
  identical(both[[1]], both[[2]])
}

# Whether two vectors have the same values, each as often, in whatever order.
are_turned <- function(one, other) {
  both <- of_one_kind(one, other)
  known <- unique(both[[1]])
  counts <- lapply(both, function(own) tabulate(match(own, known, 0L), length(known)))
  identical(counts[[1]], counts[[2]])
}

# Whether an expression is made of one variable alone, which is the table.
is_made_of <- function(table, expression) {
  is.symbol(table) && identical(unique(variables_of(expression)), as.character(table))
}

# The variables of an expression, but for the titles behind a dollar sign.
variables_of <- function(expression) {
  if (is.symbol(expression)) return(setdiff(as.character(expression), ""))
  if (!is.call(expression)) return(NULL)
  is_part <- is.symbol(expression[[1]]) && as.character(expression[[1]]) %in% c("$", "@", "::", ":::")
  unlist(lapply(as.list(expression)[if (is_part) 2 else -1], variables_of))
}
