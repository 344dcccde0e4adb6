# Arguments that are missing, that name no object, or a function, and titles without quotes.

square <- function(animal) data.frame(animal = animal, second = 60 * 0:3, easting = c(0, 200, 200, 0), northing = c(0, 0, 200, 200))

test_that("each function says which argument is missing", {
  skip_without_program()
  ranges <- quietly(home_range(square("a"), 100))
  lost <- list(
    x = list(quote(homerange_corners()), quote(homerange_curve()), quote(homerange_evidence()), quote(homerange_growth()), quote(homerange_left_out()),
             quote(homerange_overlap()), quote(homerange_share()), quote(write_page()), quote(write_report()), quote(home_range()), quote(read_fixes())),
    path = list(quote(write_page(ranges)), quote(write_report(ranges))), folder = list(quote(homerange_evidence(ranges))),
    reserve = list(quote(homerange_share(ranges))), file = list(quote(read_report())))
  for (name in names(lost)) for (call in lost[[name]]) {
    expect_error(eval(call), paste0("^", name, " (is|are) missing: .* wanted"), class = "homerange_option_error")
  }
  expect_error(homerange_program(1), "there is an argument too many", class = "homerange_option_error")
})

test_that("a title without quotes is asked to stand in some", {
  skip_without_program()
  table <- square("a")
  quotes <- function(name, text) paste0(": a title, or another text, stands in quotes, as by ", name, " = \"", text, "\"")
  refused <- function(call, text) expect_error(quietly(eval(call, list(table = table))), text, fixed = TRUE, class = "homerange_option_error")
  refused(quote(read_fixes(table, time = time)), paste0("time: time is a function", quotes("time", "time")))
  refused(quote(home_range(table, time = date)), paste0("time: date is a function", quotes("time", "date")))
  refused(quote(read_fixes(table, animal = nobody)), paste0("animal: there is no object 'nobody'", quotes("animal", "nobody")))
  refused(quote(home_range(table, by = month)), paste0("by: there is no object 'month'", quotes("by", "month")))
  refused(quote(home_range(table, by = months)), "by: the function of the fixes has failed: ")
  refused(quote(home_range(table, by = months)), ": a title, or a period such as \"month\", stands in quotes")
  refused(quote(home_range(table, levels = fifty)), "levels: there is no object 'fifty'")
  refused(quote(home_range(table, by = nobody$group)), "by: there is no object 'nobody'")
  refused(quote(home_range(deer.csv)), paste0("x: there is no object 'deer.csv'", quotes("x", "deer.csv")))
  refused(quote(homerange_corners(nothing)), "x: there is no object 'nothing'")
  dated <- transform(table, second = 1.7e9 + second)
  by <- function(fixes) format(fixes$time, "%Y")
  wrapped <- function(data, groups, ...) home_range(data, 100, by = groups, ...)
  expect_identical(length(quietly(wrapped(dated, by, time = "second"))), length(quietly(home_range(dated, 100, by = by))))
  expect_error(wrapped(table, stop("my own fault")), "my own fault")
})

odd <- list("NULL" = NULL, "no text" = character(), "empty" = "", "missing" = NA, "missing text" = NA_character_, "list" = list(), "number" = 1, "truth" = TRUE,
            "text" = "nonsense", "texts" = c("a", "b"), "NaN" = NaN, "day" = as.Date("2024-05-01"), "factor" = factor("a"), "table" = data.frame(), "name" = as.name("x"),
            "call" = quote(a + b), "environment" = new.env(), "function" = mean, "complex" = 1i, "raw" = raw(1), "matrix" = matrix(1:4, 2), "infinite" = Inf,
            "negative" = -1, "line" = "a\nb")
wrong <- c("list", "call", "environment", "function", "complex", "raw")  # what no argument is, but for one

# The functions that are exported, and the methods of ranges and fixes for generics of others, by their names.
functions_to_call <- function() {
  space <- asNamespace("homerange")
  methods <- getNamespaceInfo(space, "S3methods")
  is_own <- methods[, 2] %in% c("home_range", "homerange_fixes") & paste(methods[, 1], methods[, 2], sep = ".") == methods[, 3] &
    !methods[, 1] %in% c("group_modify", "merge", "rbind", "st_write") & !grepl("^(\\[|[$]|dplyr_)|<-$", methods[, 1])  # whose arguments are those of others
  sapply(c(getNamespaceExports(space), methods[is_own, 3]), get, space, simplify = FALSE)
}

# The arguments of a function to be tried: all that it has, or for a method all but the first, and the options of reading or of a page.
arguments_of <- function(name, called) {
  own <- setdiff(names(formals(called)), "...")
  further <- list(home_range = options_of_reading, read_fixes = options_of_reading, homerange_evidence = setdiff(names(formals(write_page)), c(own, "...", "path", "overwrite")))
  c(if (name %in% getNamespaceExports("homerange")) own else own[-1], further[[name]])
}

test_that("each argument of each function is taken, or refused in one line by its name", {
  skip_without_split()
  skip_if_not_installed("sf")
  folder <- local_folder()
  old <- setwd(folder)
  grDevices::pdf(NULL)
  on.exit({
    grDevices::dev.off()
    setwd(old)
  })
  table <- rbind(square("a"), square("b"))
  fixes <- quietly(read_fixes(table, zone = "33N"))
  ranges <- quietly(home_range(fixes, c(50, 100)))
  suppressMessages(write_report(ranges, "report.txt"))
  reserve <- sf::st_sf(geometry = sf::st_geometry(ranges))
  # What a refusal says in place of the name of an argument.
  named <- list(x = c("neither a path nor a data frame", "has no ranges"), animals = "no animal")
  functions <- functions_to_call()
  faults <- character()
  for (name in names(functions)) for (argument in arguments_of(name, functions[[name]])) for (value in names(odd)) {
    unlink(c("out.html", "new"), recursive = TRUE)
    given <- list(x = ranges, file = "report.txt", path = "out.html", folder = "new", reserve = reserve)
    if (name %in% c("home_range", "read_fixes")) given$x <- table
    given <- given[intersect(names(given), names(formals(functions[[name]])))]
    if (!name %in% getNamespaceExports("homerange")) given <- list(if (endsWith(name, "fixes")) fixes else ranges)
    given[argument] <- list(odd[[value]])
    fault <- tryCatch({
      suppressWarnings(suppressMessages(utils::capture.output(do.call(functions[[name]], given, quote = TRUE))))
      NULL
    }, error = identity)
    text <- if (is.null(fault)) "" else conditionMessage(fault)
    pattern <- gsub("@", argument, "^@\\b|\\b@( ?[=:]| is | has | takes )|argument @$", fixed = TRUE)
    says <- grepl(pattern, text, perl = TRUE) || any(vapply(named[[argument]], grepl, NA, text, fixed = TRUE))
    is_good <- is.null(fault) || inherits(fault, "homerange_error") && !grepl("\n", text) && nzchar(text) && (says || !value %in% wrong)
    if (!is_good) faults <- c(faults, paste0(name, ", ", argument, ", ", value, ": ", text))
  }
  expect_identical(faults, character())
})

test_that("an empty option is refused by its name, and so is a moment that is none", {
  skip_without_split()
  table <- square("a")
  refused <- function(text, ...) expect_error(read_fixes(table, ..., quiet = TRUE), paste0("\\Q", text), perl = TRUE, class = "homerange_error")
  for (name in c("tz", "unit", "zone", "name", "from")) {
    for (value in list(NA, NA_character_, character())) expect_error(do.call(read_fixes, c(list(table), `names<-`(list(value), name))), paste0("^", name, " = .* is no text"))
  }
  refused("zone = \"\" is no zone as 33N", zone = "")
  refused("unit:  is neither m nor dm", unit = "")
  refused("since: 'x' is no time in UTC, such as", since = "x")
  refused("until: '' is no time in UTC, such as", until = "")
})

test_that("what is no report, and no path, is refused as such", {
  skip_without_program()
  folder <- local_folder()
  path <- file.path(folder, "other")
  address <- "https://example.org/report.txt"
  ranges <- quietly(home_range(square("a"), 100))
  report <- file.path(folder, "report.txt")
  suppressMessages(write_report(ranges, report))
  for (data in list(charToRaw("SQLite format 3 and more"), charToRaw("animal,second,easting,northing\nfox,1,2,3\n"))) {
    writeBin(data, path)
    expect_error(read_report(path), "other is no report: it does not begin as one, with a line 'animal,NAME,fixes,NUMBER'$", class = "homerange_report_error")
  }
  writeBin(as.raw(c(charToRaw("SQLite format 3"), 0, 0xd8, 0xff, 10)), path)
  expect_error(read_report(report, files = path), "other has no fix with animal, second, easting and northing$", class = "homerange_text_error")
  writeBin(as.raw(c(0xd8, 0xff, 10)), path)
  expect_error(read_report(report, record = path), "other is no text in UTF-8$", class = "homerange_text_error")
  calls <- list(x = read_fixes, file = read_report, files = function(path) read_report(report, files = path), record = function(path) read_report(report, record = path))
  for (name in names(calls)) {
    expect_error(calls[[name]](address), paste0("^", name, " = \"", address, "\" is an address, and a path is wanted: load the file down before$"),
                 class = "homerange_option_error")
  }
  expect_error(homerange_overlap(ranges, 95), "^share = 95 is neither TRUE nor FALSE: a level is named, as by levels = 95$", class = "homerange_option_error")
  expect_error(as.data.frame(quietly(read_fixes(square("a"))), row.names = 1:3), "^row.names: a name for each of 4 rows is wanted", class = "homerange_option_error")
})

test_that("a title that means something else is no group, and another title is", {
  skip_without_program()
  table <- rbind(square("a"), square("b"))
  fixes <- quietly(read_fixes(table))
  fixes$zone <- table$zone <- rep(c("core", "buffer"), 4)
  helps <- "; of groups give it another title, as by names(x)[names(x) == \"zone\"] <- \"group\", by = \"group\""
  for (x in list(table, fixes)) expect_error(home_range(x, by = "zone", quiet = TRUE), helps, fixed = TRUE, class = "homerange_columns_error")
  expect_error(read_fixes(table, quiet = TRUE), "rename or remove it$", class = "homerange_columns_error")
  names(table)[names(table) == "zone"] <- "group"
  expect_identical(length(quietly(home_range(table, 100, by = "group"))), 4L)
})

test_that("times of classes of other packages are refused with what makes times of them", {
  skip_without_split()
  times <- as.POSIXct("2024-05-01", tz = "UTC") + 3601 * 0:3
  table <- cbind(square("a")[-2], time = times)
  made <- list(chron = "as.chron", nanotime = "as.nanotime", timeDate = "timeDate", clock = c("as_naive_time", "as_sys_time", "as_zoned_time", "as_year_month_day"))
  for (package in Filter(function(package) requireNamespace(package, quietly = TRUE), names(made))) for (maker in made[[package]]) {
    table$time <- getExportedValue(package, maker)(times)
    text <- conditionMessage(expect_error(read_fixes(table, quiet = TRUE), "of which no cell is known: .* makes (text|times) of it$", class = "homerange_error"))
    x <- table$time
    table$time <- eval(parse(text = sub("^.*known: (.*) makes .*$", "\\1", text)))
    if (maker != "as_year_month_day") expect_identical(as.numeric(read_fixes(table, quiet = TRUE)$time), as.numeric(times), label = maker)
  }
  table$time <- as.list(times)
  expect_error(read_fixes(table, quiet = TRUE), "do.call(c, x) makes a vector of it", fixed = TRUE)
  table$time <- NULL
  table$day <- as.Date(times)
  table$clock <- I(times)
  expect_error(read_fixes(table, time = "day,clock", quiet = TRUE), "clock has moments: name it alone, as by time = \"clock\"", fixed = TRUE)
})
