# Finding the programs, and faults of homerange, by scripts in its place.

fixes <- function() {
  data.frame(animal = rep(c("red fox", "b"), each = 2), second = 0:3, easting = 0:3, northing = 0:3)
}

test_that("each status has its class, and animals stand for files", {
  skip_without_split()
  classes <- paste0("homerange_", c("file", "option", "memory", "output", "cut"), "_error")
  for (status in seq_along(classes)) {
    # The fifth and sixth arguments are the files.
    local_program(sprintf("echo \"homerange: $5: record 2: what the program says of $6\" >&2; exit %d", status))
    fault <- expect_error(quietly(home_range(fixes())), class = classes[status])
    expect_identical(class(fault), c(classes[status], "homerange_error", "error", "condition"))
    expect_identical(conditionMessage(fault), "homerange: red fox: record 2: what the program says of b")
  }
})

test_that("files are those of the split in a folder that is gone afterwards, and of groups have numbers for names", {
  skip_without_split()
  folder <- local_folder()
  said <- file.path(folder, "said")
  local_program(sprintf("echo \"$@\" >'%s'; cat \"$5\" >>'%s'; exit 3", said, said))
  for (by in list(NULL, c("w", "w", "e", "e"))) {
    expect_error(quietly(home_range(fixes(), levels = c(5, 50), by = by, unit = "dm")),
                 "the program ended with status 3: it says no more", class = "homerange_memory_error")
    lines <- readLines(said)
    files <- strsplit(lines[1], " /")[[1]]
    names <- if (is.null(by)) c("red fox", "b") else c("1", "2")
    expect_identical(files[1], "--unit dm --percent 5,50")
    expect_identical(basename(files[2:3]), paste0(names, ".csv"))
    expect_identical(lines[-1], c("animal,second,easting,northing", paste0(names[1], c(",0,0,0", ",1,10,10"))))
    expect_false(dir.exists(paste0("/", dirname(files[2]))))
  }
})

test_that("a program that cannot run is an error of its own", {
  skip_without_split()
  local_program("exit 70")
  expect_error(quietly(home_range(fixes())), "ended with status 70", class = "homerange_program_error")
  local_program("kill -9 $$")
  expect_error(quietly(home_range(fixes())), "^the program ended with status 137: ", class = "homerange_program_error")
})

test_that("a report that is cut off or of other animals is refused", {
  skip_without_split()
  local_program("echo animal,b,fixes,1")
  expect_error(quietly(home_range(fixes())), "is cut off: its last line is not", class = "homerange_report_error")
  lines <- c("animal,b,fixes,1", "box,b,0,0,0,0", "row,b,1,0,1,0", "corner,b,1,0,0", "percent,b,50,1,1,0", "end,1")
  local_program(paste("echo", lines))
  expect_error(quietly(home_range(fixes())), "not the animals of its files", class = "homerange_check_error")
})

# Makes a file that can be run, and the folders it lies in.
runnable <- function(...) {
  path <- file.path(...)
  dir.create(dirname(path), showWarnings = FALSE, recursive = TRUE)
  writeLines("#!/bin/sh", path)
  Sys.chmod(path, "755")
  path
}

# Has the option, the environment and the working folder as they were when a test ends.
local_session <- function(frame = parent.frame()) {
  old <- options(homerange.program = NULL)
  path <- Sys.getenv(c("PATH", "HOMERANGE"))
  at_end(bquote({
    options(.(old))
    do.call(Sys.setenv, as.list(.(path)))
    setwd(.(getwd()))
  }), frame)
}

test_that("the program is found by option, environment, package and PATH, in this order, and never by the working folder", {
  skip_on_os("windows")
  folder <- normalizePath(local_folder())
  named <- runnable(folder, "named")
  meant <- runnable(folder, "meant")
  on_path <- runnable(folder, "path", "homerange")
  runnable(folder, "archive", "release", "homerange")
  runnable(folder, "archive", "release", "SOURCES")
  dir.create(file.path(folder, "archive", "r"))
  local_session()
  setwd(file.path(folder, "archive", "r"))
  options(homerange.program = named)
  Sys.setenv(HOMERANGE = meant, PATH = paste(dirname(on_path), Sys.getenv("PATH"), sep = ":"))
  expect_identical(homerange_program(), named)
  options(homerange.program = NULL)
  expect_identical(homerange_program(), meant)
  Sys.setenv(HOMERANGE = "")
  packed <- packed_program(getNamespaceInfo("homerange", "path"))
  expect_identical(homerange_program(), if (length(packed)) normalizePath(packed) else on_path)
  Sys.setenv(HOMERANGE = file.path(folder, "none"))
  expect_error(homerange_program(), "/none, which HOMERANGE names", class = "homerange_program_error")
  options(homerange.program = file.path(folder, "nothing"))
  expect_error(quietly(home_range(fixes())), "/nothing, which options(homerange.program) names", fixed = TRUE,
               class = "homerange_program_error")
})

test_that("the code's own clone has a program, and other folders have none", {
  folder <- local_folder()
  release <- runnable(folder, "release", "homerange")
  expect_identical(clone_program(file.path(folder, "r")), character())
  runnable(folder, "release", "SOURCES")
  expect_identical(clone_program(file.path(folder, "r")), release)
  for (other in c("library/homerange", "r/R", "data", "")) expect_identical(clone_program(file.path(folder, other)), character())
})

# The checksums of files of a folder, as release/SHA256SUMS has them.
write_sums <- function(folder, names) {
  sums <- system2("sha256sum", shQuote(file.path(folder, names)), stdout = TRUE)
  writeLines(paste0(substr(sums, 1, 64), "  release/", names), file.path(folder, "SHA256SUMS"))
}

test_that("a program that came with the package is held to its checksum", {
  folder <- local_folder()
  expect_identical(packed_program(folder), character())
  path <- runnable(folder, "bin", "homerange")
  write_sums(file.path(folder, "bin"), "homerange")
  expect_identical(packed_program(folder), path)
  other <- local_folder()
  file.copy(file.path(folder, "bin"), other, recursive = TRUE)
  cat("# changed\n", file = file.path(other, "bin", "homerange"), append = TRUE)
  changed <- function() packed_program(other)
  expect_error(changed(), "not the program that was installed with the package", class = "homerange_program_error")
  unlink(file.path(other, "bin", "SHA256SUMS"))
  expect_error(changed(), "not the program that was installed with the package", class = "homerange_program_error")
})

test_that("homerange-split lies beside homerange, and one that came with the package is held to its checksum", {
  skip_on_os("windows")
  local_session()
  Sys.setenv(HOMERANGE = "")
  make_packed <- function() {
    folder <- local_folder(parent.frame())
    for (name in c("homerange", "homerange-split")) runnable(folder, "bin", name)
    write_sums(file.path(folder, "bin"), c("homerange", "homerange-split"))
    folder
  }
  whole <- make_packed()
  expect_identical(split_program(whole), normalizePath(file.path(whole, "bin", "homerange-split")))
  changed <- make_packed()
  cat("# changed\n", file = file.path(changed, "bin", "homerange-split"), append = TRUE)
  expect_error(split_program(changed), "/homerange-split is not the program that was installed with the package",
               class = "homerange_program_error")
  lost <- make_packed()
  unlink(file.path(lost, "bin", "homerange-split"))
  expect_error(split_program(lost), "/homerange-split is not the program that was installed with the package",
               class = "homerange_program_error")
})

test_that("homerange-split lies beside the program that is named or on PATH, or beside the file that this is a link to", {
  skip_on_os("windows")
  folder <- normalizePath(local_folder())
  real <- runnable(folder, "real", "homerange")
  dir.create(file.path(folder, "linked"))
  linked <- file.path(folder, "linked", "homerange")
  file.symlink(real, linked)
  local_session()
  for (named in c(real, linked)) {
    options(homerange.program = named)
    expect_error(split_program(), paste0("there is no program homerange-split beside ", named, ": install it there"),
                 fixed = TRUE, class = "homerange_program_error")
  }
  beside <- runnable(folder, "real", "homerange-split")
  for (named in c(real, linked)) {
    options(homerange.program = named)
    expect_identical(split_program(), beside)
  }
  options(homerange.program = NULL)
  Sys.setenv(HOMERANGE = "", PATH = paste(dirname(linked), Sys.getenv("PATH"), sep = ":"))
  expect_identical(split_program(folder), beside)
  nearer <- runnable(folder, "linked", "homerange-split")
  expect_identical(split_program(folder), nearer)
  Sys.setenv(HOMERANGE = real)
  expect_identical(split_program(folder), beside)
})

test_that("ranges know which program made them, and by which call", {
  skip_without_program()
  ranges <- quietly(home_range(fixes(), levels = 95))
  expect_identical(ranges$program$path, homerange_program())
  expect_identical(ranges$program$version, system2(homerange_program(), "--version", stdout = TRUE))
  sum <- system2("sha256sum", shQuote(homerange_program()), stdout = TRUE)
  expect_identical(ranges$program$checksum, sub(" .*", "", sum))
  expect_identical(ranges$call, quote(home_range(x = fixes(), levels = 95)))
  expect_identical(quietly(do.call(home_range, list(fixes(), 95)))$call[-1], quote(home_range(x = x, levels = 95))[-1])
})

test_that("a file that the program refuses is told by its animal", {
  skip_without_program()
  many <- data.frame(animal = "the hare", second = 60, easting = rep(1, 1048577), northing = 1)
  expect_error(quietly(home_range(many)), "^homerange: the hare: more than 1048576 records after the header$",
               class = "homerange_file_error")
})

test_that("an option that is no text names no program", {
  old <- options(homerange.program = NA)
  on.exit(options(old))
  expect_error(found_program(""), "options(homerange.program = NA) names no program", fixed = TRUE, class = "homerange_program_error")
})
