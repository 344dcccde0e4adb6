# run_r.R CASES: whether the package for R has of each table the fixes that are wanted, or refuses it with the kind and the
# record: as a frame with types, and as a frame of text. CASES is the folder that unpack.py wrote; HOMERANGE names the program.
invisible(Sys.setlocale("LC_CTYPE", "C.UTF-8"))
script <- sub("^--file=", "", grep("^--file=", commandArgs(), value = TRUE))
package <- file.path(dirname(normalizePath(script)), "..", "..", "..", "r")
homerange <- new.env()
for (file in list.files(file.path(package, "R"), "[.]R$", full.names = TRUE)) sys.source(file, homerange)
homerange$split_program <- function() file.path(dirname(Sys.getenv("HOMERANGE")), "homerange-split")

lines_of <- function(case, name) {
  path <- file.path(case, name)
  if (file.exists(path)) readLines(path, encoding = "UTF-8") else character()
}

# The options of a case as a list of words.
options_of <- function(case) {
  call <- lines_of(case, "call")
  values <- ifelse(grepl(" ", call, fixed = TRUE), sub("^[^ ]* ", "", call), NA)
  names(values) <- gsub("-", "_", sub(" .*", "", call), fixed = TRUE)
  lapply(values, function(value) if (is.na(value)) TRUE else if (grepl("^-?[0-9]+$", value)) as.numeric(value) else value)
}

# The text of each track that is wanted, by the name of its file.
texts_in <- function(folder) {
  paths <- setdiff(list.files(folder, all.files = TRUE, no.. = TRUE), "split.txt")
  texts <- lapply(file.path(folder, paths), function(path) rawToChar(readBin(path, "raw", file.size(path))))
  `names<-`(texts, sub("[.]csv$", "", paths))
}

# The fixes of the table as a frame that is read so, as files would have them.
as_frame <- function(case, ...) {
  frame <- read.csv(file.path(case, "table.csv"), check.names = FALSE, encoding = "UTF-8", ...)
  fixes <- do.call(homerange$read_fixes, c(list(frame), options_of(case), quiet = TRUE))
  whole <- homerange$whole_fixes(fixes)
  shift <- c(lines_of(case, "shift"), "0,0")[1]
  if (sprintf("%.0f,%.0f", whole$shift[1], whole$shift[2]) != shift) stop("shifted by ", paste(whole$shift, collapse = ","))
  files <- homerange$facts_of(fixes)$files
  is_other <- files != names(files)
  if (!setequal(paste0(files, "\t", names(files))[is_other], lines_of(case, "names"))) stop("files are named ", toString(files))
  own <- unname(files[whole$fixes$animal])
  lines <- sprintf("%s,%.0f,%.0f,%.0f\n", own, whole$fixes$moment, whole$fixes$easting, whole$fixes$northing)
  lapply(split(lines, own), function(track) paste0(c("animal,second,easting,northing\n", track), collapse = ""))
}

as_typed_frame <- function(case) as_frame(case)
as_frame_of_text <- function(case) as_frame(case, colClasses = "character", na.strings = character())

# How what is made of a case is not what is wanted; NULL where it is.
difference <- function(case, make) {
  refusal <- c(lines_of(case, "refusal.frame"), lines_of(case, "refusal"))[1]
  found <- tryCatch(make(case), homerange_error = function(fault) fault)
  if (inherits(found, "error")) {
    told <- paste(if (is.null(found$record)) "-" else found$record, found$kind)
    if (!told %in% refusal) return(paste0("refused as ", told, " (", conditionMessage(found), "), ", refusal, " is wanted"))
  } else if (!is.na(refusal)) {
    return(paste("taken, and", refusal, "is wanted"))
  } else {
    wanted <- texts_in(file.path(case, "tracks"))
    if (!setequal(names(found), names(wanted)) || !identical(found[names(wanted)], wanted)) return(paste("other tracks:", deparse(found)[1]))
  }
}

# The cases that can be given as a frame.
cases_of <- function(folder) {
  cases <- list.dirs(folder, recursive = FALSE)
  cases[vapply(cases, function(case) c(lines_of(case, "only"), "frame")[1] == "frame", NA)]
}

# How many cases of a way are as they are wanted, and how many there are. Prints those that are not.
run_all <- function(what, make) {
  cases <- cases_of(commandArgs(trailingOnly = TRUE)[1])
  faults <- lapply(cases, function(case) {
    tryCatch(difference(case, make), error = function(fault) paste("stops:", conditionMessage(fault)))
  })
  is_bad <- !vapply(faults, is.null, NA)
  if (any(is_bad)) cat(paste0(basename(cases)[is_bad], " as a ", what, ": ", faults[is_bad], "\n"), sep = "")
  c(sum(!is_bad), length(cases))
}

counts <- run_all("typed frame", as_typed_frame) + run_all("frame of text", as_frame_of_text)
cat(counts[1], "of", counts[2], "tables\n")
quit(status = if (counts[1] == counts[2] && counts[2] > 0) 0 else 1)
