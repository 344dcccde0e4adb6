# same_pages.R FOLDER: makes in by_r the evidence of the cases that same_pages.py wrote into the folder, and the page of
# report.txt.
suppressMessages(library(homerange))
setwd(commandArgs(TRUE))
day <- as.Date("2026-11-26")

make_by_r <- function(own) {
  fixes <- read.csv(paste0(own$name, ".csv"), colClasses = c(animal = "character"), na.strings = "", encoding = "UTF-8")
  levels <- as.numeric(strsplit(own$levels, ",")[[1]])
  ranges <- home_range(fixes, levels = levels, unit = own$unit, crs = if (nzchar(own$crs)) own$crs, tz = own$tz)
  wood <- if (nzchar(own$boundary)) sf::st_as_sfc(own$boundary, crs = own$boundary_crs)
  homerange_evidence(ranges, file.path("by_r", own$name), title = own$title, study = own$study, reserve = wood,
           reserve_name = own$boundary_name, made = day)
}

cases <- read.csv("cases.csv", colClasses = "character", na.strings = "?", encoding = "UTF-8")
for (at in seq_len(nrow(cases))) suppressMessages(make_by_r(cases[at, ]))
write_page(read_report("report.txt"), file.path("by_r", "report.html"), made = day)
