# frames.R FOLDER: tables of fixes in a folder, and of each the evidence that the package for R makes of it as a data frame, in
# by_r, and again of the files of one; and what other calls say, or why they are refused, in by_r/said.csv. same_frames.py makes
# that of the package for Python, by the same calls.
suppressMessages(library(homerange))
setwd(commandArgs(trailingOnly = TRUE)[1])
day <- as.Date("2026-11-26")
dir.create("by_r")

# Writes a table of fixes, and makes the evidence of what is read of it, all or some of the fixes.
hand_in <- function(case, table, levels = c(50, 95, 100), ..., filter = identity, title = NULL) {
  path <- paste0(case, ".csv")
  write.csv(table, path, row.names = FALSE, na = "")
  fixes <- filter(read_fixes(read.csv(path, check.names = FALSE), ..., quiet = TRUE))
  suppressMessages(homerange_evidence(home_range(fixes, levels), file.path("by_r", case), title = title, made = day))
}

# Names that no file has, fixes that failed, an animal of outliers alone, and a dilution of precision.
told <- data.frame(
  animal = c(Asta = "Asta/1", Bruno = "\u017diga, \u00c4", Cilla = "Cilla")[deer$individual.local.identifier],
  timestamp = format(deer$timestamp, "%Y-%m-%d %H:%M:%S"), easting = deer$utm.easting, northing = deer$utm.northing,
  visible = deer$visible, dop = seq_len(nrow(deer)) %% 7 + 1
)
told$easting[5] <- NA
told <- rbind(told, transform(told[1:2, ], animal = "gone", visible = FALSE))
hand_in("deer", deer, title = "<b> & deer")
hand_in("told", told, c(50, 95, 100), zone = "33N", tz = "Europe/Ljubljana", every = 6, since = as.Date("2024-04-02"),
        until = as.POSIXct("2024-05-10 12:00", tz = "UTC"), max_dop = "6", max_speed = 0.5)
system <- transform(told, easting = easting - 562000 + 4321000, northing = northing - 5134000 + 3210000)
hand_in("system", system, crs = "EPSG:3035", unit = "dm", animal = "animal")
hand_in("filtered", system, c(33, 90), crs = 3035, filter = function(fixes) subset(fixes, easting %% 2 == 0))
one <- subset(transform(told, easting = easting - 562000, northing = northing - 5134000), animal == "Cilla", -animal)
hand_in("grid", one, name = "Fox", since = "2024-04-20 05:00")
degrees <- transform(told, lon = 15 + (easting - 500000) / 77000, lat = 46 + (northing - 5095000) / 111000)
hand_in("degrees", degrees[!is.na(degrees$lon), c("animal", "timestamp", "lon", "lat")])
small <- data.frame(animal = "newt", second = c(0, 30, 90, 95), x = c(423.456, 430.125, 441.375, 433.001),
                    y = c(288.204, 271.118, 280.251, 299.003))
hand_in("decimals", small, unit = "dm")
many <- data.frame(animal = paste0("deer", rep(1:70, each = 9)), second = 3600 * 0:8, easting = head(deer$utm.easting, 630),
                   northing = head(deer$utm.northing, 630))
hand_in("many", many, 95, skip_unnamed = TRUE)

# Evidence of a report and its files, with their record.
tracks <- file.path("by_r", "told", "tracks")
files <- list.files(tracks, "[.]csv$", full.names = TRUE)
ranges <- read_report(file.path("by_r", "told", "report.txt"), files = files, record = file.path(tracks, "split.txt"))
suppressMessages(homerange_evidence(ranges, file.path("by_r", "again"), made = day))

# What a call says, each line behind its name, or the kind and the text of its refusal.
answer <- function(call) {
  said <- character()
  hear <- function(told) {
    said <<- c(said, sub("^homerange: (.*)\n$", "\\1", conditionMessage(told)))
    tryInvokeRestart("muffleMessage")
  }
  tryCatch({
    withCallingHandlers(call(), message = hear)
    data.frame(kind = rep("said", length(said)), text = said)
  }, homerange_error = function(fault) data.frame(kind = fault$kind, text = conditionMessage(fault)))
}

# The fixes with other columns.
changed <- function(...) {
  columns <- list(...)
  fixes[names(columns)] <- columns
  fixes
}

fixes <- read_fixes(told, zone = "33N", quiet = TRUE)
ranges <- home_range(fixes, 50, quiet = TRUE)
groups <- rep_len(c("a", "b", "b"), nrow(fixes))
seconds <- read_fixes(small, unit = "dm", quiet = TRUE)
in_spain <- transform(told, easting = easting - 562000 + 2900000, northing = northing - 5134000 + 1700000)
calls <- list(
  all = function() read_fixes(told, zone = "33N"), decimals = function() read_fixes(small, unit = "dm"),
  fixes = function() home_range(fixes), sorted = function() home_range(fixes[order(fixes$easting), ]),
  moved = function() home_range(changed(easting = fixes$easting + 0.25)),
  swapped = function() home_range(changed(easting = fixes$northing, northing = fixes$easting)),
  twice = function() home_range(rbind(fixes, fixes)), marked = function() home_range(changed(use = fixes$easting %% 2)),
  unread = function() home_range(changed(visible = 0, use = 1)),
  source = function() home_range(changed(timestamp = replace(fixes$timestamp, 3, "2024-01-01"))),
  own = function() read_fixes(transform(told, tag = "Fox"), animal = "tag", zone = "33N"),
  clock = function() read_fixes(transform(told, timestamp = as.POSIXct(timestamp, tz = "Asia/Tokyo"), released = as.POSIXct(timestamp, tz = "UTC")),
                                zone = "33N"),
  none = function() home_range(fixes[0, ]), again = function() home_range(fixes, zone = "33N"),
  bound = function() rbind(fixes, read_fixes(told, zone = "33N", unit = "dm", quiet = TRUE)),
  list = function() read_fixes(transform(told, sensor.type = I(as.list(animal)))),
  part = function() read_fixes(transform(told, animal = 1.5)), rows = function() read_fixes(told[0, ]),
  moments = function() read_fixes(transform(told[c("animal", "easting", "northing")], local_time = as.POSIXct(told$timestamp, tz = "UTC")), zone = "33N"),
  percent = function() home_range(fixes, percent = 95), "list given" = function() home_range(list(5)), sensor = function() read_fixes(told, sensor = "gps"),
  types = function() read_fixes(transform(told, fixtype = "3D"), fix_type = "3-D"),
  hours = function() read_fixes(transform(told, timestamp = substr(timestamp, 1, 10), hour = 5)),
  joined = function() read_fixes(transform(told, timestamp = substr(timestamp, 1, 10), hour = 5), time = c("timestamp", "hour")),
  commas = function() read_fixes(transform(told, easting = "500000,5")), days = function() read_fixes(transform(told, timestamp = 45352.5)),
  year = function() read_fixes(transform(told, timestamp = "0024-03-01")), offset = function() read_fixes(told, tz = "UTC+2"),
  digits = function() read_fixes(transform(told, animal = 2^60)), groups = function() home_range(seconds, by = c("M", "M ", "M", "-")),
  option = function() read_fixes(told, nonsense = 1), zone = function() read_fixes(told, zone = 33), word = function() read_fixes(told, sensor = c("gps", "a,b")),
  files = function() read_fixes(told, encoding = "latin-1"), degrees = function() read_fixes(told, crs = 4326),
  moon = function() read_fixes(told, crs = "+proj=tmerc +R=1737400 +units=m"),
  lengths = function() read_fixes(in_spain, crs = 3035), world = function() read_fixes(in_spain, crs = "EPSG:6933"),
  earth = function() read_fixes(in_spain, crs = "ESRI:54009"), turned = function() read_fixes(told, crs = 5513),
  by = function() home_range(fixes, by = "nothing"), season = function() home_range(seconds, by = "season"), parts = function() home_range(seconds, by = c(1, 1.5, 2, 2)),
  order = function() home_range(fixes, by = groups), added = function() home_range(changed(exclude = 1, keep = 0)),
  named = function() home_range(changed(exclude = 1, keep = 0), by = "keep"), ending = function() write_page(ranges, "page.csv"),
  far = function() homerange_share(ranges, sf::st_as_sfc(sf::st_bbox(c(xmin = 900000, ymin = 5134000, xmax = 901000, ymax = 5135000), crs = 32633))),
  page = function() write_page(ranges, file.path("none", "page.html")), report = function() read_report("none")
)
answers <- lapply(calls, answer)
found <- do.call(rbind, Map(function(name, own) cbind(call = rep(name, nrow(own)), own), names(answers), answers))
write.csv(found, file.path("by_r", "said.csv"), row.names = FALSE)
