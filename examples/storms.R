# Writes examples/storms.csv from the data of the R package dplyr: Rscript examples/storms.R > examples/storms.csv
suppressMessages(library(dplyr))
all <- as.data.frame(storms)
# a storm is a name in a year; they are numbered in the order of the data
all$storm <- match(paste(all$name, all$year), unique(paste(all$name, all$year)))
late <- all[all$year >= 2000, ]
whole <- function(x) as.integer(round(x))
out <- data.frame(
  storm = whole(late$storm - min(late$storm) + 1), year = whole(late$year), month = whole(late$month), day = whole(late$day),
  hour = whole(late$hour), north = whole(10 * late$lat), east = whole(10 * late$long),
  category = whole(as.integer(as.character(late$category))), wind = whole(late$wind), pressure = whole(late$pressure),
  gale_miles = late$tropicalstorm_force_diameter, hurricane_miles = late$hurricane_force_diameter)
write.csv(out, stdout(), row.names = FALSE, quote = FALSE, na = "")
