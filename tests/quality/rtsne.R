# Rtsne's map of a table of numbers: Rscript rtsne.R TABLE MAP PERPLEXITY ITERATIONS THETA SEED
# Both files are lines of numbers with a space between two, a line for each frame. Prints the seconds that the map took and those of the
# processor, the files and the start of R aside, and the versions of Rtsne and of R. The table is taken as it is: no principal components
# first, not normalised. Rtsne leaves the factor 4 out of its gradient, so its rate of 200, which is its default, is the others' 50.
suppressMessages(library(Rtsne))
words <- commandArgs(trailingOnly = TRUE)
table <- as.matrix(read.table(words[1], colClasses = "numeric"))
set.seed(as.integer(words[6]))
took <- system.time(
    map <- Rtsne(table,
        dims = 2, perplexity = as.numeric(words[3]), max_iter = as.integer(words[4]), theta = as.numeric(words[5]),
        eta = 200, exaggeration_factor = 12, stop_lying_iter = 250, mom_switch_iter = 250, momentum = 0.5, final_momentum = 0.8,
        pca = FALSE, normalize = FALSE, check_duplicates = FALSE, num_threads = 1
    )
)
write.table(format(map$Y, digits = 17), words[2], quote = FALSE, row.names = FALSE, col.names = FALSE)
version <- paste(R.version$major, R.version$minor, sep = ".")
cat(took[["elapsed"]], took[["user.self"]] + took[["sys.self"]], as.character(packageVersion("Rtsne")), version, "\n")
