# A time course run forward: the last course of courses.csv has two records, and the model of all courses runs on to the cell cycle, as
# the published rules do; then the model of the first course alone. forward.py does the same in Python and prints the same.
# Run in this folder: Rscript forward.R
library(misqafur)
table <- read.csv("states.csv")
genes <- names(table)[1:6]
key <- function(states) do.call(paste, unname(states[genes]))
after <- setNames(do.call(paste, unname(table[paste0("next.", genes)])), key(table))
records <- read.csv("courses.csv", check.names = FALSE)

last <- course(records, records[nrow(records), 7])
met <- key(last$trajectory)
agree <- all(after[met[-length(met)]] == met[-1])
cat(sprintf("From all %d courses, at %d states:\n", length(last$courses), nrow(states(last$sheet))))
cat(sprintf("  course %d repeats every %d steps from step %d\n", last$number, last$back, last$step - last$back))
cat(sprintf("  %s\n", paste(genes, collapse = " ")))
cat(sprintf("  step %d: %s%s\n", seq_along(met) - 1L, met, ifelse(seq_along(met) <= last$measured, " (measured)", "")), sep = "")
cat(sprintf("  by the published rules the states are %s\n", if (agree) "the same" else "others"))

# The values of a rule at all states: R reads the string as an expression.
values_of <- function(rule) rep_len(with(table, eval(parse(text = rule))) %% 2, nrow(table))

first <- course(records[records[[7]] == 1, ], 1)
given <- do.call(paste, unname(lapply(first$model, values_of)))
cat(sprintf("From course 1 alone, at %d states: it repeats every %d steps from step %d,\n", nrow(states(first$sheet)), first$back, first$step - first$back))
cat(sprintf("  and its model gives the next state by the published rules at %d of the 64 states\n", sum(given == after)))
