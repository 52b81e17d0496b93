# From states to rules: the rule of each gene as a polynomial modulo 2, worked out from the 64 states of states.csv; then from
# the seven states of the cell cycle alone. recover.py does the same in Python and prints the same.
# Run in this folder: Rscript recover.R
library(misqafur)
table <- read.csv("states.csv")
genes <- names(table)[1:6]
targets <- sub("^next[.]", "", names(table)[-(1:6)])
after <- table[-(1:6)]
names(after) <- targets
row_of <- function(state) which(colSums(t(table[genes]) == unlist(state)) == length(genes))

# The polynomial of each target over the sheet of some states, given by their rows, and its wiring list.
recovered <- function(rows) {
  sheet <- draw_up(sheet(2, genes), table[rows, genes])
  lapply(setNames(targets, targets), function(target) {
    values <- after[rows, target]
    list(rule = interpolate(sheet, values), wiring = names(wiring(sheet, values)))
  })
}

# The rows of the states that a state runs into and that come round again.
cycle <- function(row) {
  seen <- c()
  while (!row %in% seen) {
    seen <- c(seen, row)
    row <- row_of(after[row, genes])
  }
  seen[match(row, seen):length(seen)]
}

# The values of a rule at all states: R reads the string as an expression.
values_of <- function(rule) with(table, eval(parse(text = rule))) %% 2

cat("From all 64 states:\n")
all <- recovered(1:64)
for (target in targets) cat(sprintf("  %s = %s\n    wiring: %s\n", target, all[[target]]$rule, paste(all[[target]]$wiring, collapse = " ")))

course <- cycle(1)
cat(sprintf("From the %d states of the cycle, and at how many of the 64 states that rule holds:\n", length(course)))
few <- recovered(course)
for (target in targets) cat(sprintf("  %s = %s  (%d)\n", target, few[[target]]$rule, sum(values_of(few[[target]]$rule) == after[[target]])))
