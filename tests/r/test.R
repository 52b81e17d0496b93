# The R package on the stored texts, on refusals, names and copies (names.R), weights (weights.R), a gene left out (leaving.R), time courses (course.R), sheets as JSON (json.R) and on random calls: what the program prints, made from its answers, is held
# to the stored print; a polynomial is evaluated in R at every state. usage: Rscript test.R ROOT
library(misqafur)
root <- commandArgs(TRUE)[1]
passed <- failed <- 0
expect <- function(good, what) {
  if (isTRUE(good)) passed <<- passed + 1 else { failed <<- failed + 1; cat("differs:", what, "\n") }
}
refusal <- function(call) tryCatch({ call; 0 }, misqafur_refusal = function(e) e$number)

# The coefficients of a polynomial's string over some monomials, in their order.
coefficients <- function(s, text, monomials) {
  terms <- misqafur:::polynomial_terms(s, text)
  key <- function(m) apply(m, 1, paste, collapse = " ")
  found <- terms$coefficients[match(key(monomials), key(terms$exponents))]
  ifelse(is.na(found), 0, found)
}

printed <- function(file) {
  read <- tryCatch(read_sheet(file), misqafur_refusal = function(e) e)
  line <- function(...) paste(c(...), collapse = " ")
  if (inherits(read, "condition")) return(line("refused", read$number, read$record))
  s <- read$sheet
  below <- standard(s)
  lead <- leads(s)
  rows <- basis(s)
  n <- nrow(below)
  row <- function(i) line("row", lead[i, ], ":", if (n > 0) coefficients(s, rows[i], below))
  wires <- wiring(s, read$values)
  c(line("points", n, "standard", n, "rows", nrow(lead)), if (n > 0) apply(below, 1, function(e) line("standard", e)),
    vapply(seq_len(nrow(lead)), row, ""), line("interpolant", if (n > 0) coefficients(s, interpolate(s, read$values), below)), line("wiring", wires))
}

# Of the larger texts every eighth, which takes R long enough.
texts <- Sys.glob(file.path(root, "tests/texts/*/*.csv"))
large <- file.size(texts) > 400 & file.size(texts) < 16000
for (file in texts[!large | seq_along(texts) %% 8 == 0])
  expect(identical(printed(file), readLines(sub("csv$", "txt", file))), basename(file))

# Refusals leave the sheet, and come with their numbers.
three <- draw_up(sheet(5, 2, "grlex"), data.frame(g1 = c(0, 1, 2), g2 = c(0, 2, 1)))
often <- draw_up(three, matrix(c(1, 2), 255, 2, byrow = TRUE))
tries <- list(list(3, quote(sheet(4, 2))), list(3, quote(sheet(-5, 2))), list(3, quote(sheet(5.5, 2))), list(4, quote(sheet(5, 9))), list(4, quote(sheet(5, 2.5))), list(4, quote(sheet(5, NA))),
              list(4, quote(sheet(5, character(0)))), list(5, quote(sheet(5, 2, "Lex"))), list(7, quote(add_state(three, 1))),
              list(9, quote(add_state(three, c(5, 0)))), list(9, quote(add_state(three, c(NA, 0)))), list(9, quote(add_state(three, c(0.5, 0)))),
              list(13, quote(add_state(often, c(-4, 2)))), list(12, quote(withdraw_state(three, c(4, 4)))), list(7, quote(interpolate(three, 1:2))),
              list(9, quote(interpolate(three, c(0, 0, 5)))), list(7, quote(draw_up(three, matrix(0, 2, 3)))),
              list(13, quote(draw_up(three, matrix(0, 256, 2)))), list(0, quote(draw_up(three, data.frame(g2 = numeric(0), g1 = numeric(0))))),
              list(0, quote(check_sheet(three))))
for (try in tries) expect(refusal(eval(try[[2]])) == try[[1]], deparse(try[[2]]))
damaged <- three
damaged$raw[100] <- as.raw(3)
expect(refusal(check_sheet(damaged)) == 10 && refusal(basis(damaged)) == 10, "a damaged sheet")

for (part in c("names.R", "weights.R", "leaving.R", "course.R", "json.R")) source(file.path(root, "tests/r", part), local = new.env())

# Replicates: the example of the requirement, one state 255 times, and pots that come and go.
example <- draw_up(sheet(5, 1), matrix(c(4, 0, -1), 3))
expect(identical(counts(example), c(2L, 1L)) && identical(unlist(states(example), use.names = FALSE), c(4L, 0L)), "4, 0 and -1 modulo 5")
expect(identical(counts(often), 255L) && nrow(states(often)) == 1, "one state 255 times")
twice <- add_state(three, c(-4, 2))
expect(identical(counts(twice), c(1L, 2L, 1L)) && identical(basis(twice), basis(three)), "a replicate")
expect(identical(withdraw_state(twice, c(1, 2))$raw, three$raw), "a replicate that came and went")
expect(remainder(three, "g1^2*g2") == "2*g1" && remainder(three, "g1^2 g2 - 3") == "2 + 2*g1", "remainders")
expect(identical(basis(withdraw_state(add_state(three, c(4, 0)), c(-1, 0))), basis(three)), "a state that came and went")

# Random states: every polynomial of the basis is 0 at every state, the interpolant has its values, adding one by one is the same.
value <- function(s, text, state) {
  terms <- misqafur:::polynomial_terms(s, text)
  power <- function(e) Reduce(function(a, k) (a * Reduce(function(x, i) (x * state[k]) %% s$modulus, seq_len(e[k]), 1)) %% s$modulus, seq_along(e), 1)
  sum(terms$coefficients * apply(terms$exponents, 1, power)) %% s$modulus
}
any_sheet <- function(p, genes) {
  if (sample(3, 1) == 1) sheet(p, genes, weights = sample(99, genes, TRUE)) else sheet(p, genes, sample(0:2, 1))
}
set.seed(1)
for (i in 1:25) {
  p <- sample(c(2, 3, 5, 7, 31, 61), 1)
  genes <- sample(1:8, 1)
  points <- unique(matrix(sample(0:(p - 1), 12 * genes, TRUE), 12))
  empty <- any_sheet(p, genes)
  s <- draw_up(empty, points)
  one <- Reduce(function(a, k) add_state(a, points[k, ] - sample(c(0, p), 1) * (points[k, ] > 0)), seq_len(nrow(points)), empty)
  values <- sample(0:(p - 1), nrow(points), TRUE)
  expect(all(outer(basis(s), seq_len(nrow(points)), Vectorize(function(b, k) value(s, b, points[k, ]))) == 0), "a basis")
  expect(identical(one$raw, s$raw) && check_sheet(s), "adding one by one")
  expect(all(vapply(seq_along(values), function(k) value(s, interpolate(s, values), points[k, ]), 0) == values), "an interpolant")
}

# Packed: modulo 2 the same bytes, under every order, with replicates; any other modulus is refused, and nothing by itself.
for (i in 1:40) {
  genes <- sample(1:8, 1)
  points <- matrix(sample(-1:1, 30 * genes, TRUE), 30)
  empty <- any_sheet(2, genes)
  expect(identical(draw_up(empty, points, packed = TRUE)$raw, draw_up(empty, points)$raw), "a packed sheet")
}
square <- draw_up(sheet(2, 1, "lex"), matrix(0:1, 2), packed = TRUE)
expect(identical(basis(square), "g1^2 + g1") && check_sheet(square), "the square of a gene")
expect(identical(unlist(states(draw_up(sheet(2, c("a", "b")), data.frame(b = 1, a = 0), packed = TRUE))), c(a = 0L, b = 1L)), "names, packed")
other <- tryCatch(draw_up(three, matrix(0, 2, 3), packed = TRUE), misqafur_refusal = function(e) e)
said <- "not 2 where a sheet is drawn up packed. This sheet is modulo 5: draw it up without `packed`"
expect(other$number == 3 && grepl(said, conditionMessage(other), fixed = TRUE), "packed modulo 5")
bits <- function(numbers) outer(numbers, 0:7, function(a, k) a %/% 2^k %% 2)
for (try in list(list(8, bits(0:64)), list(0, bits(0:63)), list(13, matrix(0, 256, 8)), list(9, matrix(2, 1, 8)), list(7, matrix(0, 1, 7))))
  expect(refusal(draw_up(sheet(2, 8), try[[2]], packed = TRUE)) == try[[1]], paste("packed, refused with", try[[1]]))

if (requireNamespace("mpoly", quietly = TRUE)) {
  read <- suppressMessages(mpoly::mp(basis(three)))
  expect(length(read) == 3 && read[[1]] == mpoly::mp("g2^2 + g2 + 4 g1"), "mpoly reads the basis")
} else cat("r: not tried, mpoly is not installed\n")

# The cell cycle's data set against the copy of the published network that BoolNet carries.
if (requireNamespace("BoolNet", quietly = TRUE)) {
  data(cellcycle, package = "BoolNet")
  table <- read.csv(file.path(root, "examples/cellcycle/states.csv"))
  for (i in seq_len(nrow(table))) {
    state <- setNames(rep(0, 10), cellcycle$genes)
    state[c("CycD", names(table)[1:6])] <- c(1, unlist(table[i, 1:6]))
    after <- BoolNet::stateTransition(cellcycle, state)
    expect(all(after[sub("next[.]", "", names(table)[-(1:6)])] == table[i, -(1:6)]), paste("state", i, "of the cell cycle"))
  }
} else cat("r: not tried, BoolNet is not installed\n")
cat(sprintf("r: %d passed, %d failed\n", passed, failed))
quit(status = as.integer(failed > 0 || passed == 0))
