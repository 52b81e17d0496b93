# A gene left out: by its name or its number, against drawing up the shortened states; what is wrong in words; the sheet stays. Read
# by test.R, which counts.
said <- function(call) tryCatch({ call; "" }, error = conditionMessage)
genes <- c("Rb", "E2F", "CycA")
pots <- data.frame(Rb = c(0, 1, 2, 1, 1), E2F = c(0, 2, 1, 0, 2), CycA = c(1, 0, 0, 1, 0))
drawn <- function(genes, pots, order, weights) draw_up(if (is.null(weights)) sheet(5, genes, order) else sheet(5, genes, weights = weights), pots)
for (order in c("lex", "grlex", "grevlex", "weight")) {
  weights <- if (order == "weight") c(CycA = 2, Rb = 3, E2F = 1)
  full <- drawn(genes, pots, order, weights)
  before <- full
  for (k in seq_along(genes)) {
    due <- drawn(genes[-k], pots[-k], order, weights[genes[-k]])
    expect(identical(without(full, genes[k]), due) && identical(without(full, k), due) && check_sheet(due), paste("without", genes[k], "in", order))
  }
  expect(identical(full, before), "a sheet from which a gene was left out")
  expect(identical(without(without(full, "Rb"), "CycA"), without(without(full, "CycA"), "Rb")), "two genes in either order")
}

# States that become equal are one, at the place of the first, with their counts added.
left <- without(draw_up(sheet(5, genes), pots), "Rb")
expect(identical(unname(as.matrix(states(left))), cbind(c(0L, 2L, 1L), c(1L, 0L, 0L))) && identical(counts(left), c(2L, 2L, 1L)), "states that become equal")
expect(identical(left$genes, c("E2F", "CycA")) && nrow(states(add_state(left, c(CycA = 4, E2F = 3)))) == 4, "the genes that are left")
expect(refusal(interpolate(left, c(1, 0, 3, 1))) == 7, "a value for each state that is left")
expect(capture.output(print(without(draw_up(sheet(5, genes, weights = 1:3), pots), 2)))[1] ==
  "sheet of 4 states of Rb, CycA modulo 5, by weight (Rb 1, CycA 3)", "weights that are left, printed")

for (i in 1:40) {
  m <- sample(2:8, 1)
  points <- matrix(sample(0:2, 20 * m, TRUE), 20)
  k <- sample(m, 1)
  expect(identical(without(draw_up(sheet(7, m), points), k)$raw, draw_up(sheet(7, m - 1), points[, -k, drop = FALSE])$raw), "random states without a gene")
}

# What is wrong is said, and no gene is guessed.
full <- draw_up(sheet(5, genes), pots)
for (gene in c("rb", "", "1", "Rb "))
  expect(said(without(full, gene)) == paste0("\"", gene, "\" is no gene of this sheet: they are \"Rb\", \"E2F\", \"CycA\""), paste("the gene", gene))
expect(said(without(sheet(5, c("a", "b", "a")), "a")) == "\"a\" stands more than once among the genes: they are \"a\", \"b\", \"a\"", "a name of two genes")
for (gene in list(c("Rb", "E2F"), character(0), NA, NULL, factor("Rb"), TRUE))
  expect(said(without(full, gene)) == "one gene is wanted, by its name or its number", paste("a gene as", class(gene)[1]))
for (gene in c(0, -1, 4, 1.5, 257, 1e20)) {
  expect(refusal(without(full, gene)) == 16, paste("gene", gene))
  expect(endsWith(said(without(full, gene)), paste0("It has \"Rb\", \"E2F\", \"CycA\", and ", format(gene), " was to be left out")), paste("gene", gene, "is not said"))
}
one <- draw_up(sheet(5, "Rb"), matrix(1:2))
expect(refusal(without(one, "Rb")) == 16 && said(without(one, "Rb")) ==
  "refused with 16: the gene to be left out is none of the sheet's, or the only one that it has. It has \"Rb\", and \"Rb\" was to be left out", "the only gene")
often <- draw_up(sheet(5, 2), rbind(matrix(c(0, 1), 200, 2, byrow = TRUE), matrix(1, 55, 2)))
expect(identical(counts(without(often, "g1")), 255L), "255 pots that become equal")
expect(refusal(without(add_state(often, c(2, 1)), "g1")) == 13, "256 pots that become equal")
expect(grepl("Without \"g1\" states become equal", said(without(add_state(often, c(2, 1)), "g1")), fixed = TRUE), "256 pots are not said")
