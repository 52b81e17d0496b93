# Orders by weight: weights by place or by the genes' names, what is wrong with them in words, texts; with equal ones grlex. Read
# by test.R, which counts.
said <- function(call) tryCatch({ call; "" }, error = conditionMessage)
genes <- c("Rb", "E2F")
states <- data.frame(Rb = c(0, 1, 2), E2F = c(0, 2, 1))
due <- draw_up(sheet(5, genes, weights = c(1, 2)), states)
expect(due$order == "weight" && identical(due$weights, c(Rb = 1L, E2F = 2L)) && check_sheet(due), "a sheet by weight")
expect(identical(basis(due), c("Rb^2 + Rb + 4*E2F", "Rb*E2F + Rb + E2F", "E2F^2 + 4*Rb + E2F")), "a basis by weight")
expect(capture.output(print(due))[1] == "sheet of 3 states of Rb, E2F modulo 5, by weight (Rb 1, E2F 2)", "a sheet by weight, printed")
for (weights in list(c(E2F = 2, Rb = 1), list(E2F = 2, Rb = 1), data.frame(E2F = 2, Rb = 1), matrix(c(1, 2), 1), 1:2))
  expect(identical(draw_up(sheet(5, genes, weights = weights), states), due), paste("weights as a", class(weights)[1]))
for (order in list("weight", 3)) expect(identical(draw_up(sheet(5, genes, order, c(1, 2)), states), due), "an order beside weights")
expect(identical(sheet(5, genes, "grlex", numeric(0)), sheet(5, genes, "grlex")) && sheet(5, genes)$order == "grevlex", "no weights")

# All monomials of a whole grid, increasing: by the weights 1 and 2, 1 < x < y < x^2 < xy < x^3 < y^2.
grid <- draw_up(sheet(5, 2, weights = 1:2), as.matrix(expand.grid(g1 = 0:4, g2 = 0:4)))
expect(identical(unname(standard(grid)[1:7, ]), cbind(c(0L, 1L, 0L, 2L, 1L, 3L, 0L), c(0L, 0L, 1L, 0L, 1L, 0L, 2L))), "monomials by weight")
for (weight in c(1, 7, 99)) {
  points <- matrix(sample(0:6, 60, TRUE), 20)
  equal <- draw_up(sheet(7, 3, weights = rep(weight, 3)), points)
  plain <- draw_up(sheet(7, 3, "grlex"), points)
  expect(identical(basis(equal), basis(plain)) && identical(standard(equal), standard(plain)), "equal weights")
}

# What is wrong is said, by refusal 15 or by an error; nothing is put right in silence.
wrong <- list(list(c(0, 2), "and not so for Rb"), list(c(1, 100), "and not so for E2F"), list(c(E2F = -1, Rb = 300), "not so for Rb, E2F"),
              list(c(1.5, 2), "not so for Rb"), list(c(257, -255), "not so for Rb, E2F"), list(c(NA, 2), "not so for Rb"), list(c(1, 2, 0), "each gene, 2, and 3 were given"), list(1, "and 1 were given"),
              list(1:9, "and 9 were given"), list(numeric(0), "and 0 were given"))
for (try in wrong) {
  expect(refusal(sheet(5, genes, weights = try[[1]])) == 15, paste("weights", deparse(try[[1]])))
  expect(grepl(try[[2]], said(sheet(5, genes, weights = try[[1]])), fixed = TRUE), paste(try[[2]], "is not said"))
}
expect(refusal(sheet(5, genes, "weight")) == 15 && refusal(sheet(5, genes, 4)) == 5 && refusal(sheet(4, genes, weights = c(0, 0))) == 3, "settings")
for (try in list(list(c(Rb = 1, E2f = 2), "missing \"E2F\", unexpected \"E2f\""), list(c(Rb = 1), "missing \"E2F\", unexpected none"),
                 list(c(Rb = 1, 2), "which weight is whose"), list(c("1", "2"), "weights are whole numbers"), list(states, "this table has 3 rows"))) {
  text <- said(sheet(5, genes, weights = try[[1]]))
  expect(grepl(try[[2]], text, fixed = TRUE) && !grepl("^refused", text), paste(try[[2]], "is not said:", text))
}
for (order in list("lex", "grevlex", 1, 4, "Weight"))
  expect(grepl("weights belong to the order \"weight\", and the order given is", said(sheet(5, genes, order, c(1, 2))), fixed = TRUE), "another order")

# Texts.
file <- tempfile()
cat("Rb,E2F,mod 5 weight 1 2\n0,0,1\n1,2,0\n2,1,3\n", file = file)
expect(identical(read_sheet(file), list(sheet = draw_up(sheet(5L, genes, weights = c(1, 2)), states), values = c(1L, 0L, 3L))), "a text by weight")
for (try in list(list("weight 0 2", 15), list("weight 1", 2), list("weight 1 2 3", 2), list("weight 1 100", 2), list("weight", 2))) {
  cat("Rb,E2F,mod 5 ", try[[1]], "\n", sep = "", file = file)
  caught <- tryCatch(read_sheet(file), misqafur_refusal = function(e) e)
  expect(caught$number == try[[2]] && caught$record == 1, paste("a text with", try[[1]]))
}
