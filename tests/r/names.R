# States that come with names go by their names, and names that cannot tell are an error; a sheet is a value; what is said of
# values for replicates; the library's version. Read by test.R, which counts.
said <- function(call) tryCatch({ call; "" }, error = conditionMessage)
# Whether a call is an error, and no refusal, that says these things.
expect_error <- function(call, ...) {
  text <- said(call)
  for (words in c(...)) expect(grepl(words, text, fixed = TRUE) && !grepl("^refused", text), paste(words, "is not said:", text))
}

genes <- c("Rb", "E2F", "p27-kip")
pots <- data.frame(Rb = c(0, 1, 2, 1, 4), E2F = c(0, 2, 1, 2, 0), `p27-kip` = c(1, 3, 4, 3, 2), check.names = FALSE)
empty <- sheet(5, genes, "grlex")
due <- draw_up(empty, unname(as.matrix(pots)))
expect(identical(unname(as.list(states(due))), list(c(0L, 1L, 2L, 4L), c(0L, 2L, 1L, 0L), c(1L, 3L, 4L, 2L))), "states without names, by place")
for (order in list(1:3, c(1, 3, 2), c(2, 1, 3), c(2, 3, 1), c(3, 1, 2), 3:1)) {
  table <- pots[order]
  kinds <- list(frame = table, matrix = as.matrix(table), rows = table[5:1, ][5:1, ])
  for (kind in names(kinds)) expect(identical(draw_up(empty, kinds[[kind]]), due), paste(kind, "with columns", paste(names(table), collapse = " ")))
  one <- list(frame = function(k) table[k, ], vector = function(k) unlist(table[k, ]), list = function(k) as.list(table[k, ]),
              matrix = function(k) as.matrix(table)[k, , drop = FALSE], row = function(k) as.matrix(table)[k, ])
  for (kind in names(one)) {
    added <- Reduce(function(s, k) add_state(s, one[[kind]](k)), 1:5, empty)
    expect(identical(added, due), paste("added by", kind, "with names", paste(names(table), collapse = " ")))
    left <- withdraw_state(withdraw_state(added, one[[kind]](3)), one[[kind]](1))
    expect(identical(unname(as.matrix(states(left))), rbind(c(1L, 2L, 3L), c(4L, 0L, 2L))), paste("withdrawn by", kind))
  }
}

# Names that are not the genes, or cannot tell.
other <- setNames(pots, c("Rb", "e2f", "p27-kip"))
both <- c("missing \"E2F\", unexpected \"e2f\"", "the genes are \"Rb\", \"E2F\", \"p27-kip\"", "handed over were \"Rb\", \"e2f\", \"p27-kip\"")
expect_error(draw_up(due, other), both)
expect_error(draw_up(due, as.matrix(other)), both)
expect_error(add_state(due, other[1, ]), both)
expect_error(add_state(due, unlist(other[1, ])), both)
expect_error(withdraw_state(due, unlist(other[1, ])), both)
expect_error(draw_up(due, other[0, ]), both)
expect_error(draw_up(due, cbind(pots, target = 1)), "missing none, unexpected \"target\"")
expect_error(draw_up(due, pots[1:2]), "missing \"p27-kip\", unexpected none")
expect_error(draw_up(sheet(5, 3), pots), "missing \"g1\", \"g2\", \"g3\", unexpected \"Rb\", \"E2F\", \"p27-kip\"",
             "Make the sheet with these names")
expect_error(draw_up(due, as.data.frame(unname(as.matrix(pots)))), "unexpected \"V1\", \"V2\", \"V3\"")
expect_error(draw_up(due, setNames(pots, c("Rb", "E2F", "Rb"))), "\"Rb\" stands more than once in \"Rb\", \"E2F\", \"Rb\"")
expect_error(add_state(sheet(5, c("a", "a")), c(a = 1, b = 2)), "\"a\" stands more than once in \"a\", \"a\"")
expect_error(add_state(due, c(Rb = 1, E2F = 2, 3)), "one is missing in \"Rb\", \"E2F\", \"\"")
expect_error(draw_up(due, c(Rb = 1, E2F = 2, `p27-kip` = 3)), "is no table of states")
expect_error(draw_up(due, as.list(pots)), "is no table of states")
expect_error(add_state(due, pots[1:2, ]), "one row of levels is wanted, and this table has 2 rows")
expect(identical(draw_up(sheet(5, 3, "grlex"), setNames(pots[3:1], c("g3", "g2", "g1")))$raw, due$raw), "g1, g2 and g3 are names")
expect(nrow(states(add_state(sheet(5, c("a", "a")), c(1, 2)))) == 1, "a state without names in genes of one name")

# A sheet is a value: whatever is done with it, taken or refused, its bytes stay, and those of its copies.
copy <- due
bytes <- as.integer(due$raw)
grown <- add_state(copy, c(3, 3, 3))
for (call in expression(add_state(due, c(1, 2, 3)), withdraw_state(due, c(0, 0, 1)), withdraw_state(due, c(3, 3, 3)), draw_up(due, pots[1, ]),
                        draw_up(due, pots + 4), interpolate(due, c(1, 0, 3, 2)), wiring(due, 1:9), remainder(due, "1"), check_sheet(due), basis(due))) {
  try(eval(call), silent = TRUE)
  expect(identical(as.integer(due$raw), bytes) && identical(copy, due), paste("the sheet after", deparse(call)))
}
expect(nrow(states(grown)) == 5 && nrow(states(copy)) == 4 && check_sheet(grown), "a copy that grew")
file <- tempfile()
saveRDS(due, file)
expect(identical(readRDS(file), due) && check_sheet(readRDS(file)), "a sheet that was stored")

# One value for each different state, and how to get them: the advice is run as it stands.
pots$CycA <- c(1, 0, 3, 0, 1)
for (call in list(interpolate, wiring)) {
  text <- said(call(due, pots$CycA))
  expect(refusal(call(due, pots$CycA)) == 7, "a value for each pot")
  for (words in c("One value is wanted for each different state, 4 in the order of states(sheet), and 5 were given, one for each pot",
                  "(5 pots, counts(sheet)"))
    expect(grepl(words, text, fixed = TRUE), paste(words, "is not said:", text))
  expect(grepl("and 3 were given: this sheet has replicates", said(call(due, 1:3)), fixed = TRUE), "another number of values")
  expect(endsWith(said(call(draw_up(due, pots[-4, genes]), 1)), "4 in the order of states(sheet), and 1 were given"), "no replicates, no advice")
}
advice <- regmatches(text, regexpr("unique\\(.*\\[\\[target\\]\\]", text))
values <- eval(parse(text = advice), list(pots = pots, sheet = due, target = "CycA"))
expect(identical(values, c(1, 0, 3, 1)) && interpolate(due, values) == interpolate(due, c(1, 0, 3, 1)), "the values that are advised")
pots$CycA[4] <- 2
expect(refusal(interpolate(due, eval(parse(text = advice), list(pots = pots, sheet = due, target = "CycA")))) == 7, "replicates that disagree")
damaged <- due
damaged$raw[100] <- as.raw(3)
expect(refusal(interpolate(damaged, 1)) == 7, "a wrong number of values for a damaged sheet")
expect_error(interpolate(due, data.frame(a = 1:2, b = 3:4)), "values are a vector, or one column")
expect(interpolate(due, data.frame(CycA = values)) == interpolate(due, values), "values in one column")

expect(library_version() == packageVersion("misqafur"), "the version of the library inside")
