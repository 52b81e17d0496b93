# Sheets as JSON: there and back for the stored texts' sheets and random ones; the text against one that is put together here; files,
# connections and bytes; names; what is refused, and in which words. Read by test.R, which counts.
said <- function(call) tryCatch({ call; "" }, error = conditionMessage)

# The text that a sheet has to have, from its tables.
list_of <- function(numbers) paste0("[", paste(numbers, collapse = ","), "]")
rows <- function(table) list_of(if (nrow(table) > 0) apply(unname(as.matrix(table)), 1, list_of))
canonical <- function(s) {
  below <- standard(s)
  coefficient <- misqafur:::taken(.Call(misqafur:::C_tables, s$raw))[[4]]
  lists <- if (ncol(coefficient) == 0) list_of(rep("[]", nrow(coefficient))) else rows(coefficient)
  paste0("{\"coefficients\":", lists, ",\"counts\":", list_of(counts(s)), ",\"leads\":", rows(leads(s)), ",\"modulus\":", s$modulus,
         ",\"order\":", match(s$order, c("lex", "grlex", "grevlex", "weight")) - 1, ",\"points\":", rows(states(s)), ",\"standard\":", rows(below),
         ",\"variables\":", length(s$genes), ",\"weights\":", list_of(s$weights), "}")
}
there_and_back <- function(s, what) {
  json <- to_json(s)
  expect(is.raw(json) && identical(rawToChar(json), canonical(s)), paste(what, "as JSON"))
  back <- from_json(json, s$genes)
  expect(identical(back$raw, s$raw) && identical(back$genes, s$genes) && back$modulus == s$modulus && back$order == s$order &&
    identical(back$weights, s$weights), paste(what, "read back"))
  expect(identical(to_json(back), json), paste(what, "written again"))
}

one <- add_state(sheet(2, 1, "lex"), 1)
expect(rawToChar(to_json(one)) == paste0("{\"coefficients\":[[1]],\"counts\":[1],\"leads\":[[1]],\"modulus\":2,\"order\":0,\"points\":[[1]],",
  "\"standard\":[[0]],\"variables\":1,\"weights\":[]}"), "the text of one state")
there_and_back(one, "one state")
there_and_back(sheet(5, 2, "grlex"), "no state")
there_and_back(sheet(61, c("a", "b"), weights = c(99, 1)), "no state by weight")
for (file in Sys.glob(file.path(root, c("examples/*.csv", "examples/*/*.csv")))) {
  read <- tryCatch(read_sheet(file)$sheet, misqafur_refusal = function(e) NULL)
  if (!is.null(read)) there_and_back(read, basename(file))
}
set.seed(112)
for (i in 1:40) {
  p <- sample(c(2, 3, 5, 7, 61), 1)
  m <- sample(8, 1)
  empty <- if (i %% 4 == 0) sheet(p, m, weights = sample(99, m)) else sheet(p, m, c("lex", "grlex", "grevlex")[i %% 4])
  there_and_back(draw_up(empty, matrix(sample(0:(p - 1), sample(0:20, 1) * m, TRUE), ncol = m)), "a random sheet")
}

# A file holds these bytes, and no line break.
three <- read_sheet(file.path(root, "examples/three.csv"))$sheet
place <- tempfile(fileext = ".json")
writeBin(to_json(three), place)
expect(file.size(place) == length(to_json(three)) && identical(from_json(place)$raw, three$raw), "a file")
connection <- file(place, "rb")
expect(identical(from_json(connection)$raw, three$raw), "a connection")
close(connection)
writeLines(rawToChar(to_json(three)), place)
expect(refusal(from_json(place)) == 19, "a line break at the end")
unlink(place)

# The same states in another sequence are another text; all but the states is the same.
pots <- cbind(c(0, 1, 2), c(0, 2, 1))
turned <- draw_up(sheet(5, 2, "grlex"), pots[3:1, ])
expect(!identical(to_json(turned), to_json(draw_up(sheet(5, 2, "grlex"), pots))) && identical(basis(turned), basis(three)), "states in another sequence")

# Names are not in it: handed over, or g1, g2 and so on.
named <- draw_up(sheet(5, c("Rb", "E2F"), "grlex"), pots)
expect(identical(to_json(named), to_json(draw_up(sheet(5, 2, "grlex"), pots))) && identical(from_json(to_json(named))$genes, c("g1", "g2")), "no names")
expect(identical(basis(from_json(to_json(named), c("Rb", "E2F"))), basis(named)), "names")
expect(said(from_json(to_json(named), "Rb")) == "the sheet has 2 genes, and the names given are 1: \"Rb\"", "too few names")
expect(said(from_json(to_json(named), 2)) == "genes are wanted by their names", "a number of genes")

# Refused: the number, without a record, in which words; and the sheet that is none.
text <- rawToChar(to_json(three))
instead <- function(old, new) refusal(from_json(charToRaw(sub(old, new, text, fixed = TRUE))))
expect(said(from_json(charToRaw("{}"))) == "refused with 19: the text is not of the form in which a sheet is written as JSON, byte for byte", "19 in words")
expect(all(c(instead("{", " {"), instead(":5,", ": 5,"), instead(":5,", ":05,"), instead("[1,1,1]", "[1,1]")) == 19), "other texts")
expect(all(c(instead(":5,", ":4,"), instead("\"order\":1", "\"order\":4"), instead("[1,1,1]", "[1,0,1]"), instead("[1,1,1]", "[1,9,1]")) == c(3, 5, 10, 0)),
       "numbers that are no sheet")
expect(refusal(from_json(raw(0))) == 19 && refusal(from_json(as.raw(rep(32, 131072)))) == 19 && refusal(from_json(as.raw(rep(32, 131073)))) == 1, "lengths")
broken <- three
broken$raw[200] <- as.raw(255)
expect(refusal(to_json(broken)) == 10, "a sheet that is none")
expect(grepl("not a data frame", said(from_json(data.frame(a = 1))), fixed = TRUE), "a data frame")
