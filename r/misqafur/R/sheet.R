# Sheets of gene states. A sheet is a value: what changes one answers another, and a call that is refused changes nothing.

orders <- c("lex", "grlex", "grevlex", "weight")

# Raises a refusal as a condition of class misqafur_refusal, with its number and record; else what was answered.
taken <- function(answer, record = NULL, more = NULL) {
  number <- answer[[1]]
  if (number == 0) return(answer[[2]])
  where <- if (is.null(record)) "" else paste(" at record", record)
  text <- paste0("refused with ", number, where, ": ", .Call(C_refusal_text, number), if (!is.null(more)) paste0(". ", more))
  stop(structure(class = c("misqafur_refusal", "error", "condition"),
                 list(message = text, call = NULL, number = number, record = record)))
}

# Whole numbers as integers; any that is none, or too large, becomes NA, which the library refuses.
whole <- function(numbers) {
  if (!is.numeric(numbers) && !is.logical(numbers)) stop("levels, values and weights are whole numbers")
  plain <- as.vector(numbers)
  plain[is.na(plain) | plain != trunc(plain) | abs(plain) > 1000] <- NA
  as.integer(plain)
}

# A sheet without states. `genes` is their number, and then they are called g1, g2 and so on, or their names. `weights` are one
# for each gene, 1 to 99, by the genes' names where they have any, and make the order that by weight.
sheet <- function(modulus, genes, order = if (is.null(weights)) "grevlex" else "weight", weights = NULL) {
  names <- if (is.character(genes)) genes else if (genes %in% 1:8) paste0("g", seq_len(genes)) else character(0)
  number <- if (is.character(order)) match(order, orders, nomatch = length(orders) + 1) - 1 else order
  if (length(weights) > 0 && !identical(orders[number + 1], "weight"))
    wrong("weights belong to the order \"weight\", and the order given is ", encodeString(order, quote = if (is.character(order)) "\"" else ""),
          ": leave one of the two out")
  numbers <- weights_of(weights, names)
  answer <- .Call(C_init, modulus, length(names), number, numbers)
  raw <- taken(answer, more = if (answer[[1]] == 15) weights_wanted(names, numbers))
  named <- if (length(numbers) > 0) structure(numbers, names = names) else numbers
  structure(list(raw = raw, genes = names, modulus = modulus, order = orders[number + 1], weights = named), class = "misqafur_sheet")
}

# What is wrong with weights, in words.
weights_wanted <- function(genes, weights) {
  if (length(weights) != length(genes))
    return(sprintf("One weight is wanted for each gene, %d, and %d were given", length(genes), length(weights)))
  outside <- is.na(weights) | weights < 1 | weights > 99
  paste0("Weights are whole numbers from 1 to 99, and not so for ", paste(genes[outside], collapse = ", "))
}

# A state as levels: a vector, or one row of a data frame, by the genes' names where it has any. One that is there already is a
# replicate, and counted.
add_state <- function(sheet, state) {
  sheet$raw <- taken(.Call(C_add, sheet$raw, levels_of(sheet, one_row(state))))
  sheet
}

withdraw_state <- function(sheet, state) {
  sheet$raw <- taken(.Call(C_withdraw, sheet$raw, levels_of(sheet, one_row(state))))
  sheet
}

# All states at once, in place of those that the sheet has: a data frame or a matrix with a row for each, its columns by the
# genes' names where it has any. Rows may repeat. Packed, for the modulus 2 alone, the library makes the same sheet sooner.
draw_up <- function(sheet, states, packed = FALSE) {
  if (packed && sheet$modulus != 2) taken(list(3L), more = paste0("This sheet is modulo ", sheet$modulus, ": draw it up without `packed`"))
  call <- if (packed) C_draw_up_packed else C_draw_up
  sheet$raw <- taken(.Call(call, sheet$raw, levels_of(sheet, states)))
  sheet
}

# The sheet of the states without a gene's level, named or by its number: states that become equal are one, at the place of the
# first, and their counts are added. The genes and weights that are left keep their order.
without <- function(sheet, gene) {
  number <- gene_number(sheet, gene)
  answer <- .Call(C_leave_out, sheet$raw, number)
  said <- if (is.character(gene)) quoted(gene) else format(gene)
  sheet$raw <- taken(answer, more = switch(as.character(answer[[1]]),
    "13" = paste0("Without ", said, " states become equal, and their counts add up to more"),
    "16" = paste0("It has ", quoted(sheet$genes), ", and ", said, " was to be left out")))
  sheet$genes <- sheet$genes[-number]
  sheet$weights <- sheet$weights[-number]
  sheet
}

# TRUE, or an error where the sheet is not that of its states.
check_sheet <- function(sheet) {
  taken(.Call(C_check, sheet$raw))
  TRUE
}

# What a call answers that takes a value for each different state; it says more where there are not as many.
valued <- function(call, sheet, values) {
  if (is.data.frame(values)) values <- as.matrix(values)
  if (sum(dim(values) != 1) > 1) wrong("values are a vector, or one column: one value for each different state")
  numbers <- whole(values)
  answer <- .Call(call, sheet$raw, numbers)
  taken(answer, more = if (answer[[1]] == 7) values_wanted(sheet, length(numbers)))
}

# How many values are wanted, and how to get them; nothing of a sheet that is none.
values_wanted <- function(sheet, given) {
  pots <- tryCatch(counts(sheet), misqafur_refusal = function(damaged) NULL)
  if (is.null(pots)) return(NULL)
  said <- sprintf("One value is wanted for each different state, %d in the order of states(sheet), and %d were given", length(pots), given)
  if (all(pots == 1)) return(said)
  paste0(said, if (given == sum(pots)) ", one for each pot", ": this sheet has replicates (", sum(pots), " pots, counts(sheet) says how many of each ",
         "state). Of a data frame of the pots, in the order in which they were drawn up, unique(pots[c(names(states(sheet)), target)])[[target]] ",
         "has one for each state, where levels are residues and replicates agree")
}

# The polynomial over the standard monomials that has these values at the states, one for each different state, as a string.
interpolate <- function(sheet, values) {
  polynomial_text(sheet, valued(C_interpolate, sheet, values), standard(sheet))
}

# The polynomial over the standard monomials that equals a polynomial, a string, at the states.
remainder <- function(sheet, polynomial) {
  terms <- polynomial_terms(sheet, polynomial)
  exponents <- cbind(terms$exponents, matrix(0L, nrow(terms$exponents), max(0, 8 - length(sheet$genes))))
  residues <- taken(.Call(C_remainder, sheet$raw, terms$coefficients, as.integer(t(exponents))))
  polynomial_text(sheet, residues, standard(sheet))
}

# The wiring list of these values, one for each different state: the genes' numbers, with their names.
wiring <- function(sheet, values) {
  list <- valued(C_wiring, sheet, values)
  structure(list, names = sheet$genes[list])
}

table_of <- function(sheet, place, names = sheet$genes) {
  table <- taken(.Call(C_tables, sheet$raw))[[place]]
  colnames(table) <- names
  table
}

states <- function(sheet) as.data.frame(table_of(sheet, 1), optional = TRUE)

# How often each state was taken, in their order.
counts <- function(sheet) as.vector(taken(.Call(C_tables, sheet$raw))[[5]])

# The exponents of the standard monomials and of the leading monomials, increasing in the order.
standard <- function(sheet) table_of(sheet, 2)
leads <- function(sheet) table_of(sheet, 3)

# The polynomials of the basis, as strings: each its leading monomial and a combination of standard ones.
basis <- function(sheet) {
  rows <- table_of(sheet, 4, NULL)
  heads <- leads(sheet)
  below <- standard(sheet)
  vapply(seq_len(nrow(rows)), function(i) {
    polynomial_text(sheet, c(1L, rows[i, ]), rbind(heads[i, ], below))
  }, "")
}

# A text as bytes: of a file, a connection or raw bytes; or of a data frame, whose last column is named `mod P` as a header's last
# field is. What is no whole number there is written as NA, which the library refuses with 2 at its record.
text_of <- function(data) {
  if (!is.data.frame(data)) return(readBin(data, "raw", 1e6))
  header <- paste0("\"", gsub("\"", "\"\"", enc2utf8(names(data)), fixed = TRUE), "\"", collapse = ",")
  charToRaw(paste0(c(header, do.call(paste, c(unname(lapply(data, whole)), sep = ","))), "\n", collapse = ""))
}

# A text that is well formed as a string, without a byte-order mark.
string_of <- function(bytes) sub("^\ufeff", "", enc2utf8(iconv(rawToChar(bytes[bytes != 0]), "UTF-8", "UTF-8", sub = "byte")))

# Its fields, one after another: the first of them, or all.
fields_of <- function(bytes, count = -1L) {
  scan(text = string_of(bytes), what = "", sep = ",", quote = "\"", n = count, quiet = TRUE, encoding = "UTF-8")
}

# The fields of its header. A line that ends within quotes has no count.
header_of <- function(bytes) {
  lines <- textConnection(string_of(bytes), encoding = "UTF-8")
  on.exit(close(lines))
  counts <- utils::count.fields(lines, sep = ",", quote = "\"", comment.char = "")
  fields_of(bytes, counts[!is.na(counts)][1])
}

# A sheet without states, by what the library answers of a text's header: modulus, genes, order and weights.
text_sheet <- function(parts, names) {
  order <- orders[parts[[3]] + 1]
  sheet(parts[[1]], names, order, if (order == "weight") as.vector(parts[[4]]))
}

# The sheet and the values of a text: gene names, `mod P` and an order in its header, states and values below. Records that repeat a
# state are its replicates; there is one value for each state.
read_sheet <- function(file) {
  bytes <- text_of(file)
  answer <- .Call(C_read_text, bytes)
  parts <- taken(answer, if (answer[[1]] != 0) answer[[2]][[1]])
  empty <- text_sheet(parts, fields_of(bytes, parts[[2]]))
  pots <- parts[[5]][rep(seq_len(nrow(parts[[5]])), as.vector(parts[[7]])), , drop = FALSE]
  list(sheet = draw_up(empty, pots), values = as.vector(parts[[6]]))
}

# The version of the library inside, which is the package's.
library_version <- function() {
  number <- .Call(C_version)
  package_version(paste(number %/% 10000, number %/% 100 %% 100, number %% 100, sep = "."))
}

print.misqafur_sheet <- function(x, ...) {
  order <- if (x$order == "weight") paste0("by weight (", paste(x$genes, x$weights, collapse = ", "), ")") else x$order
  cat(sprintf("sheet of %d states of %s modulo %d, %s\n", nrow(states(x)), paste(x$genes, collapse = ", "), as.integer(x$modulus), order))
  cat(paste0("  ", basis(x), "\n"), sep = "")
  invisible(x)
}
