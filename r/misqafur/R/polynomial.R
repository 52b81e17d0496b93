# Polynomials as strings, in the form that mpoly's mp() reads: 4*g1 + g2^2.

# The genes' names where mpoly takes all of them, else x1, x2 and so on.
shown <- function(sheet) {
  names <- sheet$genes
  if (all(grepl("^[A-Za-z][A-Za-z0-9_]*$", names)) && !anyDuplicated(names)) names else paste0("x", seq_along(names))
}

polynomial_text <- function(sheet, coefficients, exponents) {
  names <- shown(sheet)
  term <- function(coefficient, powers) {
    used <- powers > 0
    factors <- paste0(names[used], ifelse(powers[used] > 1, paste0("^", powers[used]), ""))
    paste(c(if (coefficient != 1 || !any(used)) coefficient, if (any(used)) factors), collapse = "*")
  }
  kept <- which(coefficients != 0)
  if (length(kept) == 0) return("0")
  paste(vapply(kept, function(i) term(coefficients[i], exponents[i, ]), ""), collapse = " + ")
}

# The terms of a string: coefficients, and a row of exponents for each. Factors are divided by * or a blank.
polynomial_terms <- function(sheet, text) {
  names <- shown(sheet)
  text <- gsub("\\s*\\^\\s*", "^", gsub("**", "^", as.character(text), fixed = TRUE))
  parts <- regmatches(text, gregexpr("[+-]?[^+-]+", text))[[1]]
  if (length(parts) == 0 || paste(parts, collapse = "") != text) stop("this is no polynomial: ", text)
  exponents <- matrix(0L, length(parts), length(names))
  coefficients <- ifelse(grepl("^\\s*-", parts), -1L, 1L)
  for (i in seq_along(parts)) {
    factors <- strsplit(trimws(sub("^\\s*[+-]", "", parts[i])), "\\s*\\*\\s*|\\s+")[[1]]
    if (length(factors) == 0 || any(!grepl("^([0-9]+|[A-Za-z][A-Za-z0-9_]*(\\^[0-9]+)?)$", factors))) stop("this is no term: ", parts[i])
    numbers <- grepl("^[0-9]", factors)
    coefficients[i] <- as.integer((coefficients[i] * prod(as.numeric(factors[numbers]) %% sheet$modulus)) %% sheet$modulus)
    for (factor in factors[!numbers]) {
      gene <- match(sub("\\^.*", "", factor), names)
      if (is.na(gene)) stop("no gene of this sheet: ", factor)
      exponents[i, gene] <- exponents[i, gene] + if (grepl("^", factor, fixed = TRUE)) as.integer(sub(".*\\^", "", factor)) else 1L
    }
  }
  if (any(is.na(exponents)) || any(exponents > 255)) stop("exponents run from 0 to 255")
  list(coefficients = as.integer(coefficients), exponents = exponents)
}
