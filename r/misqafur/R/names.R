# States and weights that come with names are put in the order of the sheet's genes by them; those without names go by place.

quoted <- function(names) if (length(names) == 0) "none" else paste(encodeString(names, quote = "\""), collapse = ", ")
wrong <- function(...) stop(..., call. = FALSE)

# For each gene the place of its name among those that were handed over.
order_of <- function(names, genes, what = "level") {
  if (anyNA(names) || any(names == "")) wrong("names cannot tell which ", what, " is whose: one is missing in ", quoted(names))
  for (each in list(names, genes)) {
    repeated <- unique(each[duplicated(each)])
    if (length(repeated) > 0) wrong("names cannot tell which ", what, " is whose: ", quoted(repeated), " stands more than once in ", quoted(each))
  }
  missing <- setdiff(genes, names)
  unexpected <- setdiff(names, genes)
  if (length(missing) + length(unexpected) > 0)
    wrong("the names are not the genes: missing ", quoted(missing), ", unexpected ", quoted(unexpected), " (the genes are ", quoted(genes),
          ", handed over were ", quoted(names), "). Make the sheet with these names, or hand ", what, "s over without names, in the genes' order")
  match(genes, names)
}

# The levels of a table, state after state, each in the genes' order: every state goes in through here. A vector without names
# is the states of one gene.
levels_of <- function(sheet, states) {
  if (is.null(dim(states)) && !is.null(names(states)))
    wrong("a vector or list with names is no table of states: a data frame or a matrix is wanted, a row for each state")
  table <- as.matrix(states)
  if (!is.null(colnames(table))) table <- table[, order_of(colnames(table), sheet$genes), drop = FALSE]
  if (nrow(table) > 0 && ncol(table) != length(sheet$genes)) taken(list(7L))
  whole(t(table))
}

# A state, or weights, as a table of one row: a vector, a list, or one already.
one_row <- function(state, what = "level") {
  if (is.list(state) && !is.data.frame(state)) state <- unlist(state)
  if (is.null(dim(state))) state <- matrix(state, 1, dimnames = if (!is.null(names(state))) list(NULL, names(state)))
  if (nrow(state) != 1) wrong("one row of ", what, "s is wanted, and this table has ", nrow(state), " rows")
  state
}

# A gene's number from 1, by its name, or as it is.
gene_number <- function(sheet, gene) {
  if (length(gene) != 1 || is.na(gene) || !(is.character(gene) || is.numeric(gene))) wrong("one gene is wanted, by its name or its number")
  if (is.numeric(gene)) return(gene)
  places <- which(sheet$genes == gene)
  if (length(places) != 1)
    wrong(quoted(gene), if (length(places) > 1) " stands more than once among the genes" else " is no gene of this sheet", ": they are ",
          quoted(sheet$genes))
  places
}

# Weights in the genes' order; none where there are none.
weights_of <- function(weights, genes) {
  if (length(weights) == 0) return(integer(0))
  row <- as.matrix(one_row(weights, "weight"))
  if (!is.null(colnames(row))) row <- row[, order_of(colnames(row), genes, "weight"), drop = FALSE]
  whole(row)
}
