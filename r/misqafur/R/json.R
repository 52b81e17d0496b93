# A sheet as JSON, the one text that it has (RFC 8785): raw bytes, as writeBin puts them into a file, without a line break at the end. Equal
# texts are equal sheets, states in the same order and equal counts included, so that files can be compared byte for byte. The genes' names
# and the values of a target gene are not in it.
to_json <- function(sheet) taken(.Call(C_write_json, sheet$raw))

# The sheet of such a text, and of no other: a file, a connection or raw bytes. Its genes are called g1, g2 and so on, or as `genes` says.
from_json <- function(data, genes = NULL) {
  if (is.data.frame(data)) wrong("a sheet's JSON is wanted, a file, a connection or raw bytes, and not a data frame")
  parts <- taken(.Call(C_read_json, text_of(data)))
  count <- parts[[2]]
  if (!is.null(genes) && !is.character(genes)) wrong("genes are wanted by their names")
  if (!is.null(genes) && length(genes) != count)
    wrong(sprintf("the sheet has %d genes, and the names given are %d: ", count, length(genes)), quoted(genes))
  read <- text_sheet(parts, if (is.null(genes)) paste0("g", seq_len(count)) else genes)
  read$raw <- parts[[5]]
  read
}
