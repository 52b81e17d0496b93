\name{to_json}
\alias{to_json}
\alias{from_json}
\title{Sheets as canonical JSON, to be archived and compared}
\description{A sheet as the one text that it has as JSON (RFC 8785), and the sheet of such a text.}
\usage{
to_json(sheet)
from_json(data, genes = NULL)
}
\arguments{
  \item{sheet}{a sheet}
  \item{data}{what \code{to_json} answers, byte for byte: raw bytes, a file or a connection. A string is a file's name}
  \item{genes}{the genes' names, which are not in the text; without them they are called g1, g2 and so on. As many are wanted as the sheet
  has genes}
}
\value{\code{to_json} answers raw bytes, which \code{writeBin} puts into a file as they are; \code{rawToChar} makes a string of them. There is
no line break at the end, and with one it is another text: \code{writeLines} would add it.
Two sheets have equal texts only where they are equal, their settings, states in the same order and counts too, so that files can be compared
byte for byte. The text is of the algebra: the genes' names and the values of a target gene are not in it.
\code{from_json} answers the sheet of a text that \code{to_json} has written, and of no other: any other text is refused with 19, also one
that says the same in other words, and one of that form whose numbers are no sheet with 3, 4, 5, 15, 8 or 10.}
\examples{
s <- draw_up(sheet(5, c("Rb", "E2F"), "grlex"), data.frame(Rb = c(0, 1, 2), E2F = c(0, 2, 1)))
rawToChar(to_json(s))
basis(from_json(to_json(s), c("Rb", "E2F")))
}
