\name{sheet}
\alias{sheet}
\alias{add_state}
\alias{withdraw_state}
\alias{draw_up}
\alias{without}
\alias{check_sheet}
\alias{interpolate}
\alias{remainder}
\alias{wiring}
\alias{basis}
\alias{states}
\alias{counts}
\alias{standard}
\alias{leads}
\alias{read_sheet}
\alias{course}
\alias{print.misqafur_course}
\alias{plot.misqafur_course}
\alias{library_version}
\title{Model sheets of gene states modulo a small prime}
\description{The standard monomials and the reduced Groebner basis of the states of up to 8 genes, modulo a prime from 2 to 61;
interpolants, remainders and wiring lists over them; time courses run forward.}
\usage{
sheet(modulus, genes, order = if (is.null(weights)) "grevlex" else "weight",
  weights = NULL)
draw_up(sheet, states, packed = FALSE)
add_state(sheet, state)
withdraw_state(sheet, state)
without(sheet, gene)
check_sheet(sheet)
interpolate(sheet, values)
remainder(sheet, polynomial)
wiring(sheet, values)
basis(sheet)
states(sheet)
counts(sheet)
standard(sheet)
leads(sheet)
read_sheet(file)
course(data, number)
\method{plot}{misqafur_course}(x, ...)
library_version()
}
\arguments{
  \item{modulus}{a prime from 2 to 61}
  \item{genes}{their number, 1 to 8, and then they are called g1, g2 and so on; or their names}
  \item{order}{\code{"lex"}, \code{"grlex"}, \code{"grevlex"}, which it is if none is named, or \code{"weight"}, which it is with weights}
  \item{weights}{for the order by weight alone: a number from 1 to 99 for each gene, by their names where they have any, and else in the
  genes' order. The monomial with the larger sum of weight times exponent is greater, between equal sums by lex, so that a gene with a
  large weight is used last; with equal weights that is grlex}
  \item{sheet}{a sheet}
  \item{states}{a data frame or matrix, a row for each state, a column for each gene; at most 64 different states, each at most 255 times.
  Columns with names are taken by their names, in whatever order they stand; names that are not the sheet's genes are an error. Without
  names they are taken by place}
  \item{packed}{for the modulus 2 alone: the library makes the same sheet in a fraction of the time. With another modulus it is
  refused with 3}
  \item{state}{the levels of one state: a vector or a list, by its names where it has any, or one row of a data frame}
  \item{gene}{the gene to be left out, as where its probe is unreliable: its name, or its number from 1. A name that is no gene of the
  sheet is an error that lists the genes; a number that is none's, or the only gene of a sheet, is refused with 16}
  \item{values}{a value of the target gene for each different state, in the order of \code{states(sheet)}}
  \item{polynomial}{a string, as \code{"g1^2*g2 + 4"}}
  \item{file}{a text: gene names and \code{mod P}, with an order or \code{weight} and weights, in its header, then states and values. It is a
  file, a connection, raw bytes, or a data frame whose last column is named as the header's last field is}
  \item{data}{the same with a course number from 1 to 99 in place of each value: consecutive records of one number are consecutive times}
  \item{number}{the course from whose first state the model is run}
  \item{x}{what \code{course} answers}
  \item{...}{not used}
}
\value{\code{sheet}, \code{draw_up}, \code{add_state}, \code{withdraw_state} and \code{without} answer a sheet; the sheet handed in stays as it is.
Without a gene, states that become equal are one, at the place of the first, and their counts are added: there may be fewer states, and as many
values are wanted; the genes and weights that are left keep their order.
\code{basis}, \code{interpolate} and \code{remainder} answer polynomials as strings that \code{mpoly::mp} reads, with x1, x2 and so on
for genes whose names it does not take. \code{wiring} answers the genes' numbers, with their names.
A state that is added or drawn up again is a replicate: \code{counts} answers how often each state was taken, in the order of \code{states},
and the rest of the sheet is that of the different states. \code{read_sheet} answers a list of the sheet and the values.
\code{course} answers a list: the \code{sheet} of the states that have a next one; the \code{model}, the polynomial of each gene's next level, by the
genes' names; the \code{trajectory}, a row for each step from 0, by the genes' names; the \code{step} that gives a state met before and the distance
\code{back} to it, both 0 where none came within 256 steps; the \code{cycle}, the states that come again for ever; how many records of the course were
\code{measured}; the first step whose state has no next one in any course, \code{unmeasured}, NA if there is none; and the numbers of the
\code{courses}. A state that is followed by two different ones is refused with 17, a course that is not in the text with 18.
\code{library_version} answers the version of the library inside, which is the package's.
What the library refuses is an error of class \code{misqafur_refusal}, with its \code{number} and, for a text, the \code{record}.}
\examples{
s <- draw_up(sheet(5, 2, "grlex"), data.frame(g1 = c(0, 1, 2), g2 = c(0, 2, 1)))
basis(s)
interpolate(s, c(1, 0, 3))
basis(without(s, "g1"))
remainder(s, "g1^2*g2")
sheet(5, c("Rb", "E2F"), weights = c(E2F = 2, Rb = 1))
}
