# Time courses run forward: the points, the model and the run from the records; texts and data frames; names; what is refused, at which
# record and in which words; printed and drawn. Read by test.R, which counts.
said <- function(call) tryCatch({ call; "" }, error = conditionMessage)
refused <- function(call) tryCatch({ call; c(0, 0) }, misqafur_refusal = function(e) c(e$number, if (is.null(e$record)) 0 else e$record))
text <- function(...) charToRaw(paste0(c(...), "\n", collapse = ""))
example <- file.path(root, "examples/course.csv")

three <- course(example, 3)
expect(is.na(three$unmeasured) && three$step == 7 && three$back == 3 && three$measured == 5 && identical(three$courses, c(3L, 5L)), "the example's run")
expect(identical(three$model[["AP1"]], "LFY") && identical(names(three$model), c("FT", "LFY", "AP1")), "the example's model")
expect(identical(unname(as.matrix(three$cycle)), rbind(c(2L, 2L, 1L), c(1L, 2L, 2L), c(2L, 1L, 2L))), "the example's cycle")
expect(identical(three$trajectory$FT, c(0L, 1L, 2L, 2L, 2L, 1L, 2L, 2L)) && identical(row.names(three$trajectory), as.character(0:7)), "the example's states")
expect(identical(course(read.csv(example, check.names = FALSE), 3), three), "a data frame")
expect(identical(course(readBin(example, "raw", 1e4), 3), three), "a text as bytes")
expect(identical(read_sheet(read.csv(file.path(root, "examples/three.csv"), check.names = FALSE)), read_sheet(file.path(root, "examples/three.csv"))),
       "a data frame for a sheet")
expect(check_sheet(three$sheet) && nrow(states(add_state(three$sheet, c(AP1 = 2, FT = 0, LFY = 0)))) == 8, "the sheet of the points")
printed <- capture.output(print(three))
expect(printed[1] == "course 3 of FT, LFY, AP1 modulo 3, run forward: it repeats every 3 steps from step 4" && printed[4] == "  next AP1 = LFY" &&
  printed[5] == "The course has 5 records, from step 0 on; the run is" && printed[6] == "  FT LFY AP1", "the example, printed")

# Records that come by one rule for each state, in several courses: the sheet is that of the points with their counts, the model gives
# every next record, and the run ends where a state comes again.
set.seed(111)
for (i in 1:25) {
  p <- sample(c(2, 3, 5, 61), 1)
  m <- sample(1:4, 1)
  rule <- list()
  records <- NULL
  for (number in sample(99, sample(3, 1))) {
    state <- sample(0:(p - 1), m, TRUE)
    for (k in seq_len(sample(c(1, 3, 9), 1))) {
      records <- rbind(records, c(state - p * (state > 0) * sample(0:1, m, TRUE), number))
      key <- paste(state, collapse = " ")
      if (is.null(rule[[key]])) rule[[key]] <- sample(0:(p - 1), m, TRUE)
      state <- rule[[key]]
    }
  }
  last <- c(records[-1, m + 1] != records[-nrow(records), m + 1], TRUE)
  order <- if (sample(3, 1) == 1) paste(c("weight", sample(99, m)), collapse = " ") else sample(c("lex", "grlex", "grevlex"), 1)
  number <- sample(c(records[, m + 1], records[1, m + 1]), 1)
  run <- course(text(paste(c(paste0("g", 1:m), paste("mod", p, order)), collapse = ","), apply(records, 1, paste, collapse = ",")), number)
  points <- records[!last, 1:m, drop = FALSE] %% p
  due <- draw_up(run$sheet, points)
  expect(identical(run$sheet$raw, due$raw), "the sheet of the points")
  after <- records[which(!last) + 1, 1:m, drop = FALSE] %% p
  first <- !duplicated(points)
  expect(identical(unname(run$model), vapply(1:m, function(g) interpolate(due, after[first, g]), "")), "the model")
  met <- apply(run$trajectory, 1, paste, collapse = " ")
  named <- apply(records[records[, m + 1] == number, 1:m, drop = FALSE] %% p, 1, paste, collapse = " ")
  both <- seq_len(min(length(met), length(named)))
  expect(identical(unname(met[both]), named[both]), "the records")
  came <- if (run$step > 0) met[run$step + 1] == met[run$step + 1 - run$back] && !anyDuplicated(met[seq_len(run$step)]) else !anyDuplicated(met)
  expect(came && length(met) == (if (run$step > 0) run$step else 256) + 1 && nrow(run$cycle) == run$back, "the state that comes again")
}

# No moves, and a run that does not come back: a shift of two levels modulo 17 whose period is 288.
zero <- course(text("a,b,mod 5", "1,0,1", "0,0,2"), 1)
expect(zero$step == 2 && zero$back == 1 && nrow(states(zero$sheet)) == 0 && identical(unname(zero$model), c("0", "0")), "no moves")
long <- course(text("a,b,mod 17", "0,1,4", "1,1,4", "1,8,4", "8,15,4"), 4)
expect(long$step == 0 && long$back == 0 && nrow(long$trajectory) == 257 && nrow(long$cycle) == 0, "no state within 256 steps")
expect(zero$unmeasured == 0 && long$unmeasured == 3, "where the model goes on by itself")
expect(grepl("step 3 was not measured in any course: from step 4 on", capture.output(print(long))[5], fixed = TRUE), "where it goes on, printed")
expect(grepl("run forward: no state came again within 256 steps", capture.output(print(long))[1], fixed = TRUE), "no state, printed")

# Names stay as they are, also where two are the same.
odd <- course(text("\"a,\"\"b\",,\"c\nd\",mod 5", "0,1,2,1", "1,1,2,1"), 1)
expect(identical(names(odd$trajectory), c("a,\"b", "", "c\nd")) && identical(odd$sheet$genes, names(odd$trajectory)), "odd names")
expect(identical(names(course(text("a,a,mod 5", "0,1,1"), 1)$model), c("a", "a")), "one name for two genes")
frame <- structure(data.frame(0:1, 1, 2, 1), names = c("a,\"b", "", "c\nd", "mod 5"))
expect(identical(course(frame, 1), odd), "odd names of a data frame")
expect(identical(course(text("a,b,mod 5 weight 2 09", "0,1,007"), 7)$sheet$weights, c(a = 2L, b = 9L)), "weights")

# Refused: the number, the record, and in which words.
expect(all(refused(course(text("a,mod 5", "1,7", "0,100"), 7)) == c(2, 3)), "a course number out of range")
expect(all(refused(course(text("a,mod 5", "1,7", "0,8", "1,7"), 7)) == c(2, 4)), "a course that comes back")
expect(all(refused(course(text("a,mod 5", "1,7", "5,7"), 7)) == c(9, 3)) && all(refused(course(text("a,mod 4", "1,7"), 7)) == c(3, 1)), "levels and modulus")
expect(all(refused(course(text("a,mod 5", rep("0,1", 257)), 1)) == c(13, 257)), "256 replicates")
expect(refused(course(data.frame(a = c(0, 0.5), "mod 5" = 1, check.names = FALSE), 1))[1] == 2, "a level that is none")
two <- text("a,\"mod 5\",mod 5", "1,0,1", "2,0,1", "-4,0,2", "2,1,2")
expect(all(refused(course(two, 1)) == c(17, 4)), "two successors")
expect(endsWith(said(course(two, 1)), "Record 4 has the state of record 2 (a 1, mod 5 0), which is followed by a 2, mod 5 0 there, and here by a 2, mod 5 1"),
       "two successors are not said")
last <- text("a,mod 5", "1,1", "1,2", "2,2", "1,3", "3,3")
expect(all(refused(course(last, 1)) == c(17, 5)) && grepl("has the state of record 3 (a 1)", said(course(last, 1)), fixed = TRUE), "a state that ends a course")
for (number in c(4, 0, -1, 3.5, 100, 259, 1e20)) {
  expect(all(refused(course(example, number)) == c(18, 0)), paste("course", number))
  due <- paste0("refused with 18: the time course to be run is not in the text. The text has the courses 3, 5, and ", format(number), " was to be run")
  expect(said(course(example, number)) == due, paste("course", number, "is not said"))
}
expect(endsWith(said(course(text("a,mod 5"), 1)), "The text has no course, and 1 was to be run"), "a header alone")
for (number in list("3", NA, NULL, c(3, 5), TRUE)) expect(said(course(example, number)) == "one course is wanted, by its number", "a number that is none")

# Drawn without a fault, into nothing.
pdf(NULL)
for (each in list(three, zero, long, odd)) expect(identical(plot(each), each), "a picture")
invisible(dev.off())
