# Time courses run forward: a text whose last column has course numbers in place of values.

most_steps <- 256

# Runs a course from its first state by a model that fits every move of the text's courses. What comes of it is a list: the sheet of
# the states that have a next one, the model (the polynomial of each gene's next level, by the genes' names), the trajectory (a row for
# each step from 0, by the genes' names), the step that gives a state met before and the distance back to it, and the cycle, the states
# that come again for ever. Where none came within 256 steps, step and back are 0 and the cycle has no rows. `measured` is how many
# records the course has, and `unmeasured` the first step whose state has no next one in any course, NA if there is none.
course <- function(data, number) {
  if (length(number) != 1 || !is.numeric(number) || is.na(number)) wrong("one course is wanted, by its number")
  bytes <- text_of(data)
  answer <- .Call(C_time_course, bytes, number)
  record <- if (answer[[1]] != 0) answer[[2]][[1]]
  parts <- taken(answer, if (!is.null(record) && record > 0) record, course_wrong(answer[[1]], record, bytes, number))
  names <- fields_of(bytes, parts[[2]])
  empty <- text_sheet(parts, names)
  points <- empty
  points$raw <- parts[[5]]
  records <- records_of(bytes, parts[[2]])
  named <- records[records[, parts[[2]] + 1] == number, seq_len(parts[[2]]), drop = FALSE]
  back <- parts[[7]][2]
  step <- parts[[7]][1]
  met <- run_of(empty, parts[[6]], standard(points), named[1, ] %% parts[[1]], if (step > 0) step else most_steps)
  trajectory <- structure(as.data.frame(met), names = names, row.names = as.character(seq_len(nrow(met)) - 1))
  model <- vapply(seq_along(names), function(g) polynomial_text(points, parts[[6]][g, ], standard(points)), "")
  structure(list(number = number, sheet = points, model = structure(model, names = names), trajectory = trajectory, step = step, back = back,
                 cycle = trajectory[step - back + seq_len(back), , drop = FALSE], measured = nrow(named),
                 unmeasured = match(FALSE, rows_of(trajectory)[-nrow(met)] %in% rows_of(states(points))) - 1L,
                 courses = unique(records[, parts[[2]] + 1])), class = "misqafur_course")
}

# Each row of a table as one string.
rows_of <- function(table) do.call(paste, unname(as.list(table)))

# The states of a run, a row for each. The library works out every value: that of a polynomial at a state is its remainder over the
# sheet of this state alone.
run_of <- function(empty, model, exponents, first, steps) {
  powers <- as.integer(t(cbind(exponents, matrix(0L, nrow(exponents), 8 - ncol(exponents)))))
  met <- matrix(as.integer(first), steps + 1, length(first), byrow = TRUE)
  for (k in seq_len(steps)) {
    here <- taken(.Call(C_draw_up, empty$raw, met[k, ]))
    met[k + 1, ] <- vapply(seq_len(nrow(model)), function(g) taken(.Call(C_remainder, here, model[g, ], powers)), 0L)
  }
  met
}

# The records of a text that is well formed, a row of levels and a course number for each.
records_of <- function(bytes, genes) {
  fields <- fields_of(bytes)[-seq_len(genes + 1)]
  matrix(as.integer(fields), ncol = genes + 1, byrow = TRUE)
}

# What more there is to say of a text of courses that is refused.
course_wrong <- function(refusal, record, bytes, number) {
  if (!refusal %in% c(17, 18)) return(NULL)
  header <- header_of(bytes)
  genes <- length(header) - 1
  records <- records_of(bytes, genes)
  if (refusal == 17) return(move_wrong(header[seq_len(genes)], records, as.integer(strsplit(header[genes + 1], " ")[[1]][2]), record - 1))
  found <- unique(records[, genes + 1])
  paste0("The text has ", if (length(found) > 0) paste(if (length(found) > 1) "the courses" else "the course", paste(found, collapse = ", ")) else "no course",
         ", and ", format(number), " was to be run")
}

# The earlier record of the same state that is followed by another.
move_wrong <- function(genes, records, modulus, at) {
  levels <- records[, seq_along(genes), drop = FALSE] %% modulus
  number <- records[, length(genes) + 1]
  same <- function(i, j) all(levels[i, ] == levels[j, ])
  moves <- Filter(function(i) number[i] == number[i + 1] && same(i, at) && !same(i + 1, at + 1), seq_len(at - 1))
  said <- function(i) paste(genes, levels[i, ], collapse = ", ")
  sprintf("Record %d has the state of record %d (%s), which is followed by %s there, and here by %s", as.integer(at + 1), moves[1] + 1L, said(at),
          said(moves[1] + 1), said(at + 1))
}

# How a run ends, in plain words.
ending <- function(course) {
  start <- course$step - course$back
  if (course$step == 0) return(paste("no state came again within", most_steps, "steps"))
  if (course$back == 1) paste("it stays as it is from step", start) else sprintf("it repeats every %d steps from step %d", course$back, start)
}

print.misqafur_course <- function(x, ...) {
  cat(sprintf("course %d of %s modulo %d, run forward: %s\n", as.integer(x$number), paste(x$sheet$genes, collapse = ", "), as.integer(x$sheet$modulus),
              ending(x)))
  cat(paste0("  next ", names(x$model), " = ", x$model, "\n"), sep = "")
  cat(sprintf("The course has %d %s, from step 0 on; the run is\n", x$measured, if (x$measured == 1) "record" else "records"))
  if (!is.na(x$unmeasured))
    cat(sprintf("(what comes after the state of step %d was not measured in any course: from step %d on it is the model's, and another model\n",
                x$unmeasured, x$unmeasured + 1L), "that fits the records may go elsewhere)\n", sep = "")
  print(x$trajectory)
  invisible(x)
}

# The levels over time: a row for each gene, a column for each step, a dot below what was measured, a frame around what comes again.
plot.misqafur_course <- function(x, ...) {
  genes <- length(x$trajectory)
  steps <- nrow(x$trajectory)
  shades <- grDevices::colorRampPalette(c("#f3f7fb", "#1f4e79"))(x$sheet$modulus)
  before <- graphics::par(mar = c(5, 2 + 0.6 * max(nchar(names(x$trajectory)), 3), 4, 1))
  on.exit(graphics::par(before))
  graphics::plot.new()
  graphics::plot.window(c(-0.5, steps - 0.5), c(-0.5, genes + 0.5))
  for (g in seq_len(genes)) {
    level <- x$trajectory[[g]]
    at <- seq_len(steps) - 1
    graphics::rect(at - 0.5, genes - g, at + 0.5, genes - g + 1, col = shades[level + 1], border = "white")
    graphics::text(at, genes - g + 0.5, level, cex = min(1, 25 / steps), col = ifelse(level / (x$sheet$modulus - 1) > 0.55, "white", "#222222"))
  }
  if (x$step > 0) graphics::rect(x$step - x$back - 0.5, 0, x$step - 0.5, genes, border = "#d35400", lwd = 3)
  graphics::points(seq_len(min(x$measured, steps)) - 1, rep(-0.25, min(x$measured, steps)), pch = 19, col = "#2e7d32")
  graphics::axis(1, at = seq_len(steps) - 1)
  graphics::axis(2, at = genes - seq_len(genes) + 0.5, labels = names(x$trajectory), las = 1, tick = FALSE)
  graphics::title(main = paste0("Course ", x$number, ", run forward:\n", ending(x)), font.main = 1,
                  xlab = paste0("time step (dot: measured in this course", if (x$step > 0) "; frame: comes again for ever", ")"))
  invisible(x)
}
