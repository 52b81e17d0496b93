/* What R calls: the header's helpers over a sheet that R keeps as a raw vector, the bytes of a struct misqafur_sheet.
 * Each answers a list that begins with the refusal; R/sheet.R raises it. */
#include <misqafur.h>

#include <R.h>
#include <R_ext/Rdynload.h>
#include <Rinternals.h>

/* A setting from R; what is no whole number that fits becomes one that every call refuses. */
static uint64_t setting(SEXP number)
{
    const double value = asReal(number);
    return value >= 0 && value < 9e15 && value == (double)(uint64_t)value ? (uint64_t)value : UINT64_MAX;
}

static struct misqafur_sheet sheet_of(SEXP raw)
{
    struct misqafur_sheet sheet;
    if (TYPEOF(raw) != RAWSXP || XLENGTH(raw) != (R_xlen_t)sizeof sheet)
        error("this is no sheet");
    memcpy(&sheet, RAW(raw), sizeof sheet);
    return sheet;
}

/* Integers of R as levels: what is no byte, NA too, becomes one that every call refuses. */
static uint8_t *levels_of(SEXP numbers)
{
    const R_xlen_t count = XLENGTH(numbers);
    uint8_t *levels = (uint8_t *)R_alloc((size_t)count + 1, 1);
    for (R_xlen_t i = 0; i < count; i++)
        levels[i] = misqafur_level(INTEGER(numbers)[i]);
    return levels;
}

/* Integers of R as weights, none or one for each gene: what is no weight, NA too, and any other number of them, become weights
 * that every call refuses. */
static uint64_t weights_of(SEXP numbers, SEXP genes)
{
    const R_xlen_t count = XLENGTH(numbers);
    uint8_t weights[MISQAFUR_WEIGHTS_SIZE];
    if (count > MISQAFUR_WEIGHTS_SIZE || (count > 0 && count != asInteger(genes)))
        return UINT64_MAX;
    for (R_xlen_t k = 0; k < count; k++)
        weights[k] = misqafur_weight(INTEGER(numbers)[k]);
    return misqafur_pack_weights(weights, (size_t)count);
}

/* The refusal, and an answer beside it that is protected by its caller. */
static SEXP answered(uint32_t refusal, SEXP answer)
{
    SEXP both = PROTECT(allocVector(VECSXP, 2));
    SET_VECTOR_ELT(both, 0, ScalarInteger((int)refusal));
    SET_VECTOR_ELT(both, 1, answer);
    UNPROTECT(1);
    return both;
}

static SEXP raw_of(const struct misqafur_sheet *sheet)
{
    SEXP raw = allocVector(RAWSXP, (R_xlen_t)sizeof *sheet);
    memcpy(RAW(raw), sheet, sizeof *sheet);
    return raw;
}

static SEXP answered_sheet(uint32_t refusal, const struct misqafur_sheet *sheet)
{
    SEXP raw = PROTECT(raw_of(sheet)), both;
    both = answered(refusal, raw);
    UNPROTECT(1);
    return both;
}

static SEXP answered_bytes(uint32_t refusal, const uint8_t *bytes, size_t count)
{
    SEXP numbers = PROTECT(allocVector(INTSXP, refusal == 0 ? (R_xlen_t)count : 0)), both;
    for (R_xlen_t i = 0; i < XLENGTH(numbers); i++)
        INTEGER(numbers)[i] = bytes[i];
    both = answered(refusal, numbers);
    UNPROTECT(1);
    return both;
}

static SEXP init(SEXP modulus, SEXP genes, SEXP order, SEXP weights)
{
    struct misqafur_sheet sheet; /* after a refusal it holds nothing */
    const uint32_t refusal =
        misqafur_sheet_init(&sheet, setting(modulus), setting(genes), setting(order), weights_of(weights, genes));
    return refusal == 0 ? answered_sheet(refusal, &sheet) : answered(refusal, R_NilValue);
}

static SEXP add(SEXP raw, SEXP levels)
{
    struct misqafur_sheet sheet = sheet_of(raw);
    const uint32_t refusal = misqafur_sheet_add(&sheet, levels_of(levels), (size_t)XLENGTH(levels));
    return answered_sheet(refusal, &sheet);
}

static SEXP withdraw(SEXP raw, SEXP levels)
{
    struct misqafur_sheet sheet = sheet_of(raw);
    const uint32_t refusal = misqafur_sheet_withdraw(&sheet, levels_of(levels), (size_t)XLENGTH(levels));
    return answered_sheet(refusal, &sheet);
}

static SEXP draw_up(SEXP raw, SEXP levels)
{
    struct misqafur_sheet sheet = sheet_of(raw);
    const uint32_t refusal = misqafur_sheet_draw_up(&sheet, levels_of(levels), (size_t)XLENGTH(levels));
    return answered_sheet(refusal, &sheet);
}

static SEXP draw_up_packed(SEXP raw, SEXP levels)
{
    struct misqafur_sheet sheet = sheet_of(raw);
    const uint32_t refusal = misqafur_sheet_draw_up_packed(&sheet, levels_of(levels), (size_t)XLENGTH(levels));
    return answered_sheet(refusal, &sheet);
}

static SEXP leave_out(SEXP raw, SEXP variable)
{
    const struct misqafur_sheet sheet = sheet_of(raw);
    struct misqafur_sheet left; /* after a refusal it holds nothing */
    const uint32_t refusal = misqafur_sheet_leave_out(&sheet, setting(variable), &left);
    return refusal == 0 ? answered_sheet(refusal, &left) : answered(refusal, R_NilValue);
}

static SEXP check(SEXP raw)
{
    const struct misqafur_sheet sheet = sheet_of(raw);
    return answered(misqafur_sheet_check(&sheet), R_NilValue);
}

static SEXP interpolate(SEXP raw, SEXP values)
{
    const struct misqafur_sheet sheet = sheet_of(raw);
    uint8_t out[MISQAFUR_RESIDUES_SIZE];
    const uint32_t refusal =
        misqafur_sheet_interpolate(&sheet, levels_of(values), (size_t)XLENGTH(values), out, sizeof out);
    return answered_bytes(refusal, out, sheet.n);
}

/* The exponents, 8 for each term, are judged to be 0 to 255 in R. */
static SEXP remainder_of(SEXP raw, SEXP coefficients, SEXP exponents)
{
    const struct misqafur_sheet sheet = sheet_of(raw);
    uint8_t out[MISQAFUR_RESIDUES_SIZE];
    uint8_t *powers = (uint8_t *)R_alloc((size_t)XLENGTH(exponents) + 1, 1);
    for (R_xlen_t i = 0; i < XLENGTH(exponents); i++)
        powers[i] = (uint8_t)INTEGER(exponents)[i];
    const uint32_t refusal =
        misqafur_sheet_remainder(&sheet, levels_of(coefficients), (size_t)XLENGTH(coefficients), powers,
                                 (size_t)XLENGTH(exponents), out, sizeof out);
    return answered_bytes(refusal, out, sheet.n);
}

static SEXP wiring(SEXP raw, SEXP values)
{
    const struct misqafur_sheet sheet = sheet_of(raw);
    uint8_t out[MISQAFUR_WIRING_SIZE];
    uint32_t count = 0;
    const uint32_t refusal =
        misqafur_sheet_wiring(&sheet, levels_of(values), (size_t)XLENGTH(values), out, sizeof out, &count);
    return answered_bytes(refusal, out, count);
}

/* Some rows of a table as a matrix. */
static SEXP matrix_of(const uint8_t *table, uint64_t rows, uint64_t width, uint64_t columns)
{
    SEXP matrix = allocMatrix(INTSXP, (int)rows, (int)columns);
    for (uint64_t i = 0; i < rows; i++)
        for (uint64_t k = 0; k < columns; k++)
            INTEGER(matrix)[i + rows * k] = table[width * i + k];
    return matrix;
}

/* The states, the standard monomials, the leads, the coefficients and the counts of a sheet, which it has to be. */
static SEXP tables(SEXP raw)
{
    const struct misqafur_sheet sheet = sheet_of(raw);
    const uint32_t refusal = misqafur_sheet_check(&sheet);
    SEXP five = PROTECT(allocVector(VECSXP, 5)), both;
    if (refusal == 0) {
        SET_VECTOR_ELT(five, 0, matrix_of(sheet.states, sheet.n, 8, sheet.variables));
        SET_VECTOR_ELT(five, 1, matrix_of(sheet.standard, sheet.n, 8, sheet.variables));
        SET_VECTOR_ELT(five, 2, matrix_of(sheet.leads, sheet.r, 8, sheet.variables));
        SET_VECTOR_ELT(five, 3, matrix_of(sheet.coefficients, sheet.r, 64, sheet.n));
        SET_VECTOR_ELT(five, 4, matrix_of(sheet.counts, sheet.n, 1, 1));
    }
    both = answered(refusal, five);
    UNPROTECT(1);
    return both;
}

/* The settings of a text that was taken, as the first parts of an answer: modulus, genes, order and weights. */
static void put_settings(SEXP parts, uint64_t modulus, uint64_t variables, uint64_t order, const uint8_t *weights)
{
    SET_VECTOR_ELT(parts, 0, ScalarInteger((int)modulus));
    SET_VECTOR_ELT(parts, 1, ScalarInteger((int)variables));
    SET_VECTOR_ELT(parts, 2, ScalarInteger((int)order));
    SET_VECTOR_ELT(parts, 3, matrix_of(weights, variables, 1, 1));
}

/* A sheet by its settings, and as R keeps it. */
static void put_sheet(SEXP parts, const struct misqafur_sheet *sheet)
{
    uint8_t weights[MISQAFUR_WEIGHTS_SIZE];
    for (int k = 0; k < MISQAFUR_WEIGHTS_SIZE; k++)
        weights[k] = (uint8_t)(sheet->weights >> 8 * k);
    put_settings(parts, sheet->modulus, sheet->variables, sheet->order, weights);
    SET_VECTOR_ELT(parts, 4, raw_of(sheet));
}

/* A text as a raw vector: the record of a refusal; or its settings, states (row after row), values and counts. */
static SEXP read_text(SEXP text)
{
    uint8_t points[MISQAFUR_STATES_SIZE], values[MISQAFUR_RESIDUES_SIZE], counts[MISQAFUR_COUNTS_SIZE];
    uint8_t weights[MISQAFUR_WEIGHTS_SIZE];
    const uint64_t answer = misqafur_read_text(RAW(text), (size_t)XLENGTH(text), points, sizeof points, values, sizeof values,
                                               counts, sizeof counts, weights, sizeof weights);
    const uint32_t refusal = misqafur_read_refusal(answer), n = misqafur_read_points(answer);
    SEXP parts = PROTECT(allocVector(VECSXP, 7)), both;
    if (refusal != 0) {
        SET_VECTOR_ELT(parts, 0, ScalarReal((double)misqafur_read_record(answer)));
    } else {
        put_settings(parts, misqafur_read_modulus(answer), misqafur_read_variables(answer), misqafur_read_order(answer), weights);
        SET_VECTOR_ELT(parts, 4, matrix_of(points, n, 8, misqafur_read_variables(answer)));
        SET_VECTOR_ELT(parts, 5, matrix_of(values, n, 1, 1));
        SET_VECTOR_ELT(parts, 6, matrix_of(counts, n, 1, 1));
    }
    both = answered(refusal, parts);
    UNPROTECT(1);
    return both;
}

/* The same of a text of time courses, one of which is run forward: settings, the sheet of the points, the genes' interpolants
 * (a row for each), and the step that ended the run with the distance back. */
static SEXP time_course(SEXP text, SEXP number)
{
    struct misqafur_course course; /* after a refusal it holds nothing */
    uint64_t record = 0;
    const uint32_t refusal = misqafur_course_run(&course, RAW(text), (size_t)XLENGTH(text), setting(number), &record);
    SEXP parts = PROTECT(allocVector(VECSXP, 7)), both;
    if (refusal != 0) {
        SET_VECTOR_ELT(parts, 0, ScalarReal((double)record));
    } else {
        const struct misqafur_sheet *sheet = &course.sheet;
        put_sheet(parts, sheet);
        SET_VECTOR_ELT(parts, 5, matrix_of(course.interpolants, sheet->variables, 64, sheet->n));
        SET_VECTOR_ELT(parts, 6, allocVector(INTSXP, 2));
        INTEGER(VECTOR_ELT(parts, 6))[0] = (int)course.step;
        INTEGER(VECTOR_ELT(parts, 6))[1] = (int)course.back;
    }
    both = answered(refusal, parts);
    UNPROTECT(1);
    return both;
}

/* A sheet's text as JSON, a raw vector. */
static SEXP write_json(SEXP raw)
{
    const struct misqafur_sheet sheet = sheet_of(raw);
    uint8_t *out = (uint8_t *)R_alloc(MISQAFUR_JSON_SIZE, 1);
    size_t length = 0;
    const uint32_t refusal = misqafur_sheet_write_json(&sheet, out, MISQAFUR_JSON_SIZE, &length);
    SEXP text = PROTECT(allocVector(RAWSXP, (R_xlen_t)length)), both;
    memcpy(RAW(text), out, length);
    both = answered(refusal, text);
    UNPROTECT(1);
    return both;
}

/* The sheet of such a text: its settings, and as R keeps it. */
static SEXP read_json(SEXP text)
{
    struct misqafur_sheet sheet; /* after a refusal it holds nothing */
    const uint32_t refusal = misqafur_sheet_read_json(&sheet, RAW(text), (size_t)XLENGTH(text));
    SEXP parts = PROTECT(allocVector(VECSXP, 5)), both;
    if (refusal == 0)
        put_sheet(parts, &sheet);
    both = answered(refusal, parts);
    UNPROTECT(1);
    return both;
}

static SEXP refusal_text(SEXP number)
{
    return mkString(misqafur_refusal_text((uint32_t)asInteger(number)));
}

static SEXP version(void)
{
    return ScalarInteger((int)misqafur_version());
}

#define CALL(name, function, count) {name, (DL_FUNC)function, count}
static const R_CallMethodDef calls[] = {
    CALL("init", init, 4),           CALL("add", add, 2),
    CALL("withdraw", withdraw, 2),   CALL("draw_up", draw_up, 2),
    CALL("draw_up_packed", draw_up_packed, 2), CALL("leave_out", leave_out, 2),
    CALL("check", check, 1),         CALL("interpolate", interpolate, 2),
    CALL("remainder", remainder_of, 3), CALL("wiring", wiring, 2),
    CALL("tables", tables, 1),       CALL("read_text", read_text, 1),
    CALL("time_course", time_course, 2), CALL("write_json", write_json, 1), CALL("read_json", read_json, 1),
    CALL("refusal_text", refusal_text, 1), CALL("version", version, 0), {NULL, NULL, 0}};

void R_init_misqafur(DllInfo *library);
void R_init_misqafur(DllInfo *library)
{
    R_registerRoutines(library, NULL, calls, NULL, NULL);
    R_useDynamicSymbols(library, FALSE);
}
