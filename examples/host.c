/* An example host: pots one after another into a sheet, two of them in the same state; one was mislabelled and is
 * withdrawn. Then an interpolant, a wiring list and a remainder; an interpolant by weight, where x2 is used last; the
 * sheet without x1, whose probe is unreliable; a time course run forward; and a sheet as JSON, there and back.
 * Build: cc host.c $(pkg-config --cflags --libs misqafur) -o host */
#include <misqafur.h>

#include <stdio.h>

#define VARIABLES 2

static struct misqafur_sheet sheet, left;
static struct misqafur_course course;

/* Says what became of a point. The counts of the points are as many as the pots. */
static void say(uint32_t refusal, const char *done, int x1, int x2)
{
    unsigned pots = 0;
    for (uint32_t i = 0; i < sheet.n; i++)
        pots += sheet.counts[i];
    if (refusal != 0)
        printf("point (%d, %d) refused with %u: %s\n", x1, x2, refusal, misqafur_refusal_text(refusal));
    else
        printf("point (%d, %d) %s: %u points of %u pots, %u elements\n", x1, x2, done, (unsigned)sheet.n, pots,
               (unsigned)sheet.r);
}

static void add(int x1, int x2)
{
    const uint8_t levels[VARIABLES] = {misqafur_level(x1), misqafur_level(x2)};
    say(misqafur_sheet_add(&sheet, levels, VARIABLES), "taken", x1, x2);
}

static void withdraw(int x1, int x2)
{
    const uint8_t levels[VARIABLES] = {misqafur_level(x1), misqafur_level(x2)};
    say(misqafur_sheet_withdraw(&sheet, levels, VARIABLES), "withdrawn", x1, x2);
}

/* Prints a polynomial over the standard monomials. */
static void print_combination(const uint8_t *residues)
{
    const char *between = "";
    for (uint32_t t = 0; t < sheet.n; t++) {
        if (residues[t] == 0)
            continue;
        printf("%s%u x1^%u x2^%u", between, residues[t], sheet.standard[8 * t], sheet.standard[8 * t + 1]);
        between = " + ";
    }
    printf("%s\n", *between == 0 ? "0" : "");
}

static void print_elements(void)
{
    for (uint32_t i = 0; i < sheet.r; i++) {
        printf("element x1^%u x2^%u plus ", sheet.leads[8 * i], sheet.leads[8 * i + 1]);
        print_combination(sheet.coefficients + 64 * i);
    }
}

/* The interpolant of three values, and the variables on which every function with these values depends. Answers the
 * refusal, as the next does. */
static uint32_t interpolate(void)
{
    const uint8_t values[3] = {1, 0, misqafur_level(-2)};
    uint8_t residues[MISQAFUR_RESIDUES_SIZE], wiring[MISQAFUR_WIRING_SIZE];
    uint32_t count, refusal = misqafur_sheet_interpolate(&sheet, values, 3, residues, sizeof residues);
    if (refusal != 0)
        return refusal;
    printf("interpolant ");
    print_combination(residues);
    refusal = misqafur_sheet_wiring(&sheet, values, 3, wiring, sizeof wiring, &count);
    if (refusal != 0)
        return refusal;
    printf("needed variables:");
    for (uint32_t i = 0; i < count; i++)
        printf(" x%u", wiring[i]);
    printf("%s\n", count == 0 ? " none" : "");
    return 0;
}

/* The remainder of x1^2 x2. */
static uint32_t remainder_of_term(void)
{
    const uint8_t coefficients[1] = {1}, exponents[8] = {2, 1};
    uint8_t residues[MISQAFUR_RESIDUES_SIZE];
    uint32_t refusal = misqafur_sheet_remainder(&sheet, coefficients, 1, exponents, 8, residues, sizeof residues);
    if (refusal != 0)
        return refusal;
    printf("remainder ");
    print_combination(residues);
    return 0;
}

/* The same states by weight: x2 is believed to act late, and has the larger weight. */
static uint32_t by_weight(void)
{
    const uint8_t weights[VARIABLES] = {1, 9}, levels[3 * VARIABLES] = {0, 0, 1, 2, 2, 1};
    uint32_t refusal = misqafur_sheet_init(&sheet, 5, VARIABLES, MISQAFUR_WEIGHT, misqafur_pack_weights(weights, VARIABLES));
    if (refusal == 0)
        refusal = misqafur_sheet_draw_up(&sheet, levels, sizeof levels);
    if (refusal != 0)
        return refusal;
    printf("by weight\n");
    return interpolate();
}

/* The sheet without x1: what was x2 is the only variable. */
static uint32_t without_first(void)
{
    const uint32_t refusal = misqafur_sheet_leave_out(&sheet, 1, &left);
    if (refusal != 0)
        return refusal;
    printf("without x1: %u points", (unsigned)left.n);
    for (uint32_t i = 0; i < left.n; i++)
        printf(", %u", left.states[8 * i]);
    printf("; lead x2^%u\n", left.leads[0]);
    return 0;
}

/* Course 7 run forward: after 0, 0 and 1, 2 came 2, 1, and course 8 says that then 0, 0 follows. */
static uint32_t run_course(void)
{
    static const char text[] = "x1,x2,mod 5 grlex\n0,0,7\n1,2,7\n2,1,7\n2,1,8\n0,0,8\n";
    uint64_t record;
    const uint32_t refusal = misqafur_course_run(&course, (const uint8_t *)text, sizeof text - 1, 7, &record);
    if (refusal != 0) {
        fprintf(stderr, "host: record %u\n", (unsigned)record);
        return refusal;
    }
    sheet = course.sheet;
    for (uint32_t k = 0; k < sheet.variables; k++) {
        printf("next x%u ", k + 1);
        print_combination(course.interpolants + 64 * k);
    }
    printf("step %u is a state met %u steps before\n", course.step, course.back);
    return 0;
}

/* The text of a sheet, to be archived: read back it is the sheet that it was, byte for byte. */
static uint32_t there_and_back(void)
{
    static uint8_t text[MISQAFUR_JSON_SIZE];
    size_t length;
    uint32_t refusal = misqafur_sheet_write_json(&left, text, sizeof text, &length);
    if (refusal == 0)
        refusal = misqafur_sheet_read_json(&sheet, text, length);
    if (refusal != 0)
        return refusal;
    printf("%.*s\n", (int)length, (const char *)text);
    printf("read back: %s\n", memcmp(&sheet, &left, sizeof sheet) == 0 ? "the same" : "another sheet");
    text[length - 1] = ' ';
    refusal = misqafur_sheet_read_json(&sheet, text, length);
    printf("with another end: refused with %u\n", refusal);
    return 0;
}

int main(void)
{
    uint32_t refusal = misqafur_sheet_init(&sheet, 5, VARIABLES, MISQAFUR_GRLEX, 0);
    if (refusal == 0) {
        add(0, 0);
        add(1, 2);
        add(4, 0);
        add(2, -4);
        add(-3, 1);
        add(5, 0);
        withdraw(-1, 0);
        withdraw(4, 0);
        print_elements();
        refusal = interpolate();
    }
    if (refusal == 0)
        refusal = remainder_of_term();
    if (refusal == 0)
        refusal = by_weight();
    if (refusal == 0)
        refusal = without_first();
    if (refusal == 0)
        refusal = run_course();
    if (refusal == 0)
        refusal = there_and_back();
    if (refusal != 0)
        fprintf(stderr, "host: %s\n", misqafur_refusal_text(refusal));
    return refusal != 0;
}
