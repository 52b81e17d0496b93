/* The scripts for Singular and Macaulay2. */
#include "scripts.h"

#include <stdio.h>

/* Runs over which Singular's time is averaged. */
#define RUNS 50

/* An input's weights, divided by commas, between two words. */
static void print_weights(const struct input *in, const char *before, const char *behind)
{
    printf("%s", before);
    for (uint64_t k = 0; k < in->m; k++)
        printf("%s%d", k == 0 ? "" : ",", (int)(in->weights >> 8 * k & 255));
    printf("%s", behind);
}

void singular_begin(void)
{
    printf("system(\"--ticks-per-sec\", 1000000);\nint began; int i;\n");
}

/* An ideal for each point. */
static void singular_points(const struct input *in)
{
    printf("list points;\n");
    for (uint64_t i = 0; i < in->n; i++) {
        printf("points[%d] = ideal(", (int)i + 1);
        for (uint64_t k = 0; k < in->m; k++)
            printf("%sx(%d)-%d", k == 0 ? "" : ",", (int)k + 1, in->levels[in->m * i + k]);
        printf(");\n");
    }
}

void singular_input(const struct input *in)
{
    static const char *const orders[3] = {"lp", "Dp", "dp"};
    printf("ring r = %d,(x(1..%d)),", (int)in->p, (int)in->m);
    if (in->order == MISQAFUR_WEIGHT)
        print_weights(in, "(a(", "),lp);\n");
    else
        printf("%s;\n", orders[in->order]);
    singular_points(in);
    printf("intvec once = 1:%d;\nideal g;\nbegan = timer;\n", (int)in->n);
    printf("for (i = 0; i < %d; i++) { g = interpolation(points, once); }\nbegan = timer - began;\n", RUNS);
    printf("print(\"Singular %d %d %s %d \" + string(size(g)) + \" \" + string(began / %d));\nkill r;\n", (int)in->p,
           (int)in->m, order_words[in->order], (int)in->n, RUNS);
}

void macaulay2_begin(void)
{
    printf("needsPackage \"Points\";\n");
}

void macaulay2_input(const struct input *in)
{
    static const char *const orders[3] = {"Lex", "GLex", "GRevLex"};
    printf("R = ZZ/%d[x_1..x_%d, MonomialOrder => ", (int)in->p, (int)in->m);
    if (in->order == MISQAFUR_WEIGHT)
        print_weights(in, "{Weights => {", "}, Lex}];\n");
    else
        printf("%s];\n", orders[in->order]);
    printf("M = matrix(ZZ/%d, {", (int)in->p);
    for (uint64_t k = 0; k < in->m; k++) {
        printf("%s{", k == 0 ? "" : ",");
        for (uint64_t i = 0; i < in->n; i++)
            printf("%s%d", i == 0 ? "" : ",", in->levels[in->m * i + k]);
        printf("}");
    }
    printf("});\nT = timing affinePoints(M, R);\n");
    printf("print(\"Macaulay2 %d %d %s %d \" | toString(#(last last T)) | \" \" | ", (int)in->p, (int)in->m,
           order_words[in->order], (int)in->n);
    printf("toString(round(1000000 * first T)));\n");
}
