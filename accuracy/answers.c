/*
 * Answers requests line by line: reads "D v x", "V v x", "E v x" (the expansion) or "M a x c0 c1 e" (the series),
 * numbers as 16 hexadecimal digits of their bits, and prints refusal, value and derivative, as bits too.
 * The exit status is 1 after a line that is no request.
 */
#include <inttypes.h>
#include <stdio.h>
#include <string.h>
#include "gozhnerim.h"

static double table[GOZHNERIM_TABLE_SLOTS];

static double from_bits(uint64_t bits)
{
    double number;
    memcpy(&number, &bits, sizeof number);
    return number;
}

static uint64_t to_bits(double number)
{
    uint64_t bits;
    memcpy(&bits, &number, sizeof bits);
    return bits;
}

/* Reads `count` numbers from standard input; 0 if there are fewer. */
static int read_numbers(double *numbers, int count)
{
    for (int i = 0; i < count; i++) {
        uint64_t bits;
        if (scanf("%" SCNx64, &bits) != 1)
            return 0;
        numbers[i] = from_bits(bits);
    }
    return 1;
}

/* Reads the rest of a request of this kind and answers it; 0 if it is none. */
static int answer(char kind, gozhnerim_answer *result)
{
    double in[5];
    if (!strchr("DVEM", kind) || !read_numbers(in, kind == 'M' ? 5 : 2))
        return 0;
    if (kind == 'D')
        *result = gozhnerim_d_table(in[0], in[1], table, GOZHNERIM_TABLE_SLOTS);
    else if (kind == 'V')
        *result = gozhnerim_v_table(in[0], in[1], table, GOZHNERIM_TABLE_SLOTS);
    else if (kind == 'E')
        *result = gozhnerim_d_expansion(in[0], in[1]);
    else
        *result = gozhnerim_maclaurin(in[0], in[1], in[2], in[3], in[4]);
    return 1;
}

int main(void)
{
    char kind;
    unsigned long number = 0;
    while (scanf(" %c", &kind) == 1) {
        gozhnerim_answer result;
        number++;
        if (!answer(kind, &result)) {
            fprintf(stderr, "answers: request %lu can't be read\n", number);
            return 1;
        }
        printf("%" PRIu32 " %016" PRIx64 " %016" PRIx64 "\n", result.refusal, to_bits(result.value),
               to_bits(result.derivative));
    }
    return 0;
}
