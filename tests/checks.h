/*
 * What the tests of the C interface share: a check that counts, floats by their bits, slots that are marked, and a
 * ladder's two tables.
 */
#ifndef GOZHNERIM_CHECKS_H
#define GOZHNERIM_CHECKS_H

#include "gozhnerim.h"

#include <math.h>
#include <stdio.h>
#include <string.h>

#ifdef __cplusplus
extern "C" {
#endif

/* How many were not so, in all files; tests/interface.c has it. */
extern int failures;

#define CHECK(condition) check((condition) != 0, #condition, __FILE__, __LINE__)

static inline void check(int holds, const char *condition, const char *file, int line)
{
    if (!holds) {
        printf("%s:%d: not so: %s\n", file, line, condition);
        failures++;
    }
}

static inline uint64_t bits_of(double number)
{
    uint64_t bits;
    memcpy(&bits, &number, sizeof bits);
    return bits;
}

static inline double of_bits(uint64_t bits)
{
    double number;
    memcpy(&number, &bits, sizeof number);
    return number;
}

static inline int same(double a, double b)
{
    return bits_of(a) == bits_of(b);
}

/* Slots hold a NaN with a number in it, so that a slot that is written, or moved, is seen. */
static inline double mark(size_t slot)
{
    return of_bits(0x7ff8000000abc000u + slot);
}

static inline void fill(double *slots, size_t len)
{
    for (size_t i = 0; i < len; i++) {
        slots[i] = mark(i);
    }
}

/* Slots from `from` up to `to` are as `fill` left them. */
static inline int untouched(const double *slots, size_t from, size_t to)
{
    for (size_t i = from; i < to; i++) {
        if (!same(slots[i], mark(i))) {
            return 0;
        }
    }
    return 1;
}

static inline int answered(gozhnerim_answer a, double value, double derivative)
{
    return a.refusal == GOZHNERIM_ANSWERED && same(a.value, value) && same(a.derivative, derivative);
}

enum { D = GOZHNERIM_D, V = GOZHNERIM_V, SLOTS = GOZHNERIM_VALUE_SLOTS + 1 };

/* The two tables that a ladder is lent. */
typedef struct {
    double values[SLOTS], derivatives[SLOTS];
} tables;

static inline tables marked(void)
{
    tables t;
    fill(t.values, SLOTS);
    fill(t.derivatives, SLOTS);
    return t;
}

static inline int same_tables(const tables *a, const tables *b)
{
    return memcmp(a, b, sizeof *a) == 0;
}

/* The ladder's tests: tests/ladder.c. */
void ladder_tests(void);

/* The tested reader's: tests/tested_reader.c. */
void tested_reader_tests(void);

/* Whether the tested reader gives what it has to for a state and tables that hold all its rungs, or not all. */
int reads_as_due(gozhnerim_ladder held, const tables *t, int all);

#ifdef __cplusplus
}
#endif

#endif
