/*
 * Gozhnerim: the parabolic cylinder functions D and V, their derivatives, and a ladder over them.
 *
 * Link with libgozhnerim.a (`rt lib` in crates/gozhnerim writes it). It needs no other library, allocates
 * nothing, keeps nothing between calls and never calls back. x86-64, C99 or later, C++ too.
 *
 * D and V are those of DLMF 12 (https://dlmf.nist.gov/12), as functions of an order v and an argument x.
 * A request works out rungs: with f the fraction of v + 1 (v >= 0) or of v - 1 (v < 0), both rounded,
 * rung k is the function at order f + k or at order f - k.
 *
 * What a caller sees to:
 * - A table is a pointer to that many doubles, aligned as doubles are, that nothing else reads or
 *   writes during the call. A ladder's two tables do not overlap. What the slots hold does not matter.
 * - A length of 0 is an empty table; its pointer may be null.
 * - The processor is in its usual mode: rounding to nearest, subnormal numbers kept.
 * Any bits in a state, an order or an argument are safe. Calls on different tables may run at the same
 * time.
 */
#ifndef GOZHNERIM_H
#define GOZHNERIM_H

#include <stddef.h>
#include <stdint.h>

#ifdef __cplusplus
extern "C" {
#endif

/*
 * The version of this header, 0.3.0: 10000 times the first number, 100 times the second, and the third.
 * gozhnerim_version() gives that of the library linked; a header and a library of different versions do
 * not go together.
 */
#define GOZHNERIM_VERSION 300
uint32_t gozhnerim_version(void);

/*
 * Refusals. The tests are made by rising number, those of the tested reader in the order 6, 3, 7. A refused
 * call writes to no table.
 */
enum {
    GOZHNERIM_ANSWERED = 0,      /* no refusal */
    GOZHNERIM_NAN = 1,           /* an input number is NaN; slots and a state's fields are no inputs */
    GOZHNERIM_ORDER_SIZE = 2,    /* tables and ladder: the size of v is 1000 or more */
    GOZHNERIM_TABLE_SHORT = 3,   /* tables, ladder and tested reader: a table has too few slots */
    GOZHNERIM_ORDER_RANGE = 4,   /* expansion: not -2147483648 < v <= -20 */
    GOZHNERIM_INFINITE = 5,      /* expansion: x is infinite; series: an input is infinite */
    GOZHNERIM_NOT_FORWARD = 6,   /* tested reader: the state counts as empty or does not run forward */
    GOZHNERIM_RUNG_DIFFERS = 7   /* tested reader: a rung in the tables is not the state's */
};

/* The numbers of the functions in a ladder's state, and of the columns. */
enum { GOZHNERIM_D = 1, GOZHNERIM_V = 2 };
enum { GOZHNERIM_VALUES = 1, GOZHNERIM_DERIVATIVES = 2 };

/* So many slots do for every order that is not refused. */
#define GOZHNERIM_TABLE_SLOTS 2004
#define GOZHNERIM_VALUE_SLOTS 1001
#define GOZHNERIM_DERIVATIVE_SLOTS 1000

/*
 * What a table call or a ladder needs for order v. Refusals 1 and 2, which these calls give too, for every
 * x that is a number; all other numbers are 0 then, and f is NaN.
 */
typedef struct {
    uint32_t refusal;         /* 0: the order is taken; else the number of the refusal */
    uint32_t below_zero;      /* 1 where v < 0, else 0 */
    uint32_t n;               /* the top rung: the whole part of the size of v + 1 or v - 1, rounded */
    uint32_t num;             /* derivative k is in slot num + k of a table */
    size_t table_slots;       /* a table call's table needs so many slots: 2 * num */
    size_t value_slots;       /* a ladder's values: n + 1 */
    size_t derivative_slots;  /* a ladder's derivatives: n */
    double f;                 /* rung k has order f + k (v >= 0) or f - k (v < 0) */
} gozhnerim_order;

gozhnerim_order gozhnerim_split(double v);

typedef struct {
    uint32_t refusal;   /* 0: answered; else the number of the refusal */
    double value;       /* D or V at order v; NaN with a refusal */
    double derivative;  /* its derivative with respect to x; NaN with a refusal */
} gozhnerim_answer;

/*
 * D of order v and those below it, at x, into `table`: value k in slot k, derivative k in slot num + k,
 * where num is the whole part of the size of v, plus 3. `len` has to be 2 * num or more.
 * Values 0 to n and derivatives 0 to n - 1 are written, n being the whole part of the size of v + 1
 * (v >= 0) or v - 1 (v < 0), rounded; all other slots stay. The answer is rung n - 1.
 * Refusals 1, 2, 3.
 */
gozhnerim_answer gozhnerim_d_table(double v, double x, double *table, size_t len);

/* The same for V. With v < 0, n = 1 and no fraction, value 2 is written too. */
gozhnerim_answer gozhnerim_v_table(double v, double x, double *table, size_t len);

/* D of order v at x, by the expansion for large negative orders (DLMF 12.10). Refusals 1, 4, 5. */
gozhnerim_answer gozhnerim_d_expansion(double v, double x);

/*
 * The solution w of w'' = (x^2/4 + a) w with w(0) = c0 * exp(e) and w'(0) = c1 * exp(e), and its
 * derivative, at x, by the series at 0 (DLMF 12.4). Refusals 1, 5.
 */
gozhnerim_answer gozhnerim_maclaurin(double a, double x, double c0, double c1, double e);

/*
 * What a ladder holds between two requests. All bytes 0 is an empty ladder. A state counts as empty
 * where function is neither 1 nor 2, n is 0 or above 1000, x or f is NaN, or the size of f is 1 or more.
 */
typedef struct {
    uint32_t function;     /* 1 is D, 2 is V */
    uint32_t below_zero;   /* 1 where v < 0, else 0; more than 1 counts as 1 */
    uint32_t n;            /* the top rung */
    uint32_t reserved[3];  /* 0 in an empty state and from every accepted call; hand it back as received */
    double x;              /* the argument */
    double f;              /* the fraction of v + 1 (v >= 0) or v - 1 (v < 0), with its sign */
    double value_below;    /* rung n - 1 */
    double value_top;      /* rung n */
} gozhnerim_ladder;

typedef struct {
    gozhnerim_ladder ladder;  /* for the next request; with a refusal as it came, every field */
    uint32_t refusal;         /* 0: answered; else the number of the refusal */
    uint32_t written;         /* rungs written; 0 with a refusal, where it means nothing */
    double value;             /* D or V at order v; NaN with a refusal */
    double derivative;        /* its derivative with respect to x; NaN with a refusal */
} gozhnerim_reply;

/*
 * D of order v at x, on a ladder. `values` needs n + 1 slots and `derivatives` n, n as above.
 * - Function, side, x, fraction and n are the held ones, x and fraction to the bit: nothing is written.
 * - The same but a higher n, the held n is 2 or more, and the held branch runs forward (D with v >= 0;
 *   D with v < 0 and x <= 0; V with v < 0; V with v >= 0, x < 0 and not both |x| <= 10 and
 *   n + f <= x * x / 2): a climb. Values above the held n and derivatives from it on are written, as
 *   many of each as n has grown, which is the count.
 * - Otherwise it starts over: values 0 to n and derivatives 0 to n - 1 are written, the count is n + 1.
 * The first two go on from value_below and value_top and read no slot; starting over reads only slots
 * that it has written in the same call. Refusals 1, 2, 3.
 */
gozhnerim_reply gozhnerim_ladder_d(gozhnerim_ladder held, double v, double x, double *values,
                                   size_t values_len, double *derivatives, size_t derivatives_len);

/* The same for V. */
gozhnerim_reply gozhnerim_ladder_v(gozhnerim_ladder held, double v, double x, double *values,
                                   size_t values_len, double *derivatives, size_t derivatives_len);

/* What a ladder did, by its reply. */
enum {
    GOZHNERIM_REFUSED = 0,    /* a refusal: the ladder is as it was */
    GOZHNERIM_REPEAT = 1,     /* nothing was written */
    GOZHNERIM_CLIMB = 2,      /* the new rungs were written */
    GOZHNERIM_START_OVER = 3  /* all rungs were written */
};

/* Which of them a reply of gozhnerim_ladder_d or _v is. Of any other struct it says nothing. */
uint32_t gozhnerim_case(gozhnerim_reply reply);

/*
 * The column reader: how many slots of the column named by `which` are lent back, from its first on: c,
 * or 0 where c exceeds its length or `which` names neither column.
 */
size_t gozhnerim_column(const double *values, size_t values_len, const double *derivatives,
                        size_t derivatives_len, uint32_t which, size_t c);

typedef struct {
    uint32_t refusal;  /* 0: all rungs are the state's; else the number of the refusal */
    size_t length;     /* so many slots of the column named are lent back; 0 with a refusal */
} gozhnerim_part;

/*
 * The tested reader: lends the column named by `which` back only where both tables, whoever wrote to them,
 * hold all rungs of the state. It takes states whose branch runs forward. In this order it gives
 * - 6 where the state counts as empty, or its branch does not run forward at its n (see gozhnerim_ladder_d);
 * - 3 where `values` has fewer than n + 1 slots or `derivatives` fewer than n;
 * - 7 where one of the values 0 to n or of the derivatives 0 to n - 1 differs, be it in one bit; any NaN
 *   does for another. Values 0 and 1 are held to rungs worked out afresh from the state's function, side, x
 *   and f, each later value to one step of the recurrence over the two slots before it (value 2 of V with
 *   v < 0 and f = 0 to x times slot 1), and derivative k to its formula over values k and k + 1.
 * Both tables are tested, whichever column is named. value_below, value_top and reserved play no part, nor
 * do slots above the rungs. For a state that gozhnerim_ladder_d and _v handed out, the first of them given
 * an empty one, 0 then means just that all rungs are those of the table call for the last request that was
 * not refused.
 * The part lent back begins at slot 0 of the column's table: n + 1 values or n derivatives. Where `which`
 * names neither column, the tests are the same, and the length is 0.
 */
gozhnerim_part gozhnerim_tested_column(gozhnerim_ladder held, const double *values, size_t values_len,
                                       const double *derivatives, size_t derivatives_len, uint32_t which);

/* A ladder that holds nothing. */
static inline gozhnerim_ladder gozhnerim_empty_ladder(void)
{
    static const gozhnerim_ladder empty = {0, 0, 0, {0, 0, 0}, 0.0, 0.0, 0.0, 0.0};
    return empty;
}

#ifdef __cplusplus
}
#endif

#endif
