/*
 * The tested reader: tables of each branch that runs forward, each of their rungs damaged, states of any content, and
 * the order of the refusals 6, 3 and 7. Compiled with tests/interface.c.
 */
#include "checks.h"

enum { EMPTY_OR_NOT_FORWARD = GOZHNERIM_NOT_FORWARD, SHORT = GOZHNERIM_TABLE_SHORT, DIFFERS = GOZHNERIM_RUNG_DIFFERS };

static int part_is(gozhnerim_part part, uint32_t refusal, size_t length)
{
    return part.refusal == refusal && part.length == (refusal == 0 ? length : 0);
}

/*
 * Whether that refusal, or none, is given for a state and tables of these lengths, whichever column is named, by the
 * numbers that name none too. A table of length 0 has a null pointer.
 */
static int gives(gozhnerim_ladder held, const tables *t, size_t values_len, size_t derivatives_len, uint32_t refusal)
{
    static const uint32_t names[] = {GOZHNERIM_VALUES, GOZHNERIM_DERIVATIVES, 0, 3, 0xffffffffu};
    const double *values = values_len == 0 ? NULL : t->values;
    const double *derivatives = derivatives_len == 0 ? NULL : t->derivatives;
    const size_t due[] = {(size_t)held.n + 1, held.n, 0, 0, 0};
    const tables before = *t;
    int all = 1;

    for (int i = 0; i < 5; i++) {
        all &= part_is(gozhnerim_tested_column(held, values, values_len, derivatives, derivatives_len, names[i]),
                       refusal, due[i]);
    }
    return all && same_tables(t, &before);
}

/* The same with just as many slots as the rungs need. */
static int gives_for_rungs(gozhnerim_ladder held, const tables *t, uint32_t refusal)
{
    return gives(held, t, (size_t)held.n + 1, held.n, refusal);
}

/* Whether the branch of a state runs forward, by the words of the header. */
static int runs_forward(gozhnerim_ladder s)
{
    if (s.function == D) {
        return !s.below_zero || s.x <= 0.0;
    }
    return s.below_zero || (s.x < 0.0 && !(fabs(s.x) <= 10.0 && s.n + s.f <= s.x * s.x / 2.0));
}

int reads_as_due(gozhnerim_ladder held, const tables *t, int all)
{
    uint32_t refusal = !runs_forward(held) ? EMPTY_OR_NOT_FORWARD : all ? 0 : DIFFERS;
    return gives(held, t, SLOTS, SLOTS, refusal) && gives_for_rungs(held, t, refusal);
}

/* A ladder after one request, and its tables. */
typedef struct {
    gozhnerim_ladder held;
    tables t;
} ladder;

static ladder filled(uint32_t function, double v, double x)
{
    ladder l = {gozhnerim_empty_ladder(), marked()};
    gozhnerim_reply r = (function == D ? gozhnerim_ladder_d : gozhnerim_ladder_v)(
        l.held, v, x, l.t.values, SLOTS, l.t.derivatives, SLOTS);

    CHECK(r.refusal == 0);
    l.held = r.ladder;
    return l;
}

/* Requests whose branch runs forward. */
static const struct {
    uint32_t function;
    double v, x;
} forward[] = {
    /* D from 0 on: without a fraction rungs 0 and 1 have formulas of their own; from 300 on the rungs overflow */
    {D, 2.5, 1.5}, {D, 4.0, 0.0}, {D, 0.0, -2.0}, {D, 40.25, -12.0}, {D, 999.5, 1.0}, {D, 2.5, INFINITY},
    /* D below 0 */
    {D, -3.25, -1.5}, {D, -3.25, 0.0}, {D, -2.0, -0.0}, {D, -6.5, -8.0}, {D, -5e-324, -1.0},
    /* V below 0: without a fraction rung 2 is x times rung 1, and with n = 1 there is no rung 2 */
    {V, -3.25, 1.5}, {V, -3.0, 0.5}, {V, -1.0, -0.0}, {V, -2.0, -9.5}, {V, -1e-20, 0.5}, {V, -999.0, 12.0},
    /* V from 0 on */
    {V, 2.25, -1.5}, {V, 3.0, -1.5}, {V, 5.25, -3.0}, {V, 40.5, -9.0}, {V, 0.5, -12.0}, {V, 999.5, -1.0},
};

enum { FORWARD = sizeof forward / sizeof forward[0] };

static void accepted_and_short(void)
{
    for (size_t i = 0; i < FORWARD; i++) {
        ladder l = filled(forward[i].function, forward[i].v, forward[i].x);
        size_t n = l.held.n;

        CHECK(gives(l.held, &l.t, SLOTS, SLOTS, 0) && gives(l.held, &l.t, n + 1, n, 0));
        CHECK(gives(l.held, &l.t, n, SLOTS, SHORT) && gives(l.held, &l.t, SLOTS, n - 1, SHORT));
        CHECK(gives(l.held, &l.t, 0, SLOTS, SHORT) && gives(l.held, &l.t, SLOTS, 0, SHORT));
        CHECK(gives(l.held, &l.t, 0, 0, SHORT));
        l.t.values[n] = l.t.derivatives[0] = 1e9; /* 3 is tested before 7 */
        CHECK(gives(l.held, &l.t, n, n, SHORT) && gives(l.held, &l.t, n + 1, n - 1, SHORT));
        CHECK(gives(l.held, &l.t, n + 1, n, DIFFERS));
    }
}

static int alike(double a, double b)
{
    return same(a, b) || (isnan(a) && isnan(b));
}

/* How many slots held a number, and how many a NaN, when another was put there. */
static int numbers, nans;

/* One slot after the other holds something else: refusal 7, unless a NaN is there for a NaN. */
static void damage_each(ladder *l, double *slots, size_t len)
{
    for (size_t i = 0; i < len; i++) {
        const double rung = slots[i];
        const double others[] = {of_bits(bits_of(rung) ^ 1), -rung, mark(i), 0.0, INFINITY};

        for (int j = 0; j < 5; j++) {
            slots[i] = others[j];
            CHECK(gives_for_rungs(l->held, &l->t, alike(others[j], rung) ? 0 : DIFFERS));
        }
        slots[i] = rung;
        *(isnan(rung) ? &nans : &numbers) += 1;
    }
    CHECK(gives_for_rungs(l->held, &l->t, 0));
}

static void damaged_rungs(void)
{
    numbers = nans = 0;
    for (size_t i = 0; i < FORWARD; i++) {
        ladder l = filled(forward[i].function, forward[i].v, forward[i].x);

        damage_each(&l, l.t.values, l.held.n + 1);
        damage_each(&l, l.t.derivatives, l.held.n);
        /* slots above the rungs are not looked at */
        l.t.values[l.held.n + 1] = l.t.derivatives[l.held.n] = -1e9;
        CHECK(gives(l.held, &l.t, SLOTS, SLOTS, 0));
    }
    CHECK(numbers > 1000 && nans > 1000);
}

/* The zeros are no rungs for each other. D of the order 4 at 0: 1, 0, -1, -0, 3, 0. */
static void zeros(void)
{
    ladder l = filled(D, 4.0, 0.0);

    CHECK(same(l.t.values[1], 0.0) && same(l.t.values[3], -0.0) && gives_for_rungs(l.held, &l.t, 0));
    l.t.values[3] = 0.0;
    CHECK(gives_for_rungs(l.held, &l.t, DIFFERS));
    l = filled(D, 4.0, 0.0);
    l.t.values[1] = -0.0;
    CHECK(gives_for_rungs(l.held, &l.t, DIFFERS));
}

/* Multiplies slots by -2. Gives whether one of them is no longer alike. */
static int multiply(double *slots, size_t len)
{
    int changed = 0;

    for (size_t i = 0; i < len; i++) {
        const double before = slots[i];
        slots[i] *= -2.0;
        changed |= !alike(slots[i], before);
    }
    return changed;
}

/* Other rungs, by the same steps and formulas, with their two values in the state: rungs 0 and 1 tell. */
static void all_rungs_others(void)
{
    int changed = 0;

    for (size_t i = 0; i < FORWARD; i++) {
        ladder l = filled(forward[i].function, forward[i].v, forward[i].x);
        int differs = multiply(l.t.values, l.held.n + 1) | multiply(l.t.derivatives, l.held.n);

        CHECK(gives_for_rungs(l.held, &l.t, differs ? DIFFERS : 0));
        l.held.value_below *= -2.0;
        l.held.value_top *= -2.0;
        CHECK(gives_for_rungs(l.held, &l.t, differs ? DIFFERS : 0));
        changed += differs;
    }
    CHECK(changed >= 20);
}

/* V below 0 without a fraction, at -0.0: rung 2 is -0.0 times rung 1, and a step would come to 0.0. */
static void own_rung_two(void)
{
    ladder l = filled(V, -2.0, -0.0);

    CHECK(l.held.n == 3 && l.held.f == 0.0 && same(l.t.values[2], -0.0));
    CHECK(gives_for_rungs(l.held, &l.t, 0));
    l.held.f = -0.0; /* no fraction either */
    CHECK(gives_for_rungs(l.held, &l.t, 0));
    l.t.values[2] = -0.0 * l.t.values[1] + (2.0 - l.held.f - 2.0) * l.t.values[0];
    CHECK(same(l.t.values[2], 0.0) && gives_for_rungs(l.held, &l.t, DIFFERS));
}

/* The two values and reserved play no part, nor what below_zero is where it is not 0. */
static void fields_not_looked_at(void)
{
    for (size_t i = 0; i < FORWARD; i++) {
        ladder l = filled(forward[i].function, forward[i].v, forward[i].x);
        gozhnerim_ladder s = l.held;

        s.value_below = mark(1);
        s.value_top = -s.value_top;
        memset(s.reserved, 0xff, sizeof s.reserved);
        s.below_zero *= 0x80000000u;
        CHECK(gives_for_rungs(s, &l.t, 0) && gives(s, &l.t, s.n, s.n, SHORT));
        l.t.derivatives[0] = l.t.values[s.n] = -1e9;
        CHECK(gives_for_rungs(s, &l.t, DIFFERS));
    }
}

/* A state whose function, side, x or f is another has other rungs. */
static void states_of_others(void)
{
    ladder l = filled(V, -3.25, 1.5);
    gozhnerim_ladder s[5] = {l.held, l.held, l.held, l.held, l.held};

    s[0].function = D;
    s[0].below_zero = 0;
    s[1].x = nextafter(s[1].x, 2.0);
    s[2].x = -s[2].x;
    s[3].f -= 1e-9;
    s[4].f = -s[4].f;
    for (int i = 0; i < 5; i++) {
        CHECK(gives_for_rungs(s[i], &l.t, DIFFERS));
    }
    /* fewer rungs of the same sequence are all there, and one more is not */
    l.held.n = 2;
    CHECK(gives_for_rungs(l.held, &l.t, 0));
    l.held.n = 5;
    CHECK(gives_for_rungs(l.held, &l.t, DIFFERS) && gives(l.held, &l.t, 5, 5, SHORT));
}

/* Refusal 6, whatever the tables hold and however long they are. */
static void not_read(gozhnerim_ladder s, const tables *t)
{
    CHECK(gives(s, t, SLOTS, SLOTS, EMPTY_OR_NOT_FORWARD) && gives(s, t, 0, 0, EMPTY_OR_NOT_FORWARD));
    CHECK(gives(s, t, 1, 0, EMPTY_OR_NOT_FORWARD) && gives(s, t, 0, 1, EMPTY_OR_NOT_FORWARD));
}

/*
 * States that count as empty, with tables that hold all rungs of the state before the change: one whose branch runs
 * forward for V too.
 */
static void empty_states(void)
{
    static const uint32_t functions[] = {0, 3, 0xffffffffu};
    /* the last two: the lower 16 bits are the n that is held, 3, and 0xffff */
    static const uint32_t tops[] = {0, 1001, 65535, 65536, 0x10003, 0xffffffffu};
    static const double fractions[] = {1.0, -1.0, 1.5, INFINITY, -INFINITY, NAN};
    ladder l = filled(D, 2.5, -1.5);
    gozhnerim_ladder s;

    not_read(gozhnerim_empty_ladder(), &l.t);
    for (int i = 0; i < 3; i++) {
        s = l.held;
        s.function = functions[i];
        not_read(s, &l.t);
    }
    CHECK(l.held.n == 3);
    for (int i = 0; i < 6; i++) {
        s = l.held;
        s.n = tops[i];
        not_read(s, &l.t);
    }
    for (int i = 0; i < 6; i++) {
        s = l.held;
        s.f = fractions[i];
        not_read(s, &l.t);
    }
    s = l.held;
    s.x = -NAN;
    not_read(s, &l.t);
}

/* Branches that run downward or scaled, with the rungs of their own requests. */
static void not_forward(void)
{
    static const double d[][2] = {{-2.5, 5e-324}, {-2.5, 2.0}, {-2.0, 2.5}, {-0.5, INFINITY}};
    static const double v[][2] = {{2.5, -0.0}, {0.0, 0.0}, {2.5, 7.5}, {2.5, 8.0}, {2.5, 20.0}, {2.25, -3.0}};

    for (int i = 0; i < 4; i++) {
        ladder l = filled(D, d[i][0], d[i][1]);
        not_read(l.held, &l.t);
    }
    for (int i = 0; i < 6; i++) {
        ladder l = filled(V, v[i][0], v[i][1]);
        not_read(l.held, &l.t);
    }
}

/*
 * Where the branches end. A state that runs forward is refused by 3 where no slot is lent and by 7 where other rungs
 * are, and any other by 6.
 */
static void limits_of_forward(void)
{
    static const gozhnerim_ladder states[] = {
        {D, 0, 1, {0, 0, 0}, INFINITY, 0.0, 0.0, 0.0}, {D, 0, 1000, {0, 0, 0}, -INFINITY, -0.0, 0.0, 0.0},
        {D, 1, 1, {0, 0, 0}, -0.0, -0.5, 0.0, 0.0}, {D, 1, 1, {0, 0, 0}, 5e-324, -0.5, 0.0, 0.0},
        {V, 1, 1, {0, 0, 0}, INFINITY, -0.5, 0.0, 0.0}, {V, 1, 1000, {0, 0, 0}, -0.0, -0.0, 0.0, 0.0},
        {V, 0, 1, {0, 0, 0}, -0.0, 0.5, 0.0, 0.0}, {V, 0, 1, {0, 0, 0}, -5e-324, 0.5, 0.0, 0.0},
        /* n + f is 50 = 10 * 10 / 2, rounded to it, and the next above it; then x is the next below -10 */
        {V, 0, 50, {0, 0, 0}, -10.0, 0.0, 0.0, 0.0}, {V, 0, 50, {0, 0, 0}, -10.0, 3.5e-15, 0.0, 0.0},
        {V, 0, 50, {0, 0, 0}, -10.0, 7.2e-15, 0.0, 0.0}, {V, 0, 50, {0, 0, 0}, -10.000000000000002, 0.0, 0.0, 0.0},
        /* a fraction of the other sign, as no call hands it out: n + f is 49.5 */
        {V, 0, 50, {0, 0, 0}, -9.9, -0.5, 0.0, 0.0}, {V, 0, 50, {0, 0, 0}, -9.96, -0.5, 0.0, 0.0},
        /* below_zero above 1 counts as 1 */
        {V, 2, 50, {0, 0, 0}, -10.0, 0.0, 0.0, 0.0}, {D, 2, 50, {0, 0, 0}, 10.0, 0.0, 0.0, 0.0},
    };
    static const uint32_t due[] = {3, 3, 3, 6, 3, 3, 6, 3, 6, 6, 3, 3, 3, 6, 3, 6};
    tables t;

    for (size_t i = 0; i < SLOTS; i++) {
        t.values[i] = t.derivatives[i] = 1e9;
    }
    for (size_t i = 0; i < sizeof due / sizeof due[0]; i++) {
        CHECK(gives(states[i], &t, 0, 0, due[i]));
        CHECK(gives(states[i], &t, SLOTS, SLOTS, due[i] == SHORT ? DIFFERS : EMPTY_OR_NOT_FORWARD));
    }
}

void tested_reader_tests(void)
{
    accepted_and_short();
    damaged_rungs();
    zeros();
    all_rungs_others();
    own_rung_two();
    fields_not_looked_at();
    states_of_others();
    empty_states();
    not_forward();
    limits_of_forward();
}
