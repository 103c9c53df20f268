/*
 * The ladder's calls: a list of requests on one ladder, held against the table calls and the ladder machine written by
 * hand, and states of any content. Compiled with tests/interface.c.
 */
#include "checks.h"

static int same_state(gozhnerim_ladder a, gozhnerim_ladder b)
{
    return a.function == b.function && a.below_zero == b.below_zero && a.n == b.n
        && memcmp(a.reserved, b.reserved, sizeof a.reserved) == 0 && same(a.x, b.x) && same(a.f, b.f)
        && same(a.value_below, b.value_below) && same(a.value_top, b.value_top);
}

static int refused_reply(gozhnerim_reply r, gozhnerim_ladder held, uint32_t number)
{
    return r.refusal == number && r.written == 0 && isnan(r.value) && isnan(r.derivative)
        && same_state(r.ladder, held);
}

/* A request, the lengths lent, and what the ladder machine says of it: written by hand. */
typedef struct {
    uint32_t function;
    double v, x;
    size_t values_len, derivatives_len;
    uint32_t refusal, n, written;
} request;

static gozhnerim_reply ask(gozhnerim_ladder held, const request *q, tables *t)
{
    return (q->function == D ? gozhnerim_ladder_d : gozhnerim_ladder_v)(
        held, q->v, q->x, t->values, q->values_len, t->derivatives, q->derivatives_len);
}

/* The state after an accepted request, by the table call's slots. */
static gozhnerim_ladder holding(const request *q, const double *table)
{
    double u = q->v < 0.0 ? q->v - 1.0 : q->v + 1.0;
    gozhnerim_ladder s = {q->function, q->v < 0.0, q->n, {0, 0, 0}, q->x, u - trunc(u),
                          table[q->n - 1], table[q->n]};
    return s;
}

/* Slots `from` up to `to` hold what `due` has there, all others what `found` has. */
static int just(const double *slots, const double *found, size_t from, size_t to, const double *due)
{
    for (size_t i = 0; i < SLOTS; i++) {
        if (!same(slots[i], from <= i && i < to ? due[i] : found[i])) {
            return 0;
        }
    }
    return 1;
}

/* Values from `first` on and derivatives from first - 1 on are the table call's, all else is as found. */
static int rungs_from(uint32_t first, const request *q, const double *table, const tables *t,
                      const tables *found)
{
    size_t num = (size_t)fabs(q->v) + 3;
    return just(t->values, found->values, first, q->n + 1, table)
        && just(t->derivatives, found->derivatives, first == 0 ? 0 : first - 1, q->n, table + num);
}

static gozhnerim_answer table_call(const request *q, double *table)
{
    return (q->function == D ? gozhnerim_d_table : gozhnerim_v_table)(q->v, q->x, table,
                                                                      GOZHNERIM_TABLE_SLOTS);
}

/* The case by the count written by hand. */
static uint32_t case_due(const request *q)
{
    if (q->refusal != 0) {
        return GOZHNERIM_REFUSED;
    }
    return q->written == 0 ? GOZHNERIM_REPEAT : q->written == q->n + 1 ? GOZHNERIM_START_OVER : GOZHNERIM_CLIMB;
}

/*
 * Makes a request twice: on the tables that the last one left, where then all rungs are the table call's,
 * and on tables full of marks, where just as many as the count says are. So the tested reader finds all rungs in
 * the first, and in the second after a start-over alone. Gives the next state.
 */
static gozhnerim_ladder check_request(gozhnerim_ladder held, const request *q, tables *lent)
{
    const tables marks = marked(), found = *lent;
    tables fresh = marks;
    double table[GOZHNERIM_TABLE_SLOTS];
    gozhnerim_reply r = ask(held, q, lent), again = ask(held, q, &fresh);

    CHECK(gozhnerim_case(r) == case_due(q) && gozhnerim_case(again) == case_due(q));
    if (q->refusal != 0) {
        CHECK(refused_reply(r, held, q->refusal) && refused_reply(again, held, q->refusal));
        CHECK(same_tables(lent, &found) && same_tables(&fresh, &marks));
        return r.ladder;
    }
    CHECK(answered(table_call(q, table), r.value, r.derivative));
    CHECK(r.refusal == 0 && r.written == q->written && same_state(r.ladder, holding(q, table)));
    CHECK(again.refusal == 0 && again.written == q->written && same_state(again.ladder, r.ladder));
    CHECK(same(again.value, r.value) && same(again.derivative, r.derivative));
    CHECK(rungs_from(0, q, table, lent, &found));
    CHECK(rungs_from(q->n + 1 - q->written, q, table, &fresh, &marks));
    CHECK(reads_as_due(r.ladder, lent, 1) && reads_as_due(r.ladder, &fresh, q->written == q->n + 1));
    return r.ladder;
}

static const request requests[] = {
    /* P11, P12 */
    {D, 2.0, 0.0, 6, 5, 0, 3, 4}, {D, 4.0, 0.0, 6, 5, 0, 5, 2}, {D, 4.0, 0.0, 6, 5, 0, 5, 0},
    {D, 2.0, 0.0, 6, 5, 0, 3, 4}, {D, 0.9999999999999999, 0.5, 3, 2, 0, 2, 3},
    /* D from 0 on climbs over refusals */
    {D, 2.25, 1.5, 12, 12, 0, 3, 4}, {D, 2.25, 1.5, 12, 12, 0, 3, 0}, {D, 2.25, 1.5, 3, 12, 3, 0, 0},
    {D, 5.25, 1.5, 7, 6, 0, 6, 3}, {D, NAN, 1.5, 12, 12, 1, 0, 0}, {D, 5.25, 1.5, 12, 12, 0, 6, 0},
    {V, 1000.0, 1.5, 12, 12, 2, 0, 0}, {D, 8.25, 1.5, 12, 12, 0, 9, 3}, {D, 3.25, 1.5, 12, 12, 0, 4, 5},
    /* V from 0 on runs downward at x = 1.5, and at x = 12 it is scaled: no climb */
    {V, 3.25, 1.5, 12, 12, 0, 4, 5}, {V, 4.25, 1.5, 12, 12, 0, 5, 6}, {V, 4.25, 1.5, 12, 12, 0, 5, 0},
    {V, 3.25, 12.0, 12, 12, 0, 4, 5}, {V, 5.25, 12.0, 12, 12, 0, 6, 7}, {V, 5.25, 12.0, 12, 12, 0, 6, 0},
    /* at x = -1.5 it runs forward */
    {V, 4.25, -1.5, 12, 12, 0, 5, 6}, {V, 7.25, -1.5, 12, 12, 0, 8, 3}, {V, 9.25, -1.5, 11, 9, 3, 0, 0},
    {V, 7.25, -1.5, 12, 12, 0, 8, 0}, {V, 9.25, -1.5, 11, 10, 0, 10, 2}, {D, 9.25, -1.5, 12, 12, 0, 10, 11},
    /* at x = -3 it runs forward where n + f is above 4.5: the held branch tells */
    {V, 2.25, -3.0, 12, 12, 0, 3, 4}, {V, 5.25, -3.0, 12, 12, 0, 6, 7}, {V, 7.25, -3.0, 12, 12, 0, 8, 2},
    /* V below 0 climbs over refusals */
    {V, -3.25, 1.5, 12, 12, 0, 4, 5}, {V, -6.25, 1.5, 12, 12, 0, 7, 3}, {V, -7.25, NAN, 12, 12, 1, 0, 0},
    {D, -INFINITY, 1.5, 12, 12, 2, 0, 0}, {V, -6.25, 1.5, 7, 12, 3, 0, 0}, {V, -6.25, 1.5, 8, 7, 0, 7, 0},
    {V, -9.25, 1.5, 12, 12, 0, 10, 3}, {V, -5.25, 1.5, 12, 12, 0, 6, 7},
    /* D below 0 runs forward at x <= 0, downward at x = 1.5, and at x = 2.5 it is scaled */
    {D, -5.25, -1.5, 12, 12, 0, 6, 7}, {D, -8.25, -1.5, 12, 12, 0, 9, 3}, {D, -9.25, -1.5, 12, 9, 3, 0, 0},
    {D, -9.25, -1.5, 12, 12, 0, 10, 1}, {D, -3.25, 1.5, 12, 12, 0, 4, 5}, {D, -5.25, 1.5, 12, 12, 0, 6, 7},
    {D, -3.25, 2.5, 12, 12, 0, 4, 5}, {D, -5.25, 2.5, 12, 12, 0, 6, 7}, {D, -5.25, 2.5, 12, 12, 0, 6, 0},
    /* no climb from n = 1 (there V's table call at f = 0 also writes value 2); -0.0 is not below 0 */
    {V, -1e-20, 0.5, 12, 12, 0, 1, 2}, {V, -1.0, 0.5, 12, 12, 0, 2, 3}, {V, -3.0, 0.5, 12, 12, 0, 4, 2},
    {D, 0.0, 0.5, 12, 12, 0, 1, 2}, {D, -0.0, 0.5, 12, 12, 0, 1, 0}, {D, 1.0, 0.5, 12, 12, 0, 2, 3},
    /* the other side, then the other zero, at the same n and f */
    {D, 2.0, 0.0, 12, 12, 0, 3, 4}, {D, -2.0, 0.0, 12, 12, 0, 3, 4}, {D, -2.0, -0.0, 12, 12, 0, 3, 4},
};

enum { REQUESTS = sizeof requests / sizeof requests[0] };

/* One ladder: each request is given the state and the tables that the one before left. */
static void list_of_requests(void)
{
    tables lent = marked();
    gozhnerim_ladder held = gozhnerim_empty_ladder();

    for (size_t i = 0; i < REQUESTS; i++) {
        int before = failures;
        held = check_request(held, &requests[i], &lent);
        if (failures != before) {
            printf("  request %d of the list\n", (int)i + 1);
        }
    }
}

/* Climbs by 9 rungs at a time. D from 0 on and V below 0 overflow above n = 290. */
static void long_climb(uint32_t function, double side, double x, uint32_t top)
{
    tables lent = marked();
    gozhnerim_ladder held = gozhnerim_empty_ladder();

    for (uint32_t n = 1; n <= top; n += 9) {
        request q = {function, side * (n - 0.75), x, SLOTS, SLOTS, 0, n, n <= 10 ? n + 1 : 9};
        held = check_request(held, &q, &lent);
    }
}

/* P11's pairs. */
static void ladder_example(void)
{
    static const double values[4] = {-1.0, 3.0, 3.0, -1.0};
    tables t = marked();
    gozhnerim_ladder held = gozhnerim_empty_ladder();

    for (int i = 0; i < 4; i++) {
        gozhnerim_reply r = ask(held, &requests[i], &t);
        CHECK(same(r.value, values[i]) && same(r.derivative, 0.0));
        held = r.ladder;
    }
}

/* Rung k from the two below it, on the state's branch: each operation as it is defined. */
static double step(gozhnerim_ladder s, double k, double low, double high)
{
    if (s.function == D) {
        return s.below_zero ? (-s.x * high + low) / (k - 1.0 - s.f) : s.x * high - (k + s.f - 1.0) * low;
    }
    return s.below_zero ? s.x * high + (k - s.f - 2.0) * low : (s.x * high - low) / (k + s.f);
}

/* The derivative of rung k, from its value and that of the rung above it. */
static double slope(gozhnerim_ladder s, double k, double low, double high)
{
    if (s.function == D) {
        return s.below_zero ? -0.5 * s.x * low - (fabs(s.f) + k) * high : 0.5 * s.x * low - high;
    }
    return s.below_zero ? -0.5 * s.x * low + high : 0.5 * s.x * low - (s.f + k + 1.0) * high;
}

/* A request for rungs up to n on the state, with tables full of marks. */
static void check_state(gozhnerim_ladder s, uint32_t n)
{
    tables t = marked(), due = t;
    gozhnerim_ladder next = s;
    double v = s.below_zero ? s.f - (n - 1.0) : s.f + (n - 1.0);
    request q = {s.function, v, s.x, SLOTS, SLOTS, 0, n, n - s.n};
    gozhnerim_reply r = ask(s, &q, &t);

    for (; next.n < n; next.n++) {
        double rung = step(s, next.n + 1.0, next.value_below, next.value_top);
        due.values[next.n + 1] = rung;
        due.derivatives[next.n] = slope(s, next.n, next.value_top, rung);
        next.value_below = next.value_top;
        next.value_top = rung;
    }
    CHECK(r.refusal == 0 && r.written == q.written && same_state(r.ladder, next) && same_tables(&t, &due));
    CHECK(same(r.value, next.value_below));
    CHECK(same(r.derivative, slope(s, n - 1.0, next.value_below, next.value_top)));
}

/* States with two values that no call gave: a climb and a repeat go on from them. */
static void own_values(void)
{
    static const gozhnerim_ladder states[] = {
        {D, 0, 3, {0, 0, 0}, 1.7, 0.375, 5.1, -7.3},
        {D, 1, 4, {0, 0, 0}, -1.7, -0.375, 5.1, -7.3},
        {V, 1, 3, {0, 0, 0}, 1.7, -0.375, 5.1, -7.3},
        {V, 1, 2, {0, 0, 0}, -1.7, 0.0, 5.1, -7.3},
        {V, 0, 4, {0, 0, 0}, -1.7, 0.375, 5.1, -7.3},
        /* these two run downward: no climb */
        {D, 1, 4, {0, 0, 0}, 1.7, -0.375, 5.1, -7.3},
        {V, 0, 4, {0, 0, 0}, 1.7, 0.375, 5.1, -7.3},
    };

    for (int i = 0; i < 7; i++) {
        check_state(states[i], states[i].n);
        if (i < 5) {
            check_state(states[i], states[i].n + 5);
        }
    }
}

/* A state with bits in every field that no call hands out. */
static gozhnerim_ladder odd_state(void)
{
    gozhnerim_ladder s = {7, 5, 4000000000u, {1, 0xffffffffu, 3}, of_bits(0x7ff8000000000123u),
                          of_bits(0xfff4000000000001u), -0.0, of_bits(0x7ff0000000000badu)};
    return s;
}

static void odd_states(void)
{
    tables t = marked();
    request q = {V, -2.25, 1.0, 8, 8, 0, 3, 4};
    gozhnerim_ladder held = odd_state();

    for (size_t i = 0; i < REQUESTS; i++) {
        if (requests[i].refusal != 0) {
            check_request(held, &requests[i], &t);
        }
    }
    CHECK(refused_reply(gozhnerim_ladder_d(held, 2.0, 0.0, NULL, 0, NULL, 0), held, GOZHNERIM_TABLE_SHORT));
    held = check_request(held, &q, &t);

    /* unknown functions are empty, also where all else fits the request */
    for (uint32_t function = 0; function < 5; function++) {
        held.function = function;
        q.written = function == V ? 0 : 4;
        check_request(held, &q, &t);
    }

    /* below_zero above 1 counts as 1, and no request looks at reserved */
    held.function = V;
    held.below_zero = 5;
    held.reserved[1] = 0xffffffffu;
    q.written = 0;
    check_request(held, &q, &t);
    q.v = -4.25;
    q.n = 5;
    q.written = 2;
    check_request(held, &q, &t);

    /* n above 1000 is empty, also where its lower 16 bits are an n that the request repeats or climbs from */
    q.written = 6;
    for (uint32_t high = 0x10000u; high != 0; high <<= 1) {
        held.n = 5 + high;
        check_request(held, &q, &t);
        held.n = 3 + high;
        check_request(held, &q, &t);
        CHECK(refused_reply(gozhnerim_ladder_v(held, q.v, q.x, NULL, 0, NULL, 0), held, GOZHNERIM_TABLE_SHORT));
    }
}

void ladder_tests(void)
{
    list_of_requests();
    long_climb(D, 1.0, 2.0, 280);
    long_climb(D, -1.0, -2.0, 1000);
    long_climb(V, 1.0, -2.0, 1000);
    long_climb(V, -1.0, 2.0, 280);
    ladder_example();
    own_values();
    odd_states();
}
