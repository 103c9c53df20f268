/*
 * Calls each function of include/gozhnerim.h: here the scope paper's examples P5 to P10 and the refusals of the calls
 * that hold nothing, the ladder's in tests/ladder.c and the tested reader's in tests/tested_reader.c. Compiled as C and
 * as C++ by tests/run.
 */
#include "checks.h"

int failures = 0;

static int near(double a, double b)
{
    return fabs(a - b) <= 1e-13 * fabs(b);
}

static int refused(gozhnerim_answer a, uint32_t number)
{
    return a.refusal == number && isnan(a.value) && isnan(a.derivative);
}

static void table_examples(void)
{
    double t[GOZHNERIM_TABLE_SLOTS + 1];

    fill(t, 8); /* P5: 6 slots do, 5 give 3 */
    CHECK(refused(gozhnerim_d_table(0.0, 0.0, t, 5), GOZHNERIM_TABLE_SHORT));
    CHECK(untouched(t, 0, 8));
    CHECK(answered(gozhnerim_d_table(0.0, 0.0, t, 6), 1.0, 0.0));
    CHECK(same(t[0], 1.0) && same(t[3], 0.0));
    CHECK(untouched(t, 2, 3) && untouched(t, 4, 8));

    fill(t, 8); /* P6 */
    CHECK(answered(gozhnerim_d_table(1.0, 0.0, t, 8), 0.0, 1.0));

    fill(t, 12); /* P7: all slots of the values, one of them not named */
    CHECK(answered(gozhnerim_d_table(2.0, 0.0, t, 12), -1.0, 0.0));
    CHECK(same(t[0], 1.0) && same(t[1], 0.0) && same(t[2], -1.0) && same(t[3], -0.0));
    CHECK(untouched(t, 4, 5) && untouched(t, 8, 12));

    fill(t, 8); /* P8 */
    CHECK(answered(gozhnerim_v_table(-1.0, 0.0, t, 8), 0.7978845608028654, 0.0));

    fill(t, GOZHNERIM_TABLE_SLOTS + 1); /* P9, P10 */
    CHECK(refused(gozhnerim_d_table(1000.0, 0.0, t, GOZHNERIM_TABLE_SLOTS + 1), GOZHNERIM_ORDER_SIZE));
    CHECK(refused(gozhnerim_v_table(-1000.0, 0.0, t, GOZHNERIM_TABLE_SLOTS + 1), GOZHNERIM_ORDER_SIZE));
    CHECK(refused(gozhnerim_d_table(999.5, 0.0, t, 2003), GOZHNERIM_TABLE_SHORT));
    CHECK(refused(gozhnerim_v_table(999.5, 0.0, t, 2003), GOZHNERIM_TABLE_SHORT));
    CHECK(untouched(t, 0, GOZHNERIM_TABLE_SLOTS + 1));
    CHECK(gozhnerim_d_table(999.5, 0.0, t, 2004).refusal == GOZHNERIM_ANSWERED);
    CHECK(untouched(t, 1001, 1002) && untouched(t, 2002, GOZHNERIM_TABLE_SLOTS + 1));
}

static void table_refusals(void)
{
    double t[6];

    fill(t, 6);
    CHECK(refused(gozhnerim_d_table(NAN, 0.0, t, 6), GOZHNERIM_NAN));
    CHECK(refused(gozhnerim_v_table(0.0, NAN, t, 6), GOZHNERIM_NAN));
    CHECK(refused(gozhnerim_v_table(INFINITY, NAN, t, 0), GOZHNERIM_NAN));
    CHECK(refused(gozhnerim_d_table(INFINITY, 0.0, t, 0), GOZHNERIM_ORDER_SIZE));
    CHECK(refused(gozhnerim_d_table(0.0, 0.0, NULL, 0), GOZHNERIM_TABLE_SHORT));
    CHECK(refused(gozhnerim_v_table(0.0, 0.0, NULL, 0), GOZHNERIM_TABLE_SHORT));
    CHECK(untouched(t, 0, 6));
    CHECK(gozhnerim_d_table(0.0, INFINITY, t, 6).refusal == GOZHNERIM_ANSWERED);
}

/* The numbers of the expansion were worked out with 40 digits. */
static void off_the_path(void)
{
    gozhnerim_answer a = gozhnerim_d_expansion(-25.0, 3.0);
    CHECK(a.refusal == 0 && near(a.value, 1.773775869714530987e-19) && near(a.derivative, -9.1995220915901115739e-19));
    CHECK(refused(gozhnerim_d_expansion(-25.0, NAN), GOZHNERIM_NAN));
    CHECK(refused(gozhnerim_d_expansion(-19.5, 3.0), GOZHNERIM_ORDER_RANGE));
    CHECK(refused(gozhnerim_d_expansion(-2147483648.0, INFINITY), GOZHNERIM_ORDER_RANGE));
    CHECK(refused(gozhnerim_d_expansion(-25.0, -INFINITY), GOZHNERIM_INFINITE));

    /* with a = -1/2 it is D of order 0: exp(-x*x/4) */
    a = gozhnerim_maclaurin(-0.5, 0.5, 1.0, 0.0, 0.0);
    CHECK(a.refusal == 0 && near(a.value, exp(-0.0625)) && near(a.derivative, -0.25 * exp(-0.0625)));
    CHECK(refused(gozhnerim_maclaurin(-0.5, 0.5, 1.0, 0.0, NAN), GOZHNERIM_NAN));
    CHECK(refused(gozhnerim_maclaurin(-0.5, 0.5, INFINITY, 0.0, 0.0), GOZHNERIM_INFINITE));
}

static int splits(double v, uint32_t below_zero, uint32_t n, uint32_t num, double f)
{
    gozhnerim_order o = gozhnerim_split(v);
    return o.refusal == 0 && o.below_zero == below_zero && o.n == n && o.num == num && o.table_slots == 2 * num
        && o.value_slots == n + 1 && o.derivative_slots == n && same(o.f, f);
}

static int split_refused(double v, uint32_t number)
{
    gozhnerim_order o = gozhnerim_split(v);
    return o.refusal == number && o.below_zero == 0 && o.n == 0 && o.num == 0 && o.table_slots == 0
        && o.value_slots == 0 && o.derivative_slots == 0 && isnan(o.f);
}

/* What an order needs, at its limits; with one slot less the table call gives 3. */
static void split(void)
{
    static const double orders[] = {0.0, -0.0, 0.25, 7.5, -7.5, 255.9, 999.5, -999.5};
    double t[GOZHNERIM_TABLE_SLOTS];

    CHECK(splits(0.0, 0, 1, 3, 0.0) && splits(-0.0, 0, 1, 3, 0.0));
    CHECK(splits(2.5, 0, 3, 5, 0.5) && splits(-2.5, 1, 3, 5, -0.5));
    /* v + 1 and v - 1 are rounded: to 2 and to -1 */
    CHECK(splits(0.9999999999999999, 0, 2, 3, 0.0));
    CHECK(splits(-1e-20, 1, 1, 3, 0.0));
    /* the last orders that are taken */
    CHECK(splits(999.0, 0, 1000, 1002, 0.0));
    CHECK(splits(nextafter(1000.0, 0.0), 0, 1000, 1002, 1.0 - 1.1368683772161603e-13));
    CHECK(split_refused(1000.0, GOZHNERIM_ORDER_SIZE) && split_refused(-1000.0, GOZHNERIM_ORDER_SIZE));
    CHECK(split_refused(-INFINITY, GOZHNERIM_ORDER_SIZE) && split_refused(NAN, GOZHNERIM_NAN));

    for (size_t i = 0; i < sizeof orders / sizeof orders[0]; i++) {
        double v = orders[i];
        size_t slots = gozhnerim_split(v).table_slots;
        CHECK(gozhnerim_d_table(v, 1.0, t, slots).refusal == GOZHNERIM_ANSWERED);
        CHECK(gozhnerim_d_table(v, 1.0, t, slots - 1).refusal == GOZHNERIM_TABLE_SHORT);
    }
}

static void column(void)
{
    double values[4], derivatives[3];

    fill(values, 4);
    fill(derivatives, 3);
    CHECK(gozhnerim_column(values, 4, derivatives, 3, GOZHNERIM_VALUES, 4) == 4);
    CHECK(gozhnerim_column(values, 4, derivatives, 3, GOZHNERIM_VALUES, 5) == 0);
    CHECK(gozhnerim_column(values, 4, derivatives, 3, GOZHNERIM_DERIVATIVES, 3) == 3);
    CHECK(gozhnerim_column(values, 4, derivatives, 3, GOZHNERIM_DERIVATIVES, 4) == 0);
    CHECK(gozhnerim_column(values, 4, derivatives, 3, 0, 1) == 0);
    CHECK(gozhnerim_column(values, 4, derivatives, 3, 3, 1) == 0);
    CHECK(gozhnerim_column(NULL, 0, NULL, 0, GOZHNERIM_VALUES, 0) == 0);
    CHECK(gozhnerim_column(NULL, 0, NULL, 0, GOZHNERIM_VALUES, 1) == 0);
    CHECK(untouched(values, 0, 4) && untouched(derivatives, 0, 3));
}

int main(void)
{
    CHECK(gozhnerim_version() == GOZHNERIM_VERSION);
    table_examples();
    table_refusals();
    off_the_path();
    split();
    column();
    ladder_tests();
    tested_reader_tests();
    printf("C interface: %d failures\n", failures);
    return failures != 0;
}
