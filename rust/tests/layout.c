/*
 * Prints size and field offsets of each struct of include/gozhnerim.h, a line a struct. The package's tests hold its own
 * declarations to it.
 */
#include <stdio.h>
#include "gozhnerim.h"

#define STRUCT(type) printf("%s %zu", #type, sizeof(type))
#define FIELD(type, field) printf(" %s %zu", #field, offsetof(type, field))

int main(void)
{
    STRUCT(gozhnerim_order);
    FIELD(gozhnerim_order, refusal);
    FIELD(gozhnerim_order, below_zero);
    FIELD(gozhnerim_order, n);
    FIELD(gozhnerim_order, num);
    FIELD(gozhnerim_order, table_slots);
    FIELD(gozhnerim_order, value_slots);
    FIELD(gozhnerim_order, derivative_slots);
    FIELD(gozhnerim_order, f);
    printf("\n");

    STRUCT(gozhnerim_answer);
    FIELD(gozhnerim_answer, refusal);
    FIELD(gozhnerim_answer, value);
    FIELD(gozhnerim_answer, derivative);
    printf("\n");

    STRUCT(gozhnerim_ladder);
    FIELD(gozhnerim_ladder, function);
    FIELD(gozhnerim_ladder, below_zero);
    FIELD(gozhnerim_ladder, n);
    FIELD(gozhnerim_ladder, reserved);
    FIELD(gozhnerim_ladder, x);
    FIELD(gozhnerim_ladder, f);
    FIELD(gozhnerim_ladder, value_below);
    FIELD(gozhnerim_ladder, value_top);
    printf("\n");

    STRUCT(gozhnerim_reply);
    FIELD(gozhnerim_reply, ladder);
    FIELD(gozhnerim_reply, refusal);
    FIELD(gozhnerim_reply, written);
    FIELD(gozhnerim_reply, value);
    FIELD(gozhnerim_reply, derivative);
    printf("\n");

    STRUCT(gozhnerim_part);
    FIELD(gozhnerim_part, refusal);
    FIELD(gozhnerim_part, length);
    printf("\n");
    return 0;
}
