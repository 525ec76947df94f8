/* The caption box in C, tried on the linked library: a new box, points, zeros, refusals, and boxes with any contents.
 * Prints what failed and then one line; the exit status is 0 where nothing failed. */
#include "../a5.h"
#include "check.h"
#include <math.h>
#include <string.h>

#define CHECK_BOX(ok) CHECK(ok, "a box")

/* Bit for bit, as far as C shows a struct: its padding is nobody's. */
static int same(a5_box b, a5_box c) {
    return memcmp(&b.least_x, &c.least_x, 4 * sizeof(double)) == 0 && b.empty == c.empty;
}

static a5_box box_of(double least_x, double greatest_x, double least_y, double greatest_y, bool empty) {
    a5_box b;
    memset(&b, 0, sizeof b);
    b.least_x = least_x;
    b.greatest_x = greatest_x;
    b.least_y = least_y;
    b.greatest_y = greatest_y;
    b.empty = empty;
    return b;
}

static void takes(a5_box before, double x, double y, a5_box after) {
    CHECK_BOX(a5_box_take(&before, x, y) == A5_ANSWERED);
    CHECK_BOX(same(before, after));
}

static void refuses(a5_box before, double x, double y, uint8_t number) {
    a5_box b = before;
    CHECK_BOX(a5_box_take(&b, x, y) == number);
    CHECK_BOX(same(b, before));
}

static void new_boxes(void) {
    a5_box b = box_of(NAN, 7.5, -INFINITY, -0.0, false);
    a5_box_new(&b);
    CHECK_BOX(same(b, box_of(0.0, 0.0, 0.0, 0.0, true)));
}

static void points(void) {
    a5_box filled = box_of(-1.0, 2.0, -3.0, 4.0, false);
    takes(box_of(7.5, NAN, -7.5, INFINITY, true), -4.0, 3.25, box_of(-4.0, -4.0, 3.25, 3.25, false));
    takes(filled, 0.0, 0.0, filled);
    takes(filled, -1.0, 4.0, filled);
    takes(filled, -1.5, 0.0, box_of(-1.5, 2.0, -3.0, 4.0, false));
    takes(filled, 2.5, 0.0, box_of(-1.0, 2.5, -3.0, 4.0, false));
    takes(filled, 0.0, -3.5, box_of(-1.0, 2.0, -3.5, 4.0, false));
    takes(box_of(-1.0, 2.0, -3.0, 3.0, false), 0.0, 4.0, box_of(-1.0, 2.0, -3.0, 4.0, false));
    /* a box that no points make, its least side above the greatest: one point moves both */
    takes(box_of(1.0, -1.0, 0.0, 0.0, false), 0.0, 0.0, box_of(0.0, 0.0, 0.0, 0.0, false));
}

static void zeros_and_nan(void) {
    a5_box plus = box_of(0.0, 0.0, 0.0, 0.0, false), minus = box_of(-0.0, -0.0, -0.0, -0.0, false);
    a5_box no_numbers = box_of(NAN, NAN, NAN, NAN, false);
    takes(plus, -0.0, -0.0, plus);
    takes(minus, 0.0, 0.0, minus);
    takes(no_numbers, 1.0, -1.0, no_numbers);
}

static void refusals(void) {
    const a5_box boxes[] = {box_of(0.0, 0.0, 0.0, 0.0, true), box_of(NAN, 1.0, -INFINITY, -0.0, true),
                            box_of(-1.0, 2.0, -3.0, 4.0, false), box_of(NAN, NAN, INFINITY, -INFINITY, false)};
    const double next = nextafter(A5_FACE_LIMIT, 5.0);
    for (size_t i = 0; i < sizeof boxes / sizeof *boxes; i++) {
        refuses(boxes[i], NAN, 0.0, A5_REFUSED_NOT_FINITE);
        refuses(boxes[i], INFINITY, 0.0, A5_REFUSED_NOT_FINITE);
        refuses(boxes[i], 0.0, -INFINITY, A5_REFUSED_NOT_FINITE);
        refuses(boxes[i], next, 0.0, A5_REFUSED_OUT_OF_RANGE);
        refuses(boxes[i], 0.0, -next, A5_REFUSED_OUT_OF_RANGE);
        /* x is tried for both before y */
        refuses(boxes[i], next, NAN, A5_REFUSED_OUT_OF_RANGE);
        refuses(boxes[i], NAN, next, A5_REFUSED_NOT_FINITE);
    }
}

int main(void) {
    new_boxes();
    points();
    zeros_and_nan();
    refusals();
    return finished("bindings/c/boxes");
}
