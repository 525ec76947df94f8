/* A window of strikes in C: its size and alignment, what is kept and counted against a list of all accepted strikes, the
 * refusals in their order, which leave every byte, and any contents. Prints what failed and then one line; the exit
 * status is 0 where nothing failed. */
#include "../a5.h"
#include "check.h"
#include <stdalign.h>
#include <string.h>

_Static_assert(sizeof(a5_window) == 20540, "a5.h says so");
_Static_assert(alignof(a5_window) == 4, "a5.h says so");
_Static_assert(offsetof(a5_window, origins) == 16384, "no padding");
_Static_assert(offsetof(a5_window, counts) == 20480, "no padding");
_Static_assert(offsetof(a5_window, state) == 20528, "no padding");

/* A window with bytes behind it that no call may touch. */
static struct {
    a5_window window;
    uint8_t behind[64];
} lent, before;

static void fill(uint8_t byte) {
    memset(&lent, byte, sizeof lent);
}

static void keep(void) {
    before = lent;
}

static int is_as_it_was(void) {
    return memcmp(&lent, &before, sizeof lent) == 0;
}

/* ---- what was accepted, as a plain list */

enum { ADDITIONS = 60000 };
static struct {
    uint32_t minute;
    uint8_t origin;
} accepted[ADDITIONS];
static size_t how_many;

/* From the last on, as their minutes never go down. */
static size_t remaining(uint32_t minute) {
    size_t n = 0;
    while (n < how_many && minute - accepted[how_many - 1 - n].minute < A5_WINDOW_MINUTES)
        n++;
    return n;
}

static uint8_t expected(uint32_t minute, uint8_t origin) {
    if (origin > 11)
        return A5_REFUSED_UNKNOWN_ORIGIN;
    if (how_many > 0 && minute < accepted[how_many - 1].minute)
        return A5_REFUSED_EARLIER_MINUTE;
    return remaining(minute) < A5_WINDOW_MOST ? A5_ANSWERED : A5_REFUSED_WINDOW_FULL;
}

static void counts_are_right(const char *name) {
    uint32_t counts[A5_ORIGINS + 1], wanted[A5_ORIGINS] = {0}, sum = 0;
    counts[A5_ORIGINS] = 77;
    keep();
    a5_window_counts(&lent.window, counts);
    size_t kept = how_many == 0 ? 0 : remaining(accepted[how_many - 1].minute);
    for (size_t i = 0; i < kept; i++)
        wanted[accepted[how_many - 1 - i].origin]++;
    for (int k = 0; k < A5_ORIGINS; k++)
        sum += counts[k];
    CHECK(memcmp(counts, wanted, sizeof wanted) == 0 && counts[A5_ORIGINS] == 77, name);
    CHECK(a5_window_kept(&lent.window) == kept && sum == kept, name);
    CHECK(is_as_it_was(), name);
}

static uint8_t add(uint32_t minute, uint8_t origin, const char *name) {
    uint8_t wanted = expected(minute, origin);
    keep();
    uint8_t given = a5_window_add(&lent.window, minute, origin);
    CHECK(given == wanted, name);
    CHECK(memcmp(lent.behind, before.behind, sizeof lent.behind) == 0, name);
    if (given != A5_ANSWERED)
        CHECK(is_as_it_was(), name);
    else if (how_many < ADDITIONS)
        accepted[how_many].minute = minute, accepted[how_many++].origin = origin;
    return given;
}

static void renew(uint8_t byte) {
    fill(byte);
    a5_window_new(&lent.window);
    how_many = 0;
}

/* ---- the tests */

static void a_new_window(void) {
    a5_window zeros;
    memset(&zeros, 0, sizeof zeros);
    renew(0xa5);
    CHECK(memcmp(&lent.window, &zeros, sizeof zeros) == 0, "new");
    CHECK(lent.behind[0] == 0xa5, "behind a new one");
    counts_are_right("new");
}

static void fill_and_refuse(void) {
    renew(0xff);
    for (int i = 0; i < A5_WINDOW_MOST; i++)
        CHECK(add(0, (uint8_t)(i % 12), "one minute") == A5_ANSWERED, "one minute");
    counts_are_right("full");
    CHECK(add(0, 12, "order") == A5_REFUSED_UNKNOWN_ORIGIN, "order");
    CHECK(add(179, 0, "179") == A5_REFUSED_WINDOW_FULL, "179");
    CHECK(add(180, 5, "180") == A5_ANSWERED, "180");
    counts_are_right("alone");
    CHECK(add(179, 0, "earlier") == A5_REFUSED_EARLIER_MINUTE, "earlier");
    CHECK(add(179, 255, "order") == A5_REFUSED_UNKNOWN_ORIGIN, "order");
    CHECK(add(UINT32_MAX - 179, 1, "late") == A5_ANSWERED, "late");
    CHECK(add(UINT32_MAX, 2, "last") == A5_ANSWERED, "last");
    counts_are_right("last");
}

/* Minutes go on by 0, 1 and at times 200, so that the ring goes round, is full and is emptied. */
static void a_long_list(void) {
    uint64_t seed = 1;
    uint32_t last = 0;
    renew(0x3c);
    for (int i = 0; i < ADDITIONS; i++) {
        seed = seed * 6364136223846793005u + 1442695040888963407u;
        uint32_t r = (uint32_t)(seed >> 33);
        uint32_t minute = last + (i % 20000 < 10000 ? r % 32 == 0 : r % 4096 == 0 ? 200 : r % 2);
        if (r % 97 == 0 && minute > 3)
            minute -= 3;
        if (add(minute, (uint8_t)(r >> 8) % 14, "a long list") == A5_ANSWERED)
            last = minute;
        if (i % 16 == 0)
            counts_are_right("a long list");
    }
}

/* Any contents: an addition ends, and writes no byte behind. */
static void any_contents(void) {
    uint64_t seed = 2;
    for (int i = 0; i < 200; i++) {
        for (size_t j = 0; j < sizeof lent; j++) {
            seed = seed * 6364136223846793005u + 1442695040888963407u;
            ((uint8_t *)&lent)[j] = (uint8_t)(seed >> 40);
        }
        for (int j = 0; j < 10; j++) {
            keep();
            uint8_t given = a5_window_add(&lent.window, (uint32_t)(seed >> (j + 20)) * 2u, (uint8_t)(j + 4));
            CHECK(given == 0 || is_as_it_was(), "any contents");
            CHECK(memcmp(lent.behind, before.behind, sizeof lent.behind) == 0, "any contents");
        }
    }
}

int main(void) {
    a_new_window();
    fill_and_refuse();
    a_long_list();
    any_contents();
    return finished("bindings/c/window_test");
}
