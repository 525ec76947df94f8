/* The as-run sheet in C: pages against text that printf makes, the largest counts, the refusal, which leaves every byte, and
 * the bytes behind a page. Prints what failed and then one line; the exit status is 0 where nothing failed. */
#include "../a5.h"
#include "check.h"
#include <stdio.h>
#include <string.h>

/* A page with bytes behind it that no call may touch. */
static uint8_t lent[A5_PAGE + 64], before[A5_PAGE + 64];
static char text[A5_PAGE + 1];
static a5_window window, kept;

/* The page by the paper's words. A number above ten digits stands with its last ten. */
static void wanted(void) {
    uint64_t sum = 0;
    int at = sprintf(text, "%-80s\n%80s\n", "STORM COUNTS", "");
    for (int k = 0; k < A5_ORIGINS; k++) {
        at += sprintf(text + at, "%2d%78u\n", k, window.counts[k]);
        sum += window.counts[k];
    }
    if (sum < 10000000000u)
        at += sprintf(text + at, "ALL%77llu\n", (unsigned long long)sum);
    else
        at += sprintf(text + at, "ALL%67s%010llu\n", "", (unsigned long long)(sum % 10000000000u));
    for (int l = 15; l < 60; l++)
        at += sprintf(text + at, "%80s\n", "");
}

static void prints(const char *name) {
    memset(lent, 0xa5, sizeof lent);
    kept = window;
    wanted();
    CHECK(a5_sheet(&window, lent, A5_PAGE) == A5_ANSWERED, name);
    CHECK(memcmp(lent, text, A5_PAGE) == 0, name);
    for (size_t i = A5_PAGE; i < sizeof lent; i++)
        CHECK(lent[i] == 0xa5, name);
    CHECK(memcmp(&window, &kept, sizeof window) == 0, name);
}

static void refuses(size_t n, const char *name) {
    memset(lent, 0x3c, sizeof lent);
    memcpy(before, lent, sizeof lent);
    CHECK(a5_sheet(&window, lent, n) == A5_REFUSED_PAGE_LENGTH, name);
    CHECK(memcmp(lent, before, sizeof lent) == 0, name);
}

int main(void) {
    a5_window_new(&window);
    prints("empty");
    a5_window_add(&window, 3, 11);
    prints("one");
    a5_window_new(&window);
    for (int i = 0; i < A5_WINDOW_MOST; i++)
        a5_window_add(&window, 0, 4);
    prints("full of one origin");
    a5_window_new(&window);
    for (uint32_t i = 0; i < 20000; i++) {
        a5_window_add(&window, i / 20, (uint8_t)(i * i % 12));
        if (i % 1000 == 0)
            prints("mixed");
    }
    /* Contents that no additions wrote. */
    memset(&window, 0xff, sizeof window);
    prints("the largest counts");
    for (uint32_t n = 1, k = 0; k < 10; n *= 10, k++) {
        window.counts[k] = n;
        window.counts[11] = n - 1;
        prints("powers of ten");
    }
    const size_t others[] = {0, 1, 80, 81, A5_PAGE - 1, A5_PAGE + 1, sizeof lent};
    for (size_t i = 0; i < sizeof others / sizeof *others; i++)
        refuses(others[i], "another length");
    return finished("bindings/c/sheet_test");
}
