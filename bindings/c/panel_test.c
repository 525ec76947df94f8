/* The caption panel in C, against a5_place and a5_unplace: every byte of the block and every number of the set, with the built-in table
 * and with one from a file; masks and statuses; the refusals of the step itself in their order, which leave the block and the
 * set. The argument is a table file. Prints what failed and then one line; the exit status is 0 where nothing failed. */
#include "../a5.h"
#include "check.h"
#include <stdlib.h>
#include <string.h>

typedef struct {
    double frame[A5_FRAME], face[A5_FACE_STORE + 1], sphere[A5_SPHERE_STORE + 1];
} set;

/* the table of both sets, where it is not the built-in one */
static const double *table;

static void open_set(set *s) {
    uint8_t status;
    memset(s, 0, sizeof *s);
    if (table)
        status = a5_open_with(table, A5_TABLE, s->frame, A5_FRAME, s->face, A5_FACE_STORE, s->sphere, A5_SPHERE_STORE);
    else
        status = a5_open(s->frame, A5_FRAME, s->face, A5_FACE_STORE, s->sphere, A5_SPHERE_STORE);
    CHECK(status == A5_ANSWERED, "open");
}

static uint8_t step(set *s, uint8_t *block) {
    if (table)
        return a5_panel_step_with(table, A5_TABLE, s->frame, A5_FRAME, s->face, A5_FACE_STORE, s->sphere, A5_SPHERE_STORE,
                                  block, A5_BLOCK);
    return a5_panel_step(s->frame, A5_FRAME, s->face, A5_FACE_STORE, s->sphere, A5_SPHERE_STORE, block, A5_BLOCK);
}

static uint8_t place(set *s, double longitude, double latitude, uint8_t *id, double to[2]) {
    if (table)
        return a5_place_with(table, A5_TABLE, s->frame, A5_FRAME, s->face, A5_FACE_STORE, s->sphere, A5_SPHERE_STORE, longitude,
                             latitude, id, to);
    return a5_place(s->frame, A5_FRAME, s->face, A5_FACE_STORE, s->sphere, A5_SPHERE_STORE, longitude, latitude, id, to);
}

static uint8_t unplace(set *s, double x, double y, uint8_t origin, double to[2]) {
    if (table)
        return a5_unplace_with(table, A5_TABLE, s->frame, A5_FRAME, s->face, A5_FACE_STORE, s->sphere, A5_SPHERE_STORE, x, y,
                               origin, to);
    return a5_unplace(s->frame, A5_FRAME, s->face, A5_FACE_STORE, s->sphere, A5_SPHERE_STORE, x, y, origin, to);
}

static void put_input(uint8_t *at, int32_t n) {
    uint32_t u = (uint32_t)n;
    for (int i = 0; i < 4; i++)
        at[i] = (uint8_t)(u >> (24 - 8 * i));
}

static void put_double(uint8_t *at, double x) {
    uint64_t u;
    memcpy(&u, &x, sizeof u);
    for (int i = 0; i < 8; i++)
        at[i] = (uint8_t)(u >> (56 - 8 * i));
}

/* what the block must be after a command, by what the call gave */
static void ended(uint8_t *block, uint8_t status, const double to[2]) {
    block[A5_PANEL_COMMAND] = 0;
    block[A5_PANEL_STATUS] = status ? A5_PANEL_REFUSED : A5_PANEL_DONE;
    block[A5_PANEL_REFUSAL] = status;
    block[A5_PANEL_INTERRUPT] = (block[A5_PANEL_STATUS] & block[A5_PANEL_MASK] & 3) != 0;
    if (status == 0) {
        put_double(block + A5_PANEL_RESULTS, to[0]);
        put_double(block + A5_PANEL_RESULTS + 8, to[1]);
    }
}

static void against_the_calls(const char *name) {
    static const int32_t inputs[] = {INT32_MIN, -900000001, -1, 0, 123456789, 900000000, INT32_MAX};
    enum { MANY = sizeof inputs / sizeof *inputs };
    static set s, apart;
    uint8_t block[A5_BLOCK + 1], wanted[A5_BLOCK + 1];
    double to[2];
    open_set(&s);
    open_set(&apart);
    memset(block, 0xa5, sizeof block);
    for (int i = 0; i < MANY * MANY * 16; i++) {
        int32_t a = inputs[i % MANY], b = inputs[i / MANY % MANY];
        uint8_t origin = (uint8_t)(i / (MANY * MANY));
        block[A5_PANEL_MASK] = (uint8_t)(i * 37);
        block[A5_PANEL_STATUS] = (uint8_t)(i * 101);
        put_input(block + A5_PANEL_INPUTS, a);
        put_input(block + A5_PANEL_INPUTS + 4, b);
        block[A5_PANEL_COMMAND] = A5_COMMAND_PLACE;
        memcpy(wanted, block, sizeof block);
        ended(wanted, place(&apart, a / 1e7, b / 1e7, wanted + A5_PANEL_ORIGIN, to), to);
        CHECK(step(&s, block) == A5_ANSWERED && memcmp(block, wanted, sizeof block) == 0, name);
        block[A5_PANEL_COMMAND] = A5_COMMAND_UNPLACE;
        block[A5_PANEL_ORIGIN] = origin;
        memcpy(wanted, block, sizeof block);
        ended(wanted, unplace(&apart, a / 1e9, b / 1e9, origin, to), to);
        CHECK(step(&s, block) == A5_ANSWERED && memcmp(block, wanted, sizeof block) == 0, name);
    }
    CHECK(memcmp(&s, &apart, sizeof s) == 0, name);
}

/* every status and mask with nothing to do, and every other command */
static void without_a_call(void) {
    static set s, kept;
    uint8_t block[A5_BLOCK], wanted[A5_BLOCK];
    open_set(&s);
    kept = s;
    memset(block, 7, sizeof block);
    for (int i = 0; i < 65536; i++) {
        block[A5_PANEL_COMMAND] = A5_COMMAND_NOTHING;
        block[A5_PANEL_STATUS] = (uint8_t)i;
        block[A5_PANEL_MASK] = (uint8_t)(i >> 8);
        memcpy(wanted, block, sizeof block);
        wanted[A5_PANEL_INTERRUPT] = (block[A5_PANEL_STATUS] & block[A5_PANEL_MASK] & 3) != 0;
        CHECK(step(&s, block) == A5_ANSWERED && memcmp(block, wanted, sizeof block) == 0, "nothing");
    }
    for (int command = 3; command < 256; command++) {
        block[A5_PANEL_COMMAND] = (uint8_t)command;
        memcpy(wanted, block, sizeof block);
        ended(wanted, A5_REFUSED_RECORD_KIND, NULL);
        CHECK(step(&s, block) == A5_ANSWERED && memcmp(block, wanted, sizeof block) == 0, "another command");
    }
    CHECK(memcmp(&s, &kept, sizeof s) == 0, "no call");
}

static void refusals(const double *rows) {
    static set s, kept;
    static double bad[A5_TABLE];
    uint8_t block[A5_BLOCK + 1], before[A5_BLOCK + 1];
    static const struct {
        size_t lengths[3], block;
        uint8_t status;
    } cases[] = {
        {{A5_FRAME - 1, A5_FACE_STORE + 1, A5_SPHERE_STORE - 1}, A5_BLOCK - 1, A5_REFUSED_BLOCK_LENGTH},
        {{A5_FRAME - 1, A5_FACE_STORE + 1, A5_SPHERE_STORE - 1}, A5_BLOCK + 1, A5_REFUSED_BLOCK_LENGTH},
        {{A5_FRAME - 1, A5_FACE_STORE + 1, A5_SPHERE_STORE - 1}, A5_BLOCK, A5_REFUSED_FRAME_LENGTH},
        {{A5_FRAME, A5_FACE_STORE + 1, A5_SPHERE_STORE - 1}, A5_BLOCK, A5_REFUSED_FACE_STORE_LENGTH},
        {{A5_FRAME, A5_FACE_STORE, A5_SPHERE_STORE + 1}, A5_BLOCK, A5_REFUSED_SPHERE_STORE_LENGTH},
    };
    open_set(&s);
    kept = s;
    memset(block, 1, sizeof block);
    memcpy(before, block, sizeof block);
    memcpy(bad, rows, sizeof bad);
    bad[0] = 9.0;
    for (size_t i = 0; i < sizeof cases / sizeof *cases; i++) {
        const size_t *l = cases[i].lengths;
        CHECK(a5_panel_step(s.frame, l[0], s.face, l[1], s.sphere, l[2], block, cases[i].block) == cases[i].status, "refusals");
        CHECK(a5_panel_step_with(bad, A5_TABLE, s.frame, l[0], s.face, l[1], s.sphere, l[2], block, cases[i].block) ==
                  cases[i].status,
              "refusals with a table");
        CHECK(a5_panel_step_with(bad, A5_TABLE - 1, s.frame, l[0], s.face, l[1], s.sphere, l[2], block, cases[i].block) ==
                  A5_REFUSED_TABLE_FILE,
              "a table's length");
    }
    CHECK(a5_panel_step_with(bad, A5_TABLE, s.frame, A5_FRAME, s.face, A5_FACE_STORE, s.sphere, A5_SPHERE_STORE, block,
                             A5_BLOCK) == A5_REFUSED_TABLE_NUMBER,
          "21");
    bad[0] = 0.0;
    bad[2] = bad[2] / 2 + 0.25;
    CHECK(a5_panel_step_with(bad, A5_TABLE, s.frame, A5_FRAME, s.face, A5_FACE_STORE, s.sphere, A5_SPHERE_STORE, block,
                             A5_BLOCK) == A5_REFUSED_TABLE_QUATERNION,
          "22");
    CHECK(memcmp(block, before, sizeof block) == 0 && memcmp(&s, &kept, sizeof s) == 0, "refusals");
}

int main(int count, char **words) {
    static uint8_t file[A5_TABLE_FILE];
    static double rows[A5_TABLE];
    FILE *f = count == 2 ? fopen(words[1], "rb") : NULL;
    if (!f || fread(file, 1, sizeof file, f) != sizeof file || a5_table_load(file, sizeof file, rows) != A5_ANSWERED) {
        fprintf(stderr, "give a table file\n");
        return EXIT_FAILURE;
    }
    fclose(f);
    against_the_calls("built-in table");
    without_a_call();
    refusals(rows);
    table = rows;
    against_the_calls("a table");
    without_a_call();
    return finished("bindings/c/panel_test");
}
