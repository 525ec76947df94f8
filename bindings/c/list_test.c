/* A list of positions in C, against a5_place one by one: results and every number of the set, on a newly opened set and on
 * foreign contents; refused positions among the others; an empty list; the refusals of the list itself in their order,
 * which leave every result and the set. Prints what failed and then one line; the exit status is 0 where nothing failed. */
#include "../a5.h"
#include "check.h"
#include <math.h>
#include <stdalign.h>
#include <string.h>

_Static_assert(sizeof(a5_position) == 16 && alignof(a5_position) == 8, "two doubles");
_Static_assert(sizeof(a5_result) == 24 && offsetof(a5_result, origin) == 1 && offsetof(a5_result, x) == 8, "as C lays it out");

enum { MANY = 300 };

typedef struct {
    double frame[A5_FRAME], face[A5_FACE_STORE + 1], sphere[A5_SPHERE_STORE + 1];
} set;

static void open_set(set *s) {
    memset(s, 0, sizeof *s);
    CHECK(a5_open(s->frame, A5_FRAME, s->face, A5_FACE_STORE, s->sphere, A5_SPHERE_STORE) == A5_ANSWERED, "open");
}

static uint8_t place_list(set *s, const a5_position *positions, size_t n, a5_result *results, size_t m) {
    return a5_place_list(s->frame, A5_FRAME, s->face, A5_FACE_STORE, s->sphere, A5_SPHERE_STORE, positions, n, results, m);
}

static a5_result place_one(set *s, a5_position p) {
    a5_result r = {0, 0, 0.0, 0.0};
    double to[2] = {0.0, 0.0};
    r.refusal = a5_place(s->frame, A5_FRAME, s->face, A5_FACE_STORE, s->sphere, A5_SPHERE_STORE, p.longitude, p.latitude,
                         &r.origin, to);
    r.x = to[0];
    r.y = to[1];
    return r;
}

/* Field by field, since padding means nothing; doubles by their bits. */
static int same_result(const a5_result *a, const a5_result *b) {
    return a->refusal == b->refusal && a->origin == b->origin && memcmp(&a->x, &b->x, sizeof a->x) == 0 &&
           memcmp(&a->y, &b->y, sizeof a->y) == 0;
}

/* Over the globe, with positions that are refused among them. */
static void draw(a5_position *positions, size_t n) {
    for (size_t i = 0; i < n; i++) {
        positions[i].longitude = -360.0 + 720.0 * (double)(i * 37 % MANY) / (MANY - 1);
        positions[i].latitude = -90.0 + 180.0 * (double)(i * 101 % MANY) / (MANY - 1);
        if (i % 10 == 3)
            positions[i].latitude = i % 20 == 3 ? 90.5 : (double)NAN;
        if (i % 50 == 7)
            positions[i].longitude = (double)INFINITY;
    }
}

static void as_one_by_one(set *s, const char *name) {
    static a5_position positions[MANY];
    static a5_result results[MANY + 1];
    static set apart;
    a5_result behind;
    size_t refused = 0;
    draw(positions, MANY);
    apart = *s;
    memset(results, 0xa5, sizeof results);
    behind = results[MANY];
    CHECK(place_list(s, positions, MANY, results, MANY) == A5_ANSWERED, name);
    for (size_t i = 0; i < MANY; i++) {
        a5_result one = place_one(&apart, positions[i]);
        CHECK(same_result(&results[i], &one), name);
        refused += results[i].refusal != 0;
    }
    CHECK(refused > 0 && refused < MANY, name);
    CHECK(memcmp(s, &apart, sizeof apart) == 0, name);
    CHECK(memcmp(&results[MANY], &behind, sizeof behind) == 0, name);
}

/* Every slot filled with numbers that no call wrote: all are read as they stand, or built on. */
static void foreign(set *s) {
    open_set(s);
    for (size_t k = 0; k < A5_FACE_SLOTS; k += 2)
        for (size_t j = 0; j < A5_FACE_WIDTH; j++)
            s->face[k * A5_FACE_WIDTH + j] = j == 0 ? 1.0 : 0.1 * (double)(j + k);
    for (size_t k = 0; k < A5_SPHERE_SLOTS; k += 3)
        for (size_t j = 0; j < A5_SPHERE_WIDTH; j++)
            s->sphere[k * A5_SPHERE_WIDTH + j] = j == 0 ? 1.0 : 0.01 * (double)(j * k);
}

static void refusals(set *s) {
    a5_position positions[2] = {{0.0, 0.0}, {10.0, 20.0}};
    a5_result results[3], before[3];
    static set kept;
    /* the lengths of frame, face store and sphere store, and of the results: the first that is wrong is told */
    static const struct {
        size_t lengths[3], results;
        uint8_t status;
    } cases[] = {
        {{A5_FRAME - 1, A5_FACE_STORE + 1, A5_SPHERE_STORE - 1}, 3, A5_REFUSED_FRAME_LENGTH},
        {{A5_FRAME, A5_FACE_STORE + 1, A5_SPHERE_STORE - 1}, 3, A5_REFUSED_FACE_STORE_LENGTH},
        {{A5_FRAME, A5_FACE_STORE, A5_SPHERE_STORE + 1}, 3, A5_REFUSED_SPHERE_STORE_LENGTH},
        {{A5_FRAME, A5_FACE_STORE, A5_SPHERE_STORE}, 3, A5_REFUSED_RESULT_COUNT},
        {{A5_FRAME, A5_FACE_STORE, A5_SPHERE_STORE}, 1, A5_REFUSED_RESULT_COUNT},
        {{A5_FRAME, A5_FACE_STORE, A5_SPHERE_STORE}, 0, A5_REFUSED_RESULT_COUNT},
    };
    kept = *s;
    memset(results, 0xa5, sizeof results);
    memcpy(before, results, sizeof results);
    for (size_t i = 0; i < sizeof cases / sizeof *cases; i++) {
        const size_t *l = cases[i].lengths;
        uint8_t status = a5_place_list(s->frame, l[0], s->face, l[1], s->sphere, l[2], positions, 2, results, cases[i].results);
        CHECK(status == cases[i].status, "refusals");
        CHECK(memcmp(results, before, sizeof results) == 0 && memcmp(s, &kept, sizeof kept) == 0, "refusals");
    }
    CHECK(place_list(s, positions, 0, results, 2) == A5_REFUSED_RESULT_COUNT, "no positions, two results");
    CHECK(place_list(s, positions, 0, results, 0) == A5_ANSWERED, "an empty list");
    CHECK(memcmp(results, before, sizeof results) == 0 && memcmp(s, &kept, sizeof kept) == 0, "an empty list");
}

int main(void) {
    static set s;
    open_set(&s);
    as_one_by_one(&s, "opened");
    as_one_by_one(&s, "used");
    foreign(&s);
    as_one_by_one(&s, "foreign");
    refusals(&s);
    return finished("bindings/c/list_test");
}
