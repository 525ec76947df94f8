/* A region on one face in C, against a5_place one by one and the least and greatest coordinates: origin, points, box and every
 * number of the set, with the built-in table and with that of a file, on newly opened sets, used ones and foreign contents;
 * outlines of 1, 2 and 256 positions, and of 0 and 257; origins that differ first at the last place; a refused position after
 * that; points beyond 4; the refusals in their order, which leave everything as it was, bit for bit. The argument is a table
 * file. Prints what failed and then one line; the exit status is 0 where nothing failed. */
#include "../a5.h"
#include "check.h"
#include <math.h>
#include <stdalign.h>
#include <string.h>

_Static_assert(sizeof(a5_point) == 16 && alignof(a5_point) == 8, "two doubles");

enum { MOST = A5_REGION + 2 };

/* A set with a number behind each store, and the table that it was opened with, or none. */
typedef struct {
    double frame[A5_FRAME], face[A5_FACE_STORE + 1], sphere[A5_SPHERE_STORE + 1];
    const double *table;
} set;

/* What a region leaves beside the set. */
typedef struct {
    a5_point points[MOST];
    uint8_t origin;
    a5_box box;
} answer;

static void open_set(set *s, const double *table) {
    uint8_t status;
    memset(s, 0, sizeof *s);
    s->table = table;
    if (table == NULL)
        status = a5_open(s->frame, A5_FRAME, s->face, A5_FACE_STORE, s->sphere, A5_SPHERE_STORE);
    else
        status = a5_open_with(table, A5_TABLE, s->frame, A5_FRAME, s->face, A5_FACE_STORE, s->sphere, A5_SPHERE_STORE);
    CHECK(status == A5_ANSWERED, "open");
}

static uint8_t region_lent(set *s, const size_t lengths[3], const a5_position *positions, size_t n, answer *to, size_t m) {
    if (s->table == NULL)
        return a5_region(s->frame, lengths[0], s->face, lengths[1], s->sphere, lengths[2], positions, n, to->points, m,
                         &to->origin, &to->box);
    return a5_region_with(s->table, A5_TABLE, s->frame, lengths[0], s->face, lengths[1], s->sphere, lengths[2], positions, n,
                          to->points, m, &to->origin, &to->box);
}

static const size_t RIGHT[3] = {A5_FRAME, A5_FACE_STORE, A5_SPHERE_STORE};

static uint8_t region(set *s, const a5_position *positions, size_t n, answer *to, size_t m) {
    return region_lent(s, RIGHT, positions, n, to, m);
}

static uint8_t place(set *s, a5_position p, uint8_t *id, double to[2]) {
    if (s->table == NULL)
        return a5_place(s->frame, A5_FRAME, s->face, A5_FACE_STORE, s->sphere, A5_SPHERE_STORE, p.longitude, p.latitude, id, to);
    return a5_place_with(s->table, A5_TABLE, s->frame, A5_FRAME, s->face, A5_FACE_STORE, s->sphere, A5_SPHERE_STORE,
                         p.longitude, p.latitude, id, to);
}

/* Positions round the middle of a face, as far from it as `size` on the face. */
static void outline(a5_position *positions, size_t n, const double *table, uint8_t origin, double size) {
    static set apart;
    open_set(&apart, table);
    for (size_t i = 0; i < n; i++) {
        double x = size * ((double)(i * 37 % 256) / 128.0 - 1.0), y = size * ((double)(i * 101 % 256) / 128.0 - 1.0), to[2];
        uint8_t status;
        if (table == NULL)
            status = a5_unplace(apart.frame, A5_FRAME, apart.face, A5_FACE_STORE, apart.sphere, A5_SPHERE_STORE, x, y, origin, to);
        else
            status = a5_unplace_with(table, A5_TABLE, apart.frame, A5_FRAME, apart.face, A5_FACE_STORE, apart.sphere,
                                     A5_SPHERE_STORE, x, y, origin, to);
        CHECK(status == A5_ANSWERED, "outline");
        positions[i].longitude = to[0];
        positions[i].latitude = to[1];
    }
}

static void fill(answer *to) { memset(to, 0xa5, sizeof *to), to->box.empty = true; }

static int same(double a, double b) { return memcmp(&a, &b, sizeof a) == 0; }

/* The region against placing singly; gives how many points lie beyond 4. */
static size_t as_singly(set *s, const a5_position *positions, size_t n, const char *name) {
    static set apart;
    static answer to, untouched;
    double least[2] = {INFINITY, INFINITY}, greatest[2] = {-INFINITY, -INFINITY};
    size_t beyond = 0;
    apart = *s;
    fill(&to);
    fill(&untouched);
    CHECK(region(s, positions, n, &to, n) == A5_ANSWERED, name);
    for (size_t i = 0; i < n; i++) {
        uint8_t id = 99;
        double at[2] = {0.0, 0.0};
        CHECK(place(&apart, positions[i], &id, at) == A5_ANSWERED && id == to.origin, name);
        CHECK(same(at[0], to.points[i].x) && same(at[1], to.points[i].y), name);
        for (int k = 0; k < 2; k++) {
            least[k] = at[k] < least[k] ? at[k] : least[k];
            greatest[k] = at[k] > greatest[k] ? at[k] : greatest[k];
        }
        beyond += fabs(at[0]) > A5_FACE_LIMIT || fabs(at[1]) > A5_FACE_LIMIT;
    }
    CHECK(same(to.box.least_x, least[0]) && same(to.box.greatest_x, greatest[0]), name);
    CHECK(same(to.box.least_y, least[1]) && same(to.box.greatest_y, greatest[1]) && !to.box.empty, name);
    CHECK(memcmp(to.points + n, untouched.points + n, (MOST - n) * sizeof *to.points) == 0, name);
    CHECK(memcmp(s, &apart, sizeof apart) == 0, name);
    return beyond;
}

/* Refused with the number, and nothing changed: the set, the points, the origin, the box. */
static void refused_lent(set *s, const size_t lengths[3], const a5_position *positions, size_t n, size_t m, uint8_t number,
                         const char *name) {
    static set kept;
    static answer to, before;
    kept = *s;
    fill(&to);
    memcpy(&before, &to, sizeof to);
    CHECK(region_lent(s, lengths, positions, n, &to, m) == number, name);
    CHECK(memcmp(&to, &before, sizeof to) == 0 && memcmp(s, &kept, sizeof kept) == 0, name);
}

static void refused(set *s, const a5_position *positions, size_t n, size_t m, uint8_t number, const char *name) {
    refused_lent(s, RIGHT, positions, n, m, number, name);
}

/* The outlines' face, and another. */
enum { OWN = 3, OTHER = 8 };

static void answers(const double *table) {
    static set s;
    static a5_position positions[MOST];
    outline(positions, MOST, table, OWN, 0.1);
    open_set(&s, table);
    as_singly(&s, positions, 1, "one");
    open_set(&s, table);
    as_singly(&s, positions, 2, "two");
    open_set(&s, table);
    as_singly(&s, positions, A5_REGION, "256, newly opened");
    as_singly(&s, positions, A5_REGION, "256, used");
    /* on another face, whose slots are empty */
    outline(positions, MOST, table, OTHER, 0.1);
    as_singly(&s, positions, 100, "on a used set");
    /* foreign: every filled slot of the face store twenty times as large, so that points lie beyond 4 */
    for (size_t k = 0; k < A5_FACE_SLOTS; k++)
        for (size_t j = 1; j < A5_FACE_WIDTH; j++)
            s.face[k * A5_FACE_WIDTH + j] *= 20.0;
    outline(positions, MOST, table, OTHER, 0.3);
    CHECK(as_singly(&s, positions, 40, "foreign contents") > 0, "points beyond 4");
}

static void refusals(const double *table) {
    static set s;
    static a5_position positions[MOST], far;
    outline(&far, 1, table, OTHER, 0.1);
    outline(positions, MOST, table, OWN, 0.1);
    open_set(&s, table);
    /* the first that is wrong is told: 1, 2, 3, 15, 14, the first position's that fails, 16 */
    refused_lent(&s, (size_t[3]){A5_FRAME - 1, A5_FACE_STORE + 1, A5_SPHERE_STORE - 1}, positions, 0, 1, 1, "frame");
    refused_lent(&s, (size_t[3]){A5_FRAME, A5_FACE_STORE + 1, A5_SPHERE_STORE - 1}, positions, 0, 1, 2, "face store");
    refused_lent(&s, (size_t[3]){A5_FRAME, A5_FACE_STORE - 1, A5_SPHERE_STORE}, positions, 3, 3, 2, "face store");
    refused_lent(&s, (size_t[3]){A5_FRAME, A5_FACE_STORE, A5_SPHERE_STORE + 1}, positions, 0, 1, 3, "sphere store");
    refused_lent(&s, (size_t[3]){A5_FRAME, A5_FACE_STORE, A5_SPHERE_STORE - 1}, positions, 3, 3, 3, "sphere store");
    refused(&s, positions, 0, 0, A5_REFUSED_POSITION_COUNT, "no positions");
    refused(&s, positions, 0, 1, A5_REFUSED_POSITION_COUNT, "no positions, one point");
    refused(&s, positions, A5_REGION + 1, A5_REGION + 1, A5_REFUSED_POSITION_COUNT, "257 positions");
    refused(&s, positions, A5_REGION + 1, 1, A5_REFUSED_POSITION_COUNT, "257 positions, one point");
    positions[1].latitude = 91.0;
    for (size_t m = 0; m < 6; m++)
        refused(&s, positions, 3, m, m == 3 ? A5_REFUSED_OUT_OF_RANGE : A5_REFUSED_RESULT_COUNT, "point places");
    positions[2].longitude = (double)NAN;
    refused(&s, positions, 3, 3, A5_REFUSED_OUT_OF_RANGE, "the first that fails");
    outline(positions, MOST, table, OWN, 0.1);
    /* another origin at the last place alone */
    positions[1] = far;
    refused(&s, positions, 2, 2, A5_REFUSED_ORIGINS_DIFFER, "two origins");
    outline(positions, MOST, table, OWN, 0.1);
    positions[A5_REGION - 1] = far;
    refused(&s, positions, A5_REGION, A5_REGION, A5_REFUSED_ORIGINS_DIFFER, "another origin at the last place");
    as_singly(&s, positions, A5_REGION - 1, "without the last place");
    /* a refused position after that comes first */
    positions[100] = far;
    positions[A5_REGION - 1].longitude = (double)INFINITY;
    refused(&s, positions, A5_REGION, A5_REGION, A5_REFUSED_NOT_FINITE, "refused after another origin");
}

static void tables(const double *table) {
    static set s;
    static answer to, before;
    static a5_position positions[3];
    static const size_t lengths[3] = {0, A5_TABLE - 1, A5_TABLE + 1};
    double wrong[A5_TABLE + 1] = {0.0};
    outline(positions, 3, table, OWN, 0.1);
    open_set(&s, table);
    fill(&to);
    memcpy(&before, &to, sizeof to);
    memcpy(wrong, table, A5_TABLE * sizeof *table);
    for (size_t k = 0; k < 3; k++) {
        uint8_t status = a5_region_with(wrong, lengths[k], s.frame, 0, s.face, 0, s.sphere, 0, positions, 0, to.points, 7,
                                        &to.origin, &to.box);
        CHECK(status == A5_REFUSED_TABLE_FILE && memcmp(&to, &before, sizeof to) == 0, "20 comes first");
    }
    s.table = wrong;
    wrong[80] = 1.5; /* a quaternion's number beyond 1 */
    refused(&s, positions, 0, 1, A5_REFUSED_TABLE_NUMBER, "21 comes before 15");
    wrong[80] = table[80] == 0.25 ? 0.5 : 0.25; /* off unit length */
    refused(&s, positions, 0, 1, A5_REFUSED_TABLE_QUATERNION, "22 comes before 15");
    s.table = table;
    as_singly(&s, positions, 3, "with the table itself");
}

int main(int argc, char **argv) {
    static double table[A5_TABLE];
    static uint8_t file[A5_TABLE_FILE + 1];
    FILE *in = argc == 2 ? fopen(argv[1], "rb") : NULL;
    size_t n = in == NULL ? 0 : fread(file, 1, sizeof file, in);
    CHECK(a5_table_load(file, n, table) == A5_ANSWERED, "the table file");
    if (in != NULL)
        fclose(in);
    answers(NULL);
    refusals(NULL);
    answers(table);
    refusals(table);
    tables(table);
    return finished("bindings/c/region_test");
}
