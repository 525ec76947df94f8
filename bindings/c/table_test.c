/* Tables, tried on the linked library: the built-in rows as a table give what the calls without one give; a table file that
 * examples/turned_table wrote places and unplaces; each refusal in its order, with everything lent left as it was; another table
 * than the set was opened with; a list with the table against place one by one. Its one argument is the file. Prints what
 * failed and then one line. */
#include "../a5.h"
#include "check.h"
#include <math.h>
#include <stdio.h>
#include <string.h>

struct set {
    double frame[A5_FRAME], face[A5_FACE_STORE], sphere[A5_SPHERE_STORE];
};

#define LENT(s) (s)->frame, A5_FRAME, (s)->face, A5_FACE_STORE, (s)->sphere, A5_SPHERE_STORE

static struct set set, other, before;
static double table[A5_TABLE];

/* The built-in rows. */
static const double built_in[A5_TABLE] = {
    0.0, 0.0, 0.0, 0.0,
    0.0, 1.0, 0.0,
    0.0, 1.1071487177940904, 0.0, 0.5257311121191336,
    0.0, 0.8506508083520399, 0.6283185307179586,
    0.6283185307179586, 2.0344439357957027, -0.5, 0.6881909602355868,
    0.0, 0.5257311121191336, 0.6283185307179586,
    1.8849555921538759, 2.0344439357957027, -0.8090169943749475, -0.2628655560595668,
    0.0, 0.5257311121191336, 0.6283185307179586,
    1.2566370614359172, 1.1071487177940904, -0.5, 0.16245984811645314,
    0.0, 0.8506508083520399, 0.6283185307179586,
    2.5132741228718345, 1.1071487177940904, -0.30901699437494745, -0.42532540417602,
    0.0, 0.8506508083520399, 0.6283185307179586,
    3.7699111843077517, 1.1071487177940904, 0.30901699437494745, -0.42532540417602,
    0.0, 0.8506508083520399, 0.6283185307179586,
    4.39822971502571, 2.0344439357957027, 0.8090169943749475, -0.2628655560595668,
    0.0, 0.5257311121191336, 0.6283185307179586,
    3.141592653589793, 2.0344439357957027, 0.0, -0.8506508083520399,
    0.0, 0.5257311121191336, 0.6283185307179586,
    0.0, 3.141592653589793, 0.0, -1.0,
    0.0, 0.0, 0.0,
    5.654866776461628, 2.0344439357957027, 0.5, 0.6881909602355868,
    0.0, 0.5257311121191336, 0.6283185307179586,
    5.026548245743669, 1.1071487177940904, 0.5, 0.16245984811645314,
    0.0, 0.8506508083520399, 0.6283185307179586,
};

static int load(const char *name, double *to) {
    uint8_t bytes[A5_TABLE_FILE + 1];
    FILE *file = fopen(name, "rb");
    if (!file)
        return 0;
    size_t n = fread(bytes, 1, sizeof bytes, file);
    fclose(file);
    return a5_table_load(bytes, n, to) == A5_ANSWERED;
}

/* Every call with a table gives this refusal and changes nothing, its answer's places included. */
static void refused(const double *rows, size_t length, uint8_t number, const char *name) {
    uint8_t id = 77;
    double to[2] = {-1.5, 2.5};
    a5_position position = {16.37, 48.2};
    a5_result result = {77, 77, -1.5, 2.5};
    before = set;
    CHECK(a5_place_list_with(rows, length, LENT(&set), &position, 1, &result, 1) == number, name);
    CHECK(result.refusal == 77 && result.origin == 77 && result.x == -1.5 && result.y == 2.5, name);
    CHECK(a5_open_with(rows, length, LENT(&set)) == number, name);
    CHECK(a5_forward_with(rows, length, LENT(&set), 1, 1, 0, to) == number, name);
    CHECK(a5_inverse_with(rows, length, LENT(&set), 0.1, 0.1, 0, to) == number, name);
    CHECK(a5_place_with(rows, length, LENT(&set), 16.37, 48.2, &id, to) == number, name);
    CHECK(a5_unplace_with(rows, length, LENT(&set), 0.1, 0.1, 0, to) == number, name);
    CHECK(a5_nearest_with(rows, length, 1, 1, &id) == number, name);
    CHECK(memcmp(&set, &before, sizeof set) == 0 && id == 77 && to[0] == -1.5 && to[1] == 2.5, name);
}

static void refusals(void) {
    double rows[A5_TABLE + 1] = {0};
    memcpy(rows, table, sizeof table);
    refused(rows, A5_TABLE - 1, A5_REFUSED_TABLE_FILE, "one short");
    refused(rows, A5_TABLE + 1, A5_REFUSED_TABLE_FILE, "one long");
    /* 20 before 1: of a frame that is one short as well */
    CHECK(a5_open_with(rows, 0, set.frame, A5_FRAME - 1, set.face, A5_FACE_STORE, set.sphere, A5_SPHERE_STORE) == 20, "20 first");
    /* 1 before 21 */
    rows[0] = NAN;
    CHECK(a5_open_with(rows, A5_TABLE, set.frame, A5_FRAME - 1, set.face, A5_FACE_STORE, set.sphere, A5_SPHERE_STORE) == 1, "1, then 21");
    refused(rows, A5_TABLE, A5_REFUSED_TABLE_NUMBER, "NaN");
    rows[0] = nextafter(8, 9);
    refused(rows, A5_TABLE, A5_REFUSED_TABLE_NUMBER, "theta above 8");
    rows[0] = table[0];
    rows[2] = nextafter(1, 2);
    refused(rows, A5_TABLE, A5_REFUSED_TABLE_NUMBER, "quaternion above 1");
    /* off unit length in row 0, and not finite in row 11: 21 over all rows first */
    rows[2] = 1;
    rows[A5_TABLE - 1] = INFINITY;
    refused(rows, A5_TABLE, A5_REFUSED_TABLE_NUMBER, "21 before 22");
    rows[A5_TABLE - 1] = table[A5_TABLE - 1];
    refused(rows, A5_TABLE, A5_REFUSED_TABLE_QUATERNION, "off unit length");
    /* 22 before 4, and nearest's before 5 */
    double to[2];
    uint8_t id;
    CHECK(a5_forward_with(rows, A5_TABLE, LENT(&set), 9, NAN, 12, to) == 22, "22 before 4");
    CHECK(a5_nearest_with(rows, A5_TABLE, NAN, 9, &id) == 22, "22 before 5");
}

/* Tables that pass 21 and 22: 7 where the frame has other than 62 rows, 8 where a triangle's corner is not in the frame. */
static void frames(void) {
    double rows[A5_TABLE], to[2];
    uint8_t id;
    memcpy(rows, built_in, sizeof rows);
    rows[6] = 1; /* origin 0's angle: its corners and midpoints are no other face's */
    before = set;
    CHECK(a5_open_with(rows, A5_TABLE, LENT(&set)) == A5_REFUSED_FRAME_ROWS, "7");
    CHECK(memcmp(&set, &before, sizeof set) == 0, "7 leaves the set");
    memcpy(rows, built_in, sizeof rows);
    rows[1] = 0.25; /* origin 0's axis: the frame has a centre there, and none where the quaternion has it */
    CHECK(a5_open_with(rows, A5_TABLE, LENT(&other)) == A5_ANSWERED, "opens");
    before = other;
    CHECK(a5_forward_with(rows, A5_TABLE, LENT(&other), 0, 0.1, 0, to) == A5_REFUSED_NO_VERTEX, "8, forward");
    CHECK(a5_inverse_with(rows, A5_TABLE, LENT(&other), 0.1, 0.1, 0, to) == A5_REFUSED_NO_VERTEX, "8, inverse");
    CHECK(a5_place_with(rows, A5_TABLE, LENT(&other), -93, 80, &id, to) == A5_REFUSED_NO_VERTEX, "8, place");
    CHECK(a5_unplace_with(rows, A5_TABLE, LENT(&other), 0.1, 0.1, 0, to) == A5_REFUSED_NO_VERTEX, "8, unplace");
    CHECK(memcmp(&other, &before, sizeof other) == 0, "8 leaves the set");
    CHECK(a5_inverse_with(rows, A5_TABLE, LENT(&other), 0.1, 0.1, 9, to) == A5_ANSWERED, "another origin answers");
}

/* Each call with the built-in rows leaves and answers what the call without a table does. */
static void built_in_rows(void) {
    double to[2], with[2];
    uint8_t id = 0, id_with = 0;
    CHECK(a5_open(LENT(&set)) == A5_ANSWERED && a5_open_with(built_in, A5_TABLE, LENT(&other)) == A5_ANSWERED, "open");
    for (int k = 0; k < 400; k++) {
        double longitude = -180 + 0.9 * k, latitude = 89 * sin(k), x = 0.7 * cos(k), y = 0.7 * sin(3 * k);
        uint8_t origin = (uint8_t)(k % 12);
        uint8_t a = a5_place(LENT(&set), longitude, latitude, &id, to);
        uint8_t b = a5_place_with(built_in, A5_TABLE, LENT(&other), longitude, latitude, &id_with, with);
        CHECK(a == b && id == id_with && memcmp(to, with, sizeof to) == 0, "place");
        a = a5_unplace(LENT(&set), x, y, origin, to);
        b = a5_unplace_with(built_in, A5_TABLE, LENT(&other), x, y, origin, with);
        CHECK(a == b && memcmp(to, with, sizeof to) == 0, "unplace");
        a = a5_inverse(LENT(&set), x, y, origin, to);
        b = a5_inverse_with(built_in, A5_TABLE, LENT(&other), x, y, origin, with);
        CHECK(a == b && memcmp(to, with, sizeof to) == 0, "inverse");
        a = a5_forward(LENT(&set), x, y, origin, to);
        b = a5_forward_with(built_in, A5_TABLE, LENT(&other), x, y, origin, with);
        CHECK(a == b && memcmp(to, with, sizeof to) == 0, "forward");
        a = a5_nearest(x, y, &id);
        b = a5_nearest_with(built_in, A5_TABLE, x, y, &id_with);
        CHECK(a == b && id == id_with, "nearest");
    }
    CHECK(memcmp(&set, &other, sizeof set) == 0, "the whole set");
}

/* There and back with the turned table, on a set that was opened with it; elsewhere than without it. */
static void turned(void) {
    double to[2], back[2], plain[2];
    uint8_t id, id_plain;
    int moved = 0;
    CHECK(a5_open(LENT(&other)) == A5_ANSWERED && a5_open_with(table, A5_TABLE, LENT(&set)) == A5_ANSWERED, "open");
    for (int k = 0; k < 400; k++) {
        double longitude = -179 + 0.89 * k, latitude = 85 * sin(k);
        CHECK(a5_place_with(table, A5_TABLE, LENT(&set), longitude, latitude, &id, to) == A5_ANSWERED, "place");
        CHECK(a5_unplace_with(table, A5_TABLE, LENT(&set), to[0], to[1], id, back) == A5_ANSWERED, "unplace");
        double off = fmod(fabs(back[0] - longitude), 360);
        CHECK(fmin(off, 360 - off) < 1e-9 && fabs(back[1] - latitude) < 1e-9, "there and back");
        CHECK(a5_place(LENT(&other), longitude, latitude, &id_plain, plain) == A5_ANSWERED, "place without");
        moved += id != id_plain || fabs(to[0] - plain[0]) > 1e-6 || fabs(to[1] - plain[1]) > 1e-6;
    }
    CHECK(moved == 400, "the turned solid places elsewhere");
    /* another table than the set was opened with: the corners of a slot that is empty are not in the frame */
    CHECK(a5_open_with(table, A5_TABLE, LENT(&set)) == A5_ANSWERED, "open again");
    before = set;
    CHECK(a5_place_with(built_in, A5_TABLE, LENT(&set), 10, 20, &id, to) == A5_REFUSED_NO_VERTEX, "another table");
    CHECK(a5_place(LENT(&set), 10, 20, &id, to) == A5_REFUSED_NO_VERTEX, "the built-in one");
    CHECK(memcmp(&set, &before, sizeof set) == 0, "8 leaves the set");
}

/* A list with the turned table is place with it, one by one: results and the whole set. */
static void list(void) {
    static a5_position positions[300];
    static a5_result results[301];
    size_t refused_ones = 0;
    for (int k = 0; k < 300; k++)
        positions[k] = (a5_position){-179 + 1.19 * k, k % 10 == 3 ? 90.5 : k % 50 == 7 ? (double)NAN : 89 * sin(k)};
    CHECK(a5_open_with(table, A5_TABLE, LENT(&set)) == A5_ANSWERED, "open");
    other = set;
    memset(results, 0xa5, sizeof results);
    a5_result behind = results[300];
    CHECK(a5_place_list_with(table, A5_TABLE, LENT(&set), positions, 300, results, 300) == A5_ANSWERED, "list");
    for (int k = 0; k < 300; k++) {
        uint8_t id = 0;
        double to[2] = {0.0, 0.0};
        uint8_t status = a5_place_with(table, A5_TABLE, LENT(&other), positions[k].longitude, positions[k].latitude, &id, to);
        CHECK(results[k].refusal == status && results[k].origin == id, "as place");
        CHECK(memcmp(&results[k].x, &to[0], sizeof *to) == 0 && memcmp(&results[k].y, &to[1], sizeof *to) == 0, "as place");
        refused_ones += status != A5_ANSWERED;
    }
    CHECK(refused_ones == 36, "refused positions among the others");
    CHECK(memcmp(&set, &other, sizeof set) == 0, "the whole set");
    CHECK(memcmp(&results[300], &behind, sizeof behind) == 0, "behind the results");
    /* another table than the set was opened with: each result has 8 */
    CHECK(a5_open_with(table, A5_TABLE, LENT(&set)) == A5_ANSWERED, "open again");
    before = set;
    CHECK(a5_place_list_with(built_in, A5_TABLE, LENT(&set), positions, 3, results, 3) == A5_ANSWERED, "another table");
    for (int k = 0; k < 3; k++)
        CHECK(results[k].refusal == A5_REFUSED_NO_VERTEX && results[k].origin == 0 && results[k].x == 0.0, "8 in each");
    CHECK(memcmp(&set, &before, sizeof set) == 0, "8 leaves the set");
}

/* The refusals of a list itself: 20, 1, 2, 3, 21, 22, 14, each where all that come after it apply too. */
static void list_refusals(void) {
    a5_position positions[2] = {{0.0, 0.0}, {10.0, 20.0}};
    a5_result results[3], kept[3];
    double faulty[A5_TABLE + 1] = {0}, off[A5_TABLE];
    memcpy(faulty, table, sizeof table);
    memcpy(off, table, sizeof table);
    off[2] = 1;
    memcpy(faulty, off, sizeof off);
    faulty[A5_TABLE - 1] = NAN;
    const struct {
        const double *rows;
        size_t length, lengths[3];
        uint8_t status;
    } cases[] = {
        {faulty, A5_TABLE + 1, {A5_FRAME - 1, A5_FACE_STORE - 1, A5_SPHERE_STORE - 1}, A5_REFUSED_TABLE_FILE},
        {faulty, A5_TABLE - 1, {A5_FRAME, A5_FACE_STORE, A5_SPHERE_STORE}, A5_REFUSED_TABLE_FILE},
        {faulty, 0, {A5_FRAME, A5_FACE_STORE, A5_SPHERE_STORE}, A5_REFUSED_TABLE_FILE},
        {faulty, A5_TABLE, {A5_FRAME - 1, A5_FACE_STORE - 1, A5_SPHERE_STORE - 1}, A5_REFUSED_FRAME_LENGTH},
        {faulty, A5_TABLE, {A5_FRAME, A5_FACE_STORE - 1, A5_SPHERE_STORE - 1}, A5_REFUSED_FACE_STORE_LENGTH},
        {faulty, A5_TABLE, {A5_FRAME, A5_FACE_STORE, A5_SPHERE_STORE - 1}, A5_REFUSED_SPHERE_STORE_LENGTH},
        {faulty, A5_TABLE, {A5_FRAME, A5_FACE_STORE, A5_SPHERE_STORE}, A5_REFUSED_TABLE_NUMBER},
        {off, A5_TABLE, {A5_FRAME, A5_FACE_STORE, A5_SPHERE_STORE}, A5_REFUSED_TABLE_QUATERNION},
        {table, A5_TABLE, {A5_FRAME, A5_FACE_STORE, A5_SPHERE_STORE}, A5_REFUSED_RESULT_COUNT},
    };
    memset(results, 0xa5, sizeof results);
    memcpy(kept, results, sizeof results);
    before = set;
    for (size_t i = 0; i < sizeof cases / sizeof *cases; i++) {
        const size_t *l = cases[i].lengths;
        uint8_t status = a5_place_list_with(cases[i].rows, cases[i].length, set.frame, l[0], set.face, l[1], set.sphere, l[2],
                                            positions, 2, results, 3);
        CHECK(status == cases[i].status, "the refusals of a list in their order");
    }
    CHECK(a5_place_list_with(table, A5_TABLE, LENT(&set), positions, 2, results, 1) == A5_REFUSED_RESULT_COUNT, "one result");
    CHECK(a5_place_list_with(table, A5_TABLE, LENT(&set), positions, 0, results, 0) == A5_ANSWERED, "an empty list");
    CHECK(a5_place_list_with(off, A5_TABLE, LENT(&set), positions, 0, results, 0) == A5_REFUSED_TABLE_QUATERNION, "empty, 22");
    CHECK(memcmp(results, kept, sizeof results) == 0 && memcmp(&set, &before, sizeof set) == 0, "everything as it was");
}

static void files(void) {
    uint8_t bytes[A5_TABLE_FILE + 1], again[A5_TABLE_FILE];
    double rows[A5_TABLE];
    memset(bytes, 0x5a, sizeof bytes);
    CHECK(a5_table_save(table, A5_TABLE, bytes, A5_TABLE_FILE) == A5_ANSWERED && bytes[A5_TABLE_FILE] == 0x5a, "save");
    CHECK(memcmp(bytes, "EAT\0\1", 5) == 0, "the header");
    CHECK(a5_table_load(bytes, A5_TABLE_FILE, rows) == A5_ANSWERED && memcmp(rows, table, sizeof rows) == 0, "load");
    for (int k = 0; k < 5; k++) {
        bytes[k] ^= 1;
        CHECK(a5_table_load(bytes, A5_TABLE_FILE, rows) == A5_REFUSED_TABLE_FILE, "mark and version");
        bytes[k] ^= 1;
    }
    CHECK(a5_table_load(bytes, A5_TABLE_FILE - 1, rows) == A5_REFUSED_TABLE_FILE, "one byte short");
    CHECK(a5_table_load(bytes, A5_TABLE_FILE + 1, rows) == A5_REFUSED_TABLE_FILE, "one byte long");
    bytes[5] = 0x7f, bytes[6] = 0xf8;
    CHECK(a5_table_load(bytes, A5_TABLE_FILE, rows) == A5_REFUSED_TABLE_NUMBER, "NaN in a file");
    CHECK(memcmp(rows, table, sizeof rows) == 0, "a refusal leaves the table");
    memset(again, 0x5a, sizeof again);
    rows[2] = rows[2] == 0.5 ? 0.25 : 0.5;
    CHECK(a5_table_save(rows, A5_TABLE, again, A5_TABLE_FILE) == A5_REFUSED_TABLE_QUATERNION, "save tests 22");
    rows[2] = 2;
    CHECK(a5_table_save(rows, A5_TABLE, again, A5_TABLE_FILE) == A5_REFUSED_TABLE_NUMBER, "save tests 21");
    CHECK(a5_table_save(rows, A5_TABLE - 1, again, A5_TABLE_FILE) == A5_REFUSED_TABLE_FILE, "save of 83 numbers");
    CHECK(a5_table_save(rows, A5_TABLE, again, A5_TABLE_FILE - 1) == A5_REFUSED_TABLE_FILE, "save to 676 bytes");
    for (size_t k = 0; k < sizeof again; k++)
        CHECK(again[k] == 0x5a, "a refusal leaves the bytes");
}

int main(int count, char **words) {
    if (count != 2 || !load(words[1], table)) {
        printf("bindings/c/table_test: give the table file of a turn\n");
        return 2;
    }
    built_in_rows();
    turned();
    CHECK(a5_open_with(table, A5_TABLE, LENT(&set)) == A5_ANSWERED, "open");
    refusals();
    list();
    list_refusals();
    frames();
    files();
    return finished("bindings/c/table_test");
}
