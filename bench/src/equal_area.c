/* What the library is for, measured through it: how far the area of a small patch on a face is from the patch's area on the WGS84
 * ellipsoid, all over the globe; and how far place followed by unplace ends from where it started.
 *
 *     equal_area [POSITIONS]
 *
 * A patch's area is the map's derivative there, by differences of sixth order, times the ground's own (M N cos latitude). Lean is the
 * quotient of both, in the unit in which the whole globe has none, less 1. Where a difference reaches over the border of two triangles of a
 * map, or a face's centre is nearer than a thousandth, there is no derivative, and the position is left out. Beside the library: plain
 * rectangles of longitude and latitude, and, built with PROJ, its isea, which takes the latitude for one of a sphere. */
#include "../../bindings/a5.h"
#include <math.h>
#include <stdio.h>
#include <stdlib.h>
#include <string.h>
#ifdef WITH_PROJ
#include <proj.h>
#endif

/* WGS84 */
static const double AXIS = 6378137.0, FLATTENING = 1 / 298.257223563;
static const double PI = 3.141592653589793;
/* the corner of a face, from its centre */
static const double CORNER = 0.7639320225002102;

enum { BANDS = 18, MAPS = 3, MOST = 999999999 };
enum map { OURS, ISEA, RECTANGLES };
static const char *const NAMES[MAPS] = {"ours", "isea", "rectangles"};

static double frame[A5_FRAME], face[A5_FACE_STORE], sphere[A5_SPHERE_STORE];
#define SET frame, A5_FRAME, face, A5_FACE_STORE, sphere, A5_SPHERE_STORE

static struct {
    size_t measured, left_out;
    double least, greatest;
} bands[MAPS][BANDS];

/* Evenly spread numbers from 0 to 1, the same on every machine. */
static double random_number(void) {
    static uint64_t state = 20;
    state = state * 6364136223846793005u + 1442695040888963407u;
    uint64_t mixed = (state >> 33 ^ state) * 0xff51afd7ed558ccdu;
    return (double)((mixed ^ mixed >> 33) >> 11) * 0x1p-53;
}

static double squared_eccentricity(void) {
    return FLATTENING * (2 - FLATTENING);
}

/* How many square metres a square radian of longitude and latitude is on the ellipsoid, there. */
static double ground(double latitude) {
    double e2 = squared_eccentricity(), s = sin(latitude), w = 1 - e2 * s * s;
    return AXIS * AXIS * (1 - e2) * cos(latitude) / (w * w);
}

/* The whole ellipsoid's square metres. */
static double globe(void) {
    double e = sqrt(squared_eccentricity());
    return 2 * PI * AXIS * AXIS * (1 + (1 - e * e) / e * atanh(e));
}

/* ---- the maps: a point, and the part of the map that it lies on, within which derivatives are there; less than 0 where there is none */

static int ours(double longitude, double latitude, double to[2]) {
    uint8_t origin;
    if (a5_place(SET, longitude * (180 / PI), latitude * (180 / PI), &origin, to) != A5_ANSWERED)
        return -1;
    /* ten triangles about the centre */
    return 10 * origin + (int)floor((atan2(to[1], to[0]) + 2 * PI) / (PI / 5)) % 10;
}

static int rectangles(double longitude, double latitude, double to[2]) {
    to[0] = longitude;
    to[1] = latitude;
    return 0;
}

#ifdef WITH_PROJ
static PJ *projection;

static int isea(double longitude, double latitude, double to[2]) {
    PJ_COORD at = proj_trans(projection, PJ_FWD, proj_coord(longitude, latitude, 0, 0));
    to[0] = at.xy.x;
    to[1] = at.xy.y;
    return isfinite(to[0]) && isfinite(to[1]) ? 0 : -1;
}
#endif

typedef int (*map_call)(double, double, double[2]);

/* The derivatives of both coordinates along a direction; false where the map has none. */
static bool derivative(map_call call, double longitude, double latitude, double east, double north, double to[2]) {
    static const double WEIGHTS[] = {45, -9, 1};
    int part = -2;
    to[0] = to[1] = 0;
    for (int k = 1; k <= 3; k++)
        for (int sign = -1; sign <= 1; sign += 2) {
            double point[2];
            int here = call(longitude + sign * k * east, latitude + sign * k * north, point);
            if (here < 0 || (part >= 0 && here != part))
                return false;
            part = here;
            for (int i = 0; i < 2; i++)
                to[i] += sign * WEIGHTS[k - 1] * point[i];
        }
    double step = 60 * (east + north);
    to[0] /= step;
    to[1] /= step;
    return true;
}

/* The map's square units for a square radian of longitude and latitude, by steps on the ground of so many radians. */
static bool map_area(map_call call, double longitude, double latitude, double step, double *area) {
    double east[2], north[2];
    if (!derivative(call, longitude, latitude, step / cos(latitude), 0, east) || !derivative(call, longitude, latitude, 0, step, north))
        return false;
    *area = fabs(east[0] * north[1] - east[1] * north[0]);
    return true;
}

static void note(enum map map, double latitude, bool is_measured, double lean) {
    int band = (int)floor((latitude * (180 / PI) + 90) / 10);
    band = band < 0 ? 0 : band >= BANDS ? BANDS - 1 : band;
    if (!is_measured) {
        bands[map][band].left_out++;
        return;
    }
    bool first = bands[map][band].measured++ == 0;
    if (first || lean < bands[map][band].least)
        bands[map][band].least = lean;
    if (first || lean > bands[map][band].greatest)
        bands[map][band].greatest = lean;
}

/* ---- a position */

static void measure_ours(double longitude, double latitude) {
    double to[2], area, lean = 0;
    ours(longitude, latitude, to);
    double distance = hypot(to[0], to[1]), step = fmin(2e-4, distance / 80);
    /* a face's square units in square metres */
    double unit = globe() / A5_ORIGINS / (2.5 * CORNER * CORNER * sin(2 * PI / 5));
    bool is_measured = distance > 1e-3 && map_area(ours, longitude, latitude, step, &area);
    if (is_measured)
        lean = area * unit / ground(latitude) - 1;
    note(OURS, latitude, is_measured, lean);
}

#ifdef WITH_PROJ
/* Its triangles' borders are told by two steps that differ. */
static void measure_isea(double longitude, double latitude) {
    double area, other, lean = 0;
    bool is_measured = map_area(isea, longitude, latitude, 1e-4, &area) && map_area(isea, longitude, latitude, 5e-5, &other) &&
                       fabs(area / other - 1) < 1e-6;
    if (is_measured)
        lean = area / (AXIS * AXIS) * (globe() / (4 * PI)) / ground(latitude) - 1;
    note(ISEA, latitude, is_measured, lean);
}
#endif

static void measure_rectangles(double longitude, double latitude) {
    double area = 0;
    map_area(rectangles, longitude, latitude, 1e-4, &area);
    note(RECTANGLES, latitude, true, area * (globe() / (2 * PI * PI)) / ground(latitude) - 1);
}

/* From a position to its face and back, in nanometres on the ground. */
static double there_and_back(double longitude, double latitude) {
    double to[2], back[2];
    uint8_t origin;
    if (a5_place(SET, longitude, latitude, &origin, to) != A5_ANSWERED || a5_unplace(SET, to[0], to[1], origin, back) != A5_ANSWERED)
        return INFINITY;
    double e2 = squared_eccentricity(), phi = latitude * (PI / 180), s = sin(phi), w = sqrt(1 - e2 * s * s);
    double east = remainder(back[0] - longitude, 360) * (PI / 180) * cos(phi) * AXIS / w;
    double north = (back[1] - latitude) * (PI / 180) * AXIS * (1 - e2) / (w * w * w);
    return hypot(east, north) * 1e9;
}

static int by_size(const void *a, const void *b) {
    double x = *(const double *)a, y = *(const double *)b;
    return (x > y) - (x < y);
}

/* ---- what is printed */

static void print_map(int map) {
    double least = INFINITY, greatest = -INFINITY;
    size_t measured = 0, left_out = 0;
    for (int band = 0; band < BANDS; band++) {
        if (bands[map][band].measured)
            printf("%-10s %4d to %3d %8zu %8zu %13.3e %13.3e\n", NAMES[map], band * 10 - 90, band * 10 - 80, bands[map][band].measured,
                   bands[map][band].left_out, bands[map][band].least, bands[map][band].greatest);
        least = fmin(least, bands[map][band].least);
        greatest = fmax(greatest, bands[map][band].greatest);
        measured += bands[map][band].measured;
        left_out += bands[map][band].left_out;
    }
    if (measured)
        printf("%-10s all         %8zu %8zu %13.3e %13.3e\n", NAMES[map], measured, left_out, least, greatest);
}

/* A whole number from 1 to MOST, in digits alone. */
static bool read_positions(const char *word, size_t *positions) {
    size_t length = strspn(word, "0123456789");
    if (length == 0 || length > 9 || word[length] != 0)
        return false;
    *positions = strtoul(word, NULL, 10);
    return *positions >= 1 && *positions <= MOST;
}

int main(int count, char **words) {
    size_t positions = 200000;
    if (count > 2 || (count == 2 && !read_positions(words[1], &positions))) {
        fprintf(stderr, "usage: equal_area [POSITIONS], which are 1 to %d\n", MOST);
        return 1;
    }
    double *off = malloc(2 * positions * sizeof *off);
    if (!off || a5_open(SET) != A5_ANSWERED)
        return 1;
#ifdef WITH_PROJ
    projection = proj_create(PJ_DEFAULT_CTX, "+proj=isea +R=6378137");
    if (!projection)
        return 1;
#endif
    for (size_t i = 0; i < positions; i++) {
        double longitude = (2 * random_number() - 1) * PI, latitude = asin(2 * random_number() - 1);
        measure_ours(longitude, latitude);
#ifdef WITH_PROJ
        measure_isea(longitude, latitude);
#endif
        measure_rectangles(longitude, latitude);
    }
    printf("map        latitudes   measured left out    least lean greatest lean\n");
    for (int map = 0; map < MAPS; map++)
        print_map(map);
    for (size_t i = 0; i < 2 * positions; i++)
        off[i] = there_and_back((2 * random_number() - 1) * 180, asin(2 * random_number() - 1) * (180 / PI));
    qsort(off, 2 * positions, sizeof *off, by_size);
    printf("there and back, nm on the ground: median %.2f, 99 of 100 below %.2f, greatest %.2f of %zu\n", off[positions], off[2 * positions * 99 / 100],
           off[2 * positions - 1], 2 * positions);
    return 0;
}
