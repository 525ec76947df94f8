/*
 * Twelve faces for regional maps: the calls of the proved library, for C and C++ on x86-64.
 *
 * Link with -la5faces: liba5faces.a, which `bindings/library` writes, or what `bindings/install` installs
 * (`pkg-config --libs a5faces`).
 *
 * A call that can be refused returns A5_ANSWERED (0), or the number of its refusal. a5_box_new, a5_window_new and
 * a5_window_counts are never refused and return nothing; a5_window_kept, a5_sqrt and a5_sqrt_rounds return their number.
 * An answer goes to the memory that is lent for it (to, id, results, points, origin, filled, part, box, grants, window, counts,
 * page, table, bytes, block). A refused call leaves everything lent as it was, bit for bit. Any number may be passed: what is
 * outside the limits is refused, and every call ends.
 *
 * A set is three buffers of double that the caller owns: the frame, the face store and the sphere store. It is lent to
 * each call, each buffer as a pointer and how many numbers there are. a5_open makes it ready; forward, inverse, place,
 * unplace, a list of places, a region and a panel's step read it and fill slots of the stores, so that later calls are
 * quicker. Their answers do not depend on which calls came before, as long as nothing else writes to the set and each call has the table that the set was last
 * opened with: the functions without a table have the built-in one, as a5_open has. The library keeps nothing between
 * calls and allocates nothing.
 *
 * What the caller owes, since no function can check it:
 * - a pointer is not null, not even with length 0, and is aligned for what it points to;
 * - as many numbers stand there as the length says (two behind `to` and `part`, one behind `id`, `origin` and `filled`, twelve
 *   behind `counts`, 84 behind a5_table_load's `table`);
 * - a box's `empty` is true or false, one of C's two bool values;
 * - no two things that are lent to one call overlap;
 * - a set is not used by two threads at once, unless both only show. Two sets are independent;
 * - the processor is in C's usual floating-point state: rounding to nearest, subnormal numbers kept (no FTZ, no DAZ).
 */
#ifndef A5_H
#define A5_H

#include <stdbool.h>
#include <stddef.h>
#include <stdint.h>

#ifdef __cplusplus
extern "C" {
#endif

/* A slot is a mark, 1.0 where it is filled, and then the vertices a, b, c of a triangle, with two coordinates each in
 * the face store and three in the sphere store. In a sphere slot the three numbers of b x c follow, the cross product:
 * forward and place read it there as it stands. The width is how many numbers a slot has. */
#define A5_FACE_SLOTS 30
#define A5_FACE_COORDINATES 6
#define A5_FACE_WIDTH (1 + A5_FACE_COORDINATES)
#define A5_SPHERE_SLOTS 240
#define A5_SPHERE_COORDINATES 9
#define A5_SPHERE_WIDTH (1 + A5_SPHERE_COORDINATES + 3)

/* How many numbers each buffer of a set has: 186, 210 and 3,120. */
#define A5_FRAME (62 * 3)
#define A5_FACE_STORE (A5_FACE_SLOTS * A5_FACE_WIDTH)
#define A5_SPHERE_STORE (A5_SPHERE_SLOTS * A5_SPHERE_WIDTH)

/* Origins are numbered from 0 to 11. */
#define A5_ORIGINS 12

/* Ranges of the numbers passed, from -limit to limit, ends included. */
#define A5_LONGITUDE_LIMIT 360.0 /* degrees */
#define A5_LATITUDE_LIMIT 90.0   /* degrees */
#define A5_ANGLE_LIMIT 8.0       /* theta and phi, radians */
#define A5_FACE_LIMIT 4.0        /* face x and y */

/* A turn: its channels and the place calls that it hands out. */
#define A5_CHANNELS 16
#define A5_TURN_CALLS 256

/* Store kinds. Every number names a store: 0 the face store, any other the sphere store. */
#define A5_KIND_FACE 0
#define A5_KIND_SPHERE 1

/* What a call returns. Where several refusals apply, the one with the lowest number is given, except that each number
 * passed is tried for 5 and then 6 before the next one, 19 is tried after 8 and before 9, a region tries 15 and then 14 before
 * its positions, which it tries one by one, and a panel's step tries 23 before 1. A call with a table tries 20 first of all, and
 * 21 and 22 right after 3. */
enum a5_status {
    A5_ANSWERED = 0,
    A5_REFUSED_FRAME_LENGTH = 1,        /* the frame isn't A5_FRAME long */
    A5_REFUSED_FACE_STORE_LENGTH = 2,   /* the face store isn't A5_FACE_STORE long */
    A5_REFUSED_SPHERE_STORE_LENGTH = 3, /* the sphere store isn't A5_SPHERE_STORE long */
    A5_REFUSED_UNKNOWN_ORIGIN = 4,      /* the origin's number is above 11 */
    A5_REFUSED_NOT_FINITE = 5,          /* a number passed is infinite or NaN */
    A5_REFUSED_OUT_OF_RANGE = 6,        /* a number passed is outside its range */
    A5_REFUSED_FRAME_ROWS = 7,          /* open's frame hasn't 62 rows: never with the built-in table, as is proved */
    A5_REFUSED_NO_VERTEX = 8,           /* a triangle that must be built has no frame vertex: not an opened set, or a table whose triangles are not in the frame */
    A5_REFUSED_ANSWER_NOT_FINITE = 9,   /* the answer would have a number that isn't finite */
    A5_REFUSED_UNKNOWN_SLOT = 10,       /* no such slot: 30 or more (face), 240 or more (sphere) */
    /* These three are the strike program's. No function here returns them; 12 is also what a panel's byte 5 has for another
     * command. */
    A5_REFUSED_HEADER = 11,      /* the input's header is missing, wrong or short */
    A5_REFUSED_RECORD_KIND = 12, /* a record's kind isn't 1 or 2, or kind 1 with a non-zero origin byte */
    A5_REFUSED_CUT_OFF = 13,     /* the input ends inside a record */
    /* A list's and a region's. */
    A5_REFUSED_RESULT_COUNT = 14, /* the lent places aren't as many as the positions */
    /* A region's. */
    A5_REFUSED_POSITION_COUNT = 15, /* no positions, or more than 256 */
    A5_REFUSED_ORIGINS_DIFFER = 16, /* two positions have different nearest origins */
    /* A window's. */
    A5_REFUSED_EARLIER_MINUTE = 17, /* the minute is earlier than the last accepted one */
    A5_REFUSED_WINDOW_FULL = 18,    /* 4,096 strikes remain after the drop */
    /* Inverse and unplace: a point too far off the face. */
    A5_REFUSED_ANGLE_OUTSIDE = 19, /* no corner is returned, and the angle from the area share is finite and beyond +-64 */
    /* A table's and its file's. */
    A5_REFUSED_TABLE_FILE = 20,       /* a table isn't 84 numbers long; a file's length, mark or version is wrong */
    A5_REFUSED_TABLE_NUMBER = 21,     /* a number of a table isn't finite or is outside its range */
    A5_REFUSED_TABLE_QUATERNION = 22, /* a row's quaternion is off unit length by more than 1e-12 */
    /* A panel's. */
    A5_REFUSED_BLOCK_LENGTH = 23, /* the register block isn't 32 bytes */
    /* Fair turns. */
    A5_REFUSED_WISH_COUNT = 24,  /* not exactly 16 wishes */
    A5_REFUSED_GRANT_COUNT = 25, /* not exactly 16 places for grants */
    /* A sheet's. */
    A5_REFUSED_PAGE_LENGTH = 26 /* the lent page isn't 4,860 bytes */
};

/* Open: writes the frame and fills both stores with 0.0. Refusals: 1, 2, 3, 7. */
uint8_t a5_open(double *frame, size_t frame_length, double *face, size_t face_length, double *sphere,
                size_t sphere_length);

/* Forward: from theta and phi, in radians (-8 to 8), to the face point x, y on the face of an origin (0 to 11).
 * to[0] is x and to[1] is y. Writes the empty slots that it uses. Refusals: 1 to 6, 8, 9. */
uint8_t a5_forward(const double *frame, size_t frame_length, double *face, size_t face_length, double *sphere,
                   size_t sphere_length, double theta, double phi, uint8_t origin, double to[2]);

/* Inverse: from a face point x, y (-4 to 4) on the face of an origin (0 to 11) to theta and phi, in radians.
 * to[0] is theta and to[1] is phi. Writes the empty slots that it uses. Refusals: 1 to 6, 8, 19, 9. */
uint8_t a5_inverse(const double *frame, size_t frame_length, double *face, size_t face_length, double *sphere,
                   size_t sphere_length, double x, double y, uint8_t origin, double to[2]);

/* Place: from longitude (-360 to 360) and latitude (-90 to 90), in degrees, to the number of the nearest origin, which
 * goes to id, and the face point on its face: to[0] is x and to[1] is y. Writes the empty slots that it uses.
 * Refusals: 1, 2, 3, 5, 6, 8, 9. */
uint8_t a5_place(const double *frame, size_t frame_length, double *face, size_t face_length, double *sphere,
                 size_t sphere_length, double longitude, double latitude, uint8_t *id, double to[2]);

/* Unplace: from a face point x, y (-4 to 4) on the face of an origin (0 to 11) to longitude and latitude, in degrees.
 * to[0] is the longitude and to[1] the latitude. Writes the empty slots that it uses.
 * Refusals: 1 to 6, 8, 19, 9. */
uint8_t a5_unplace(const double *frame, size_t frame_length, double *face, size_t face_length, double *sphere,
                   size_t sphere_length, double x, double y, uint8_t origin, double to[2]);

/* A position, in degrees, and what place gives for it: refusal is the number of its refusal, 0 where it answered; origin,
 * x and y are its answer, and 0, 0.0 and 0.0 where it refused. What stands in a result's padding means nothing. */
typedef struct {
    double longitude, latitude;
} a5_position;

typedef struct {
    uint8_t refusal, origin;
    double x, y;
} a5_result;

/* Place a list, with the built-in table, on a set that a5_open has opened: places the positions from first to last, as
 * a5_place would one by one, and fills a result for each. A
 * position that is refused (5, 6, 8, 9) has that in its result, and the next one follows. What stood in the results is not
 * read. An empty list answers and changes nothing; its pointers are not null either. Refusals of the list itself, which
 * leave every result and the set: 1, 2, 3, 14. */
uint8_t a5_place_list(const double *frame, size_t frame_length, double *face, size_t face_length, double *sphere,
                      size_t sphere_length, const a5_position *positions, size_t positions_length, a5_result *results,
                      size_t results_length);

/* A point on a face. */
typedef struct {
    double x, y;
} a5_point;

/* A caption box: the smallest upright rectangle round the points of a face taken in so far. Where it is empty, the four
 * sides mean nothing. A box is used by one thread at a time. */
typedef struct {
    double least_x, greatest_x, least_y, greatest_y;
    bool empty;
} a5_box;

/* How many positions a region has at most. */
#define A5_REGION 256

/* A region on one face, with the built-in table, on a set that a5_open has opened: a channel's outline of 1 to A5_REGION
 * positions, which must all have the same nearest origin. That origin goes to origin, the face point of each position to
 * points, in their order, and the smallest box round the points to box, which is then not empty; no limit of 4 is put on the points.
 * The set is left as after a5_place of the positions in turn. Otherwise nothing is written and the set is as it was. What
 * stood in points, origin and the box's sides does not matter. Refusals: 1, 2, 3, 15, 14, then the number of the first position that
 * a5_place would refuse (5, 6, 8, 9), also where an earlier pair of positions has different origins, and last 16. */
uint8_t a5_region(const double *frame, size_t frame_length, double *face, size_t face_length, double *sphere,
                  size_t sphere_length, const a5_position *positions, size_t positions_length, a5_point *points,
                  size_t points_length, uint8_t *origin, a5_box *box);

/* Show: where the coordinates of a filled slot are, in the store that kind names: part[0] is the offset, in numbers,
 * and part[1] how many there are, 6 or 9. Both are 0 where the slot is empty. Only reads. Refusals: 2, 3, 10. */
uint8_t a5_show(const double *face, size_t face_length, const double *sphere, size_t sphere_length, uint8_t kind,
                size_t slot, size_t part[2]);

/* Show's companion: filled becomes 1 where the slot is filled and 0 where it is empty. Only reads.
 * Refusals: 2, 3, 10. */
uint8_t a5_slot_state(const double *face, size_t face_length, const double *sphere, size_t sphere_length, uint8_t kind,
                      size_t slot, uint8_t *filled);

/* Nearest: the number of the origin nearest to theta and phi, in radians (-8 to 8), goes to id. Refusals: 5, 6. */
uint8_t a5_nearest(double theta, double phi, uint8_t *id);

/* From longitude (-360 to 360) and latitude (-90 to 90), in degrees, to the authalic sphere: to[0] is theta and to[1]
 * is phi, in radians. Refusals: 5, 6, 9. */
uint8_t a5_from_lon_lat(double longitude, double latitude, double to[2]);

/* From theta and phi on the authalic sphere, in radians (-8 to 8), to longitude and latitude, in degrees: to[0] is the
 * longitude and to[1] the latitude. Refusals: 5, 6, 9. */
uint8_t a5_to_lon_lat(double theta, double phi, double to[2]);

/* A table of twelve origins, for a dodecahedron that is turned: a row of seven numbers an origin, in the order of their
 * numbers: axis theta, axis phi, quaternion x, y, z, w, angle. Theta, phi and angle lie in -8 to 8 and quaternion numbers in
 * -1 to 1; the sum of a quaternion's squares is within 1e-12 of 1. A set is opened with a table, and the calls on it are then
 * handed that same table. Each call below is the one without a table, with the origins of the table in place of the
 * built-in ones; a5_open, a5_forward and so on are the same calls with the built-in table. */
#define A5_TABLE (A5_ORIGINS * 7)

/* Open with a table. Refusals: 20, 1, 2, 3, 21, 22, 7. */
uint8_t a5_open_with(const double *table, size_t table_length, double *frame, size_t frame_length, double *face,
                     size_t face_length, double *sphere, size_t sphere_length);

/* Forward with a table. Refusals: 20, 1, 2, 3, 21, 22, 4, 5, 6, 8, 9. */
uint8_t a5_forward_with(const double *table, size_t table_length, const double *frame, size_t frame_length, double *face,
                        size_t face_length, double *sphere, size_t sphere_length, double theta, double phi,
                        uint8_t origin, double to[2]);

/* Inverse with a table. Refusals: 20, 1, 2, 3, 21, 22, 4, 5, 6, 8, 19, 9. */
uint8_t a5_inverse_with(const double *table, size_t table_length, const double *frame, size_t frame_length, double *face,
                        size_t face_length, double *sphere, size_t sphere_length, double x, double y, uint8_t origin,
                        double to[2]);

/* Place with a table. Refusals: 20, 1, 2, 3, 21, 22, 5, 6, 8, 9. */
uint8_t a5_place_with(const double *table, size_t table_length, const double *frame, size_t frame_length, double *face,
                      size_t face_length, double *sphere, size_t sphere_length, double longitude, double latitude,
                      uint8_t *id, double to[2]);

/* Place a list with a table: as a5_place_with would one by one. Refusals of the list itself, which leave every result and the
 * set: 20, 1, 2, 3, 21, 22, 14. */
uint8_t a5_place_list_with(const double *table, size_t table_length, const double *frame, size_t frame_length,
                           double *face, size_t face_length, double *sphere, size_t sphere_length,
                           const a5_position *positions, size_t positions_length, a5_result *results,
                           size_t results_length);

/* Unplace with a table. Refusals: 20, 1, 2, 3, 21, 22, 4, 5, 6, 8, 19, 9. */
uint8_t a5_unplace_with(const double *table, size_t table_length, const double *frame, size_t frame_length, double *face,
                        size_t face_length, double *sphere, size_t sphere_length, double x, double y, uint8_t origin,
                        double to[2]);

/* A region with a table. Refusals: 20, 1, 2, 3, 21, 22, 15, 14, the first failing position's (5, 6, 8, 9), 16. */
uint8_t a5_region_with(const double *table, size_t table_length, const double *frame, size_t frame_length, double *face,
                       size_t face_length, double *sphere, size_t sphere_length, const a5_position *positions,
                       size_t positions_length, a5_point *points, size_t points_length, uint8_t *origin, a5_box *box);

/* Nearest with a table. Refusals: 20, 21, 22, 5, 6. */
uint8_t a5_nearest_with(const double *table, size_t table_length, double theta, double phi, uint8_t *id);

/* How many bytes a table file has: the mark EAT, the 16-bit version 1 and the 84 numbers, big-endian. */
#define A5_TABLE_FILE 677

/* Reads a table file: its numbers go to table. Refusals: 20, 21, 22; the table then stays as it was. */
uint8_t a5_table_load(const uint8_t *bytes, size_t n, double table[A5_TABLE]);

/* Writes the file of a table, which a5_table_load reads back, to A5_TABLE_FILE bytes. Refusals: 20, also where there are not so
 * many bytes, 21, 22; the bytes then stay as they were. */
uint8_t a5_table_save(const double *table, size_t table_length, uint8_t *bytes, size_t n);

/* The caption panel: 32 bytes of registers, through which a panel reaches a set. By their places:
 *  0       the command: 0 nothing, 1 place, 2 unplace
 *  1       the status: bit 0 done, bit 1 refused
 *  2       the mask of those two bits
 *  3       the interrupt line: 1 where status and mask share bit 0 or bit 1, else 0
 *  4       the origin: unplace's own, and where an answered place leaves its answer's
 *  5       the number of the refusal
 *  8 to 15 two signed 32-bit inputs, big-endian: longitude and latitude in 1e-7 degree, or x and y in 1e-9
 * 16 to 31 two doubles, big-endian: x and y, or longitude and latitude in degrees
 * Bytes 6 and 7 are not used. */
#define A5_BLOCK 32
#define A5_PANEL_COMMAND 0
#define A5_PANEL_STATUS 1
#define A5_PANEL_MASK 2
#define A5_PANEL_INTERRUPT 3
#define A5_PANEL_ORIGIN 4
#define A5_PANEL_REFUSAL 5
#define A5_PANEL_INPUTS 8
#define A5_PANEL_RESULTS 16

#define A5_COMMAND_NOTHING 0
#define A5_COMMAND_PLACE 1
#define A5_COMMAND_UNPLACE 2

#define A5_PANEL_DONE 1
#define A5_PANEL_REFUSED 2

/* Panel step: carries out the command in the block, on the set, and sets byte 0 to 0; with command 0 only the interrupt byte is
 * worked out anew. After a command the status is exactly 1 or 2, and the interrupt byte is that of this status. Done writes both
 * results and clears byte 5, and an answered place writes the origin byte; what place or unplace refuses, and 12 for another
 * command, stands in byte 5, and then origin and results stay; the step itself then returns 0. No step alters byte 2 or bytes 6
 * to 15. Refusals of the step itself, which leave the block and the set: 23, 1, 2, 3. */
uint8_t a5_panel_step(const double *frame, size_t frame_length, double *face, size_t face_length, double *sphere,
                      size_t sphere_length, uint8_t *block, size_t n);

/* Panel step with a table. Refusals of the step itself: 20, 23, 1, 2, 3, 21, 22. */
uint8_t a5_panel_step_with(const double *table, size_t table_length, const double *frame, size_t frame_length, double *face,
                           size_t face_length, double *sphere, size_t sphere_length, uint8_t *block, size_t n);

/* Makes the box a new one, whatever stood there: empty, with sides 0.0. */
void a5_box_new(a5_box *box);

/* Takes the point x, y (-4 to 4) in. The first point becomes all four sides; a later one replaces a side exactly when it
 * is strictly beyond it, so that of -0.0 and 0.0 the first stays. Whatever the sides are, NaN too, the call ends so.
 * Refusals: 5, 6, for x and then for y; the box then stays as it was. */
uint8_t a5_box_take(a5_box *box, double x, double y);

/* Fair turns: hands out a turn's 256 place calls to 16 channels by what each wishes for. A channel first gets the smaller
 * of its wish and 16; what remains is handed out singly in channel order, round after round, to those still short. So
 * every channel gets at least the smaller of 16 and its wish, and none more than its wish. What channel k gets goes to
 * grants[k]. Refusals: 24, 25. */
uint8_t a5_fair_turns(const uint16_t *wishes, size_t wishes_length, uint16_t *grants, size_t grants_length);

/* The square root, rounded to the nearest double, as IEEE 754 has it: the root that the calls take. Refuses nothing. */
double a5_sqrt(double x);

/* How many rounds that root takes, a binary digit a round from the first 1 on: the least count of digits that are the exact
 * root, or 53 where there is none; 0 for all but a finite number above 0. So 4 gives 1, 9 gives 2 and 2 gives 53. */
uint32_t a5_sqrt_rounds(double x);

/* How many strikes a window keeps at most, and how many minutes it looks back. */
#define A5_WINDOW_MOST 4096
#define A5_WINDOW_MINUTES 180

/* A window of strikes: those accepted whose minute is less than 180 behind the last accepted one, and how many of them
 * each origin has. The caller owns it, 20,540 bytes aligned to 4, and lends it to the calls; it is not used by two
 * threads at once, unless both only read. Its fields are the library's. Whatever they hold, each call ends; what the
 * calls say of the strikes holds for a window that a5_window_new made empty and only a5_window_add wrote since. */
typedef struct a5_window {
    uint32_t minutes[A5_WINDOW_MOST];
    uint8_t origins[A5_WINDOW_MOST];
    uint32_t counts[A5_ORIGINS];
    struct {
        uint32_t first, kept, last;
    } state;
} a5_window;

/* New: makes a window empty, whatever stood there. */
void a5_window_new(a5_window *window);

/* Add: drops the strikes that are 180 minutes or more behind this one, and keeps it. A minute equal to the last accepted
 * one is accepted. Refusals, in this order: 4, 17, 18; then nothing is dropped. */
uint8_t a5_window_add(a5_window *window, uint32_t minute, uint8_t origin);

/* How many of the kept strikes each origin has. Only reads the window. */
void a5_window_counts(const a5_window *window, uint32_t counts[A5_ORIGINS]);

/* How many strikes are kept: the sum of the counts. Only reads. */
uint32_t a5_window_kept(const a5_window *window);

/* How many bytes a page has: 60 lines of 80 columns and a newline. No 0 byte ends it. */
#define A5_PAGE 4860

/* Sheet: prints a window's counts on a page of A5_PAGE bytes, as text: a title, a row for each origin, and the sum of the
 * twelve counts, each right-aligned in columns 71 to 80. Only reads the window, whatever it holds; of a sum that has eleven
 * digits, which no window has that only a5_window_add wrote, the last ten stand there. Refusal: 26. */
uint8_t a5_sheet(const a5_window *window, uint8_t *page, size_t n);

#ifdef __cplusplus
}
#endif

#endif
