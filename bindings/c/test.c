/* The C interface, tried on the linked library: open, refusals, wrong lengths, the session of document 01, a session of
 * place and unplace, show, b x c in a sphere slot, and fair turns. Prints what failed and then one line; the exit status is 0 where nothing failed. */
#include "../a5.h"
#include "check.h"
#include <math.h>
#include <stdio.h>
#include <string.h>

/* ---- a set, and its calls in one form */

/* Each buffer has a number more than it should, so that there is something to lend where a length is one too many. */
struct set {
    double frame[A5_FRAME + 1];
    double face[A5_FACE_STORE + 1];
    double sphere[A5_SPHERE_STORE + 1];
    size_t frame_length, face_length, sphere_length;
};

#define LENT(s) (s)->frame, (s)->frame_length, (s)->face, (s)->face_length, (s)->sphere, (s)->sphere_length
#define STORES(s) (s)->face, (s)->face_length, (s)->sphere, (s)->sphere_length

/* What a call leaves. Before the call it holds numbers that no call answers. */
struct outcome {
    uint8_t status;
    uint8_t id;
    double to[2];
};
static const struct outcome UNTOUCHED = {A5_ANSWERED, 77, {-1234.5, 5432.1}};

typedef struct outcome call(struct set *s, double first, double second, uint8_t origin);

/* A call in this form: the library's function with what it takes of s, first, second, origin and the outcome o. */
#define FORM(name, status_of)                                                                                          \
    static struct outcome name(struct set *s, double first, double second, uint8_t origin) {                           \
        struct outcome o = UNTOUCHED;                                                                                  \
        (void)s, (void)first, (void)second, (void)origin;                                                              \
        o.status = status_of;                                                                                          \
        return o;                                                                                                      \
    }
FORM(opening, a5_open(LENT(s)))
FORM(forward, a5_forward(LENT(s), first, second, origin, o.to))
FORM(inverse, a5_inverse(LENT(s), first, second, origin, o.to))
FORM(place, a5_place(LENT(s), first, second, &o.id, o.to))
FORM(unplace, a5_unplace(LENT(s), first, second, origin, o.to))
FORM(nearest, a5_nearest(first, second, &o.id))
FORM(from_lon_lat, a5_from_lon_lat(first, second, o.to))
FORM(to_lon_lat, a5_to_lon_lat(first, second, o.to))

/* Every call that takes two numbers, with their limits. The first four take a set, and three of these an origin. */
static const struct {
    const char *name;
    call *call;
    double limits[2];
    int takes_origin;
} CALLS[] = {
    {"forward", forward, {A5_ANGLE_LIMIT, A5_ANGLE_LIMIT}, 1},
    {"inverse", inverse, {A5_FACE_LIMIT, A5_FACE_LIMIT}, 1},
    {"place", place, {A5_LONGITUDE_LIMIT, A5_LATITUDE_LIMIT}, 0},
    {"unplace", unplace, {A5_FACE_LIMIT, A5_FACE_LIMIT}, 1},
    {"nearest", nearest, {A5_ANGLE_LIMIT, A5_ANGLE_LIMIT}, 0},
    {"from_lon_lat", from_lon_lat, {A5_LONGITUDE_LIMIT, A5_LATITUDE_LIMIT}, 0},
    {"to_lon_lat", to_lon_lat, {A5_ANGLE_LIMIT, A5_ANGLE_LIMIT}, 0},
};
enum { ON_A_SET = 4, ALL = 7 };

/* A set of the right lengths with the same number everywhere. */
static struct set filled_with(double number) {
    struct set s;
    for (size_t i = 0; i < A5_FRAME + 1; i++)
        s.frame[i] = number;
    for (size_t i = 0; i < A5_FACE_STORE + 1; i++)
        s.face[i] = number;
    for (size_t i = 0; i < A5_SPHERE_STORE + 1; i++)
        s.sphere[i] = number;
    s.frame_length = A5_FRAME;
    s.face_length = A5_FACE_STORE;
    s.sphere_length = A5_SPHERE_STORE;
    return s;
}

static struct set opened(void) {
    struct set s = filled_with(0.25);
    CHECK(a5_open(LENT(&s)) == A5_ANSWERED, "open");
    return s;
}

static int same_numbers(const struct set *s, const struct set *t) {
    return memcmp(s->frame, t->frame, sizeof s->frame) == 0 && memcmp(s->face, t->face, sizeof s->face) == 0 &&
           memcmp(s->sphere, t->sphere, sizeof s->sphere) == 0;
}

static int same_outcome(struct outcome o, struct outcome p) {
    return o.status == p.status && o.id == p.id && memcmp(o.to, p.to, sizeof o.to) == 0;
}

/* The call is refused with the number, and everything lent is left as it was. */
static void refuses(const char *name, call *tried, struct set *s, double first, double second, uint8_t origin,
                    uint8_t number) {
    struct set before = *s;
    struct outcome expected = UNTOUCHED;
    struct outcome o = tried(s, first, second, origin);
    expected.status = number;
    CHECK(o.status == number, name);
    CHECK(same_outcome(o, expected), name);
    CHECK(same_numbers(s, &before), name);
}

/* ---- open */

static int all_zero(const double *numbers, size_t length) {
    static const double zero;
    for (size_t i = 0; i < length; i++)
        if (memcmp(&numbers[i], &zero, sizeof zero) != 0)
            return 0;
    return 1;
}

/* The frame's rows have length 1 and row 0 is the north pole, the stores are 0.0, and the number behind each buffer is
 * left as it was. */
static void opening_a_set(void) {
    struct set s = opened();
    for (size_t i = 0; i < A5_FRAME; i += 3) {
        const double *row = s.frame + i;
        CHECK(fabs(row[0] * row[0] + row[1] * row[1] + row[2] * row[2] - 1.0) < 1e-12, "open");
    }
    CHECK(s.frame[0] == 0.0 && s.frame[1] == 0.0 && s.frame[2] == 1.0, "open");
    CHECK(all_zero(s.face, A5_FACE_STORE) && all_zero(s.sphere, A5_SPHERE_STORE), "open");
    CHECK(s.frame[A5_FRAME] == 0.25 && s.face[A5_FACE_STORE] == 0.25 && s.sphere[A5_SPHERE_STORE] == 0.25, "open");
}

/* ---- refusals */

/* How long a sphere store was before b x c stood in its slots: 240 slots of 10. */
enum { OLD_SPHERE_STORE = 2400 };

static void wrong_lengths_of(const char *name, call *tried) {
    struct set s = filled_with(0.25);
    const size_t lengths[3] = {A5_FRAME, A5_FACE_STORE, A5_SPHERE_STORE};
    size_t *buffers[3] = {&s.frame_length, &s.face_length, &s.sphere_length};
    for (int b = 0; b < 3; b++) {
        const size_t wrong[] = {0, lengths[b] - 1, lengths[b] + 1};
        for (int w = 0; w < 3; w++) {
            *buffers[b] = wrong[w];
            refuses(name, tried, &s, 0.0, 0.0, 0, (uint8_t)(b + 1));
        }
        *buffers[b] = lengths[b];
    }
    s.sphere_length = OLD_SPHERE_STORE;
    refuses(name, tried, &s, 0.0, 0.0, 0, A5_REFUSED_SPHERE_STORE_LENGTH);
    s.sphere_length = 0;
    refuses(name, tried, &s, NAN, NAN, 12, A5_REFUSED_SPHERE_STORE_LENGTH);
    s.face_length = 0;
    refuses(name, tried, &s, NAN, NAN, 12, A5_REFUSED_FACE_STORE_LENGTH);
    s.frame_length = 0;
    refuses(name, tried, &s, NAN, NAN, 12, A5_REFUSED_FRAME_LENGTH);
}

static void wrong_lengths(void) {
    wrong_lengths_of("open", opening);
    for (int c = 0; c < ON_A_SET; c++)
        wrong_lengths_of(CALLS[c].name, CALLS[c].call);
}

static void wrong_origins(void) {
    struct set s = opened();
    for (int c = 0; c < ALL; c++) {
        if (!CALLS[c].takes_origin)
            continue;
        refuses(CALLS[c].name, CALLS[c].call, &s, 0.0, 0.0, 12, A5_REFUSED_UNKNOWN_ORIGIN);
        refuses(CALLS[c].name, CALLS[c].call, &s, NAN, 0.0, 255, A5_REFUSED_UNKNOWN_ORIGIN);
        CHECK(CALLS[c].call(&s, 0.5, 0.5, 11).status == A5_ANSWERED, CALLS[c].name);
    }
}

static void wrong_numbers_of(const char *name, call *tried, struct set *s, double first, double second) {
    const double not_finite[] = {NAN, INFINITY, -INFINITY};
    for (int i = 0; i < 3; i++) {
        refuses(name, tried, s, not_finite[i], 0.0, 0, A5_REFUSED_NOT_FINITE);
        refuses(name, tried, s, 0.0, not_finite[i], 0, A5_REFUSED_NOT_FINITE);
    }
    const double above = nextafter(first, INFINITY), second_above = nextafter(second, INFINITY);
    refuses(name, tried, s, above, 0.0, 0, A5_REFUSED_OUT_OF_RANGE);
    refuses(name, tried, s, -above, 0.0, 0, A5_REFUSED_OUT_OF_RANGE);
    refuses(name, tried, s, 0.0, second_above, 0, A5_REFUSED_OUT_OF_RANGE);
    refuses(name, tried, s, 0.0, -second_above, 0, A5_REFUSED_OUT_OF_RANGE);
    refuses(name, tried, s, above, NAN, 0, A5_REFUSED_OUT_OF_RANGE);
    refuses(name, tried, s, NAN, second_above, 0, A5_REFUSED_NOT_FINITE);
    CHECK(tried(s, first, second, 0).status == A5_ANSWERED, name);
    CHECK(tried(s, -first, -second, 0).status == A5_ANSWERED, name);
}

static void wrong_numbers(void) {
    struct set s = opened();
    for (int c = 0; c < ALL; c++)
        wrong_numbers_of(CALLS[c].name, CALLS[c].call, &s, CALLS[c].limits[0], CALLS[c].limits[1]);
}

/* 8 on a set that was never opened, 9 at the antipode of an origin's axis, 19 at a point whose angle is beyond 64. */
static void wrong_contents_and_answers(void) {
    struct set zeros = filled_with(0.0), s = opened();
    for (int c = 0; c < ON_A_SET; c++)
        refuses(CALLS[c].name, CALLS[c].call, &zeros, 0.1, 0.1, 0, A5_REFUSED_NO_VERTEX);
    refuses("forward", forward, &s, 0.0, 3.141592653589793, 0, A5_REFUSED_ANSWER_NOT_FINITE);
    refuses("inverse", inverse, &s, 1.235847662, -0.125812592, 7, A5_REFUSED_ANGLE_OUTSIDE);
    refuses("unplace", unplace, &s, 1.235847662, -0.125812592, 7, A5_REFUSED_ANGLE_OUTSIDE);
}

/* ---- show */

/* Show and its companion refuse with the number, and leave what is lent. */
static void show_refuses(struct set *s, uint8_t kind, size_t slot, uint8_t number) {
    struct set before = *s;
    size_t part[2] = {7777, 8888};
    uint8_t filled = 99;
    CHECK(a5_show(STORES(s), kind, slot, part) == number, "show");
    CHECK(a5_slot_state(STORES(s), kind, slot, &filled) == number, "slot_state");
    CHECK(part[0] == 7777 && part[1] == 8888 && filled == 99, "show");
    CHECK(same_numbers(s, &before), "show");
}

/* Show and its companion answer: the slot is empty, or its coordinates, six or nine, lie behind a mark of 1.0. */
static int is_shown(const struct set *s, uint8_t kind, size_t slot) {
    const int is_face = kind == A5_KIND_FACE;
    const double *store = is_face ? s->face : s->sphere;
    const size_t width = is_face ? A5_FACE_WIDTH : A5_SPHERE_WIDTH, coordinates = is_face ? 6 : 9;
    size_t part[2] = {7777, 8888};
    uint8_t filled = 99;
    CHECK(a5_show(STORES(s), kind, slot, part) == A5_ANSWERED, "show");
    CHECK(a5_slot_state(STORES(s), kind, slot, &filled) == A5_ANSWERED, "slot_state");
    CHECK(filled == (store[slot * width] == 1.0), "slot_state");
    CHECK(part[0] == (filled ? slot * width + 1 : 0), "show");
    CHECK(part[1] == (filled ? coordinates : 0), "show");
    return filled;
}

static int shown_in(const struct set *s, uint8_t kind) {
    const size_t slots = kind == A5_KIND_FACE ? A5_FACE_SLOTS : A5_SPHERE_SLOTS;
    int count = 0;
    for (size_t slot = 0; slot < slots; slot++)
        count += is_shown(s, kind, slot);
    return count;
}

static void showing(void) {
    struct set s = opened();
    CHECK(shown_in(&s, A5_KIND_FACE) == 0 && shown_in(&s, A5_KIND_SPHERE) == 0, "before place");
    CHECK(place(&s, 16.3725, 48.2083, 0).id == 5, "place");
    CHECK(shown_in(&s, A5_KIND_FACE) == 1 && shown_in(&s, A5_KIND_SPHERE) == 1, "after place");
    CHECK(is_shown(&s, A5_KIND_FACE, 9), "face slot 9");
    CHECK(is_shown(&s, A5_KIND_SPHERE, 59), "sphere slot 59");
    CHECK(is_shown(&s, 255, 59), "any other number names the sphere store");

    show_refuses(&s, A5_KIND_FACE, A5_FACE_SLOTS, A5_REFUSED_UNKNOWN_SLOT);
    show_refuses(&s, A5_KIND_SPHERE, A5_SPHERE_SLOTS, A5_REFUSED_UNKNOWN_SLOT);
    show_refuses(&s, A5_KIND_FACE, SIZE_MAX, A5_REFUSED_UNKNOWN_SLOT);
    show_refuses(&s, A5_KIND_SPHERE, SIZE_MAX, A5_REFUSED_UNKNOWN_SLOT);
    const size_t wrong_sphere[] = {0, OLD_SPHERE_STORE, A5_SPHERE_STORE - 1, A5_SPHERE_STORE + 1};
    const size_t wrong_face[] = {0, A5_FACE_STORE - 1, A5_FACE_STORE + 1};
    for (int w = 0; w < 4; w++) {
        s.sphere_length = wrong_sphere[w];
        show_refuses(&s, A5_KIND_FACE, A5_FACE_SLOTS, A5_REFUSED_SPHERE_STORE_LENGTH);
    }
    for (int w = 0; w < 3; w++) {
        s.face_length = wrong_face[w];
        show_refuses(&s, A5_KIND_SPHERE, 0, A5_REFUSED_FACE_STORE_LENGTH);
    }
}

/* ---- b x c in a sphere slot */

/* The only filled sphere slot. */
static double *filled_sphere(struct set *s) {
    double *found = NULL;
    for (size_t slot = 0; slot < A5_SPHERE_SLOTS; slot++) {
        double *numbers = s->sphere + slot * A5_SPHERE_WIDTH;
        if (numbers[0] != 1.0)
            continue;
        CHECK(found == NULL, "one filled slot");
        found = numbers;
    }
    return found;
}

/* Each call on a set fills all 13 numbers of its sphere slot: 1.0, a, b, c and b x c, bit for bit. A slot that is filled
 * with another b x c is left as it is; forward and place follow it, inverse and unplace answer as before. */
static void cross_products(void) {
    for (int c = 0; c < ON_A_SET; c++) {
        const int reads = CALLS[c].call == forward || CALLS[c].call == place;
        struct set s = opened();
        struct outcome before = CALLS[c].call(&s, 0.3, 0.4, 5);
        double *slot = filled_sphere(&s);
        CHECK(before.status == A5_ANSWERED && slot != NULL, CALLS[c].name);
        if (slot == NULL)
            continue;
        const double *vb = slot + 4, *vc = slot + 7;
        double *bxc = slot + 1 + A5_SPHERE_COORDINATES;
        const double formed[3] = {
            vb[1] * vc[2] - vb[2] * vc[1],
            vb[2] * vc[0] - vb[0] * vc[2],
            vb[0] * vc[1] - vb[1] * vc[0],
        };
        CHECK(A5_SPHERE_WIDTH == 13 && bxc + 3 == slot + A5_SPHERE_WIDTH, "13 numbers");
        CHECK(memcmp(bxc, formed, sizeof formed) == 0, CALLS[c].name);

        for (int i = 0; i < 3; i++)
            bxc[i] *= 1.125;
        struct set foreign = s;
        struct outcome after = CALLS[c].call(&s, 0.3, 0.4, 5);
        CHECK(after.status == A5_ANSWERED, CALLS[c].name);
        CHECK(same_outcome(after, before) == !reads, CALLS[c].name);
        CHECK(same_numbers(&s, &foreign), CALLS[c].name);
    }
}

/* ---- fair turns */

/* The wishes and the grants of a turn, each with two numbers more behind it. */
enum { TURN_ROOM = A5_CHANNELS + 2 };

static void grants_are(const uint16_t *wishes, const uint16_t *wanted) {
    uint16_t grants[TURN_ROOM];
    for (size_t i = 0; i < TURN_ROOM; i++)
        grants[i] = 4321;
    CHECK(a5_fair_turns(wishes, A5_CHANNELS, grants, A5_CHANNELS) == A5_ANSWERED, "fair_turns");
    CHECK(memcmp(grants, wanted, A5_CHANNELS * sizeof *grants) == 0, "fair_turns");
    CHECK(grants[A5_CHANNELS] == 4321 && grants[A5_CHANNELS + 1] == 4321, "behind the grants");
}

static void turn_refused(size_t wishes_length, size_t grants_length, uint8_t number) {
    const uint16_t wishes[TURN_ROOM] = {1, 2, 3};
    uint16_t grants[TURN_ROOM], before[TURN_ROOM];
    for (size_t i = 0; i < TURN_ROOM; i++)
        before[i] = grants[i] = (uint16_t)(60000 + i);
    CHECK(a5_fair_turns(wishes, wishes_length, grants, grants_length) == number, "fair_turns");
    CHECK(memcmp(grants, before, sizeof grants) == 0, "refused turns");
}

static void fair_turns(void) {
    const uint16_t none[A5_CHANNELS] = {0}, most = 65535;
    uint16_t all[A5_CHANNELS], shares[A5_CHANNELS];
    for (size_t i = 0; i < A5_CHANNELS; i++)
        all[i] = most, shares[i] = 16;
    grants_are(none, none);
    grants_are(all, shares);
    grants_are(shares, shares);
    const uint16_t greedy[A5_CHANNELS] = {[9] = most}, whole[A5_CHANNELS] = {[9] = A5_TURN_CALLS};
    grants_are(greedy, whole);
    /* 208 calls remain after the first shares: 69 rounds and one call more */
    const uint16_t three[A5_CHANNELS] = {[2] = most, [5] = 300, [15] = 86};
    const uint16_t rounds[A5_CHANNELS] = {[2] = 86, [5] = 85, [15] = 85};
    grants_are(three, rounds);

    const size_t wrong[] = {0, A5_CHANNELS - 1, A5_CHANNELS + 1};
    for (int w = 0; w < 3; w++) {
        turn_refused(wrong[w], A5_CHANNELS, A5_REFUSED_WISH_COUNT);
        turn_refused(A5_CHANNELS, wrong[w], A5_REFUSED_GRANT_COUNT);
        turn_refused(wrong[w], wrong[w], A5_REFUSED_WISH_COUNT);
    }
}

/* ---- sessions */

static int32_t number_at(const uint8_t *bytes) {
    uint32_t n = (uint32_t)bytes[0] << 24 | (uint32_t)bytes[1] << 16 | (uint32_t)bytes[2] << 8 | bytes[3];
    return (int32_t)n;
}

static unsigned long long bits(double x) {
    unsigned long long b;
    memcpy(&b, &x, sizeof b);
    return b;
}

/* The strike program's line for a record. */
static void line_of(struct set *s, const uint8_t *record, char *line, size_t size) {
    double first = number_at(record + 2), second = number_at(record + 6);
    struct outcome o = record[0] == 1 ? place(s, first / 10000000.0, second / 10000000.0, 0)
                                      : unplace(s, first / 1000000000.0, second / 1000000000.0, record[1]);
    if (o.status != A5_ANSWERED)
        snprintf(line, size, "R %u", o.status);
    else if (record[0] == 1)
        snprintf(line, size, "P %u %016llx %016llx", o.id, bits(o.to[0]), bits(o.to[1]));
    else
        snprintf(line, size, "U %016llx %016llx", bits(o.to[0]), bits(o.to[1]));
}

/* Document 01, "The strike program": the records of its example and the lines that they give. */
static void session_of_document_01(void) {
    static const uint8_t records[3][10] = {
        {0x01, 0x00, 0xC8, 0x91, 0x53, 0x80, 0x35, 0xA4, 0xE9, 0x00},
        {0x02},
        {0x02, 0x0C},
    };
    static const char *const lines[3] = {
        "P 0 0000000000000000 0000000000000000",
        "U c057400000000000 4056800000000000",
        "R 4",
    };
    struct set s = opened();
    for (int r = 0; r < 3; r++) {
        char line[64];
        line_of(&s, records[r], line, sizeof line);
        CHECK(strcmp(line, lines[r]) == 0, line);
    }
}

/* Place is from_lon_lat, nearest and forward; unplace is inverse and to_lon_lat. */
static void in_steps(struct set *s, double longitude, double latitude, struct outcome placed, struct outcome back) {
    struct outcome from = from_lon_lat(s, longitude, latitude, 0);
    struct outcome point = forward(s, from.to[0], from.to[1], placed.id);
    struct outcome position = inverse(s, placed.to[0], placed.to[1], placed.id);
    struct outcome to = to_lon_lat(s, position.to[0], position.to[1], 0);
    CHECK(nearest(s, from.to[0], from.to[1], 0).id == placed.id, "nearest");
    CHECK(memcmp(point.to, placed.to, sizeof point.to) == 0, "forward");
    CHECK(memcmp(to.to, back.to, sizeof to.to) == 0, "inverse");
}

/* One position placed and brought back: the same bits on the used set as on a new one, and near where it started. */
static void there_and_back(struct set *used, double longitude, double latitude) {
    struct set fresh = opened();
    struct outcome to = place(used, longitude, latitude, 0);
    CHECK(to.status == A5_ANSWERED && to.id < A5_ORIGINS, "place");
    CHECK(same_outcome(to, place(&fresh, longitude, latitude, 0)), "place");
    struct outcome back = unplace(used, to.to[0], to.to[1], to.id);
    CHECK(back.status == A5_ANSWERED, "unplace");
    fresh = opened();
    CHECK(same_outcome(back, unplace(&fresh, to.to[0], to.to[1], to.id)), "unplace");
    CHECK(fabs(remainder(back.to[0] - longitude, 360.0)) < 1e-9, "longitude");
    CHECK(fabs(back.to[1] - latitude) < 1e-9, "latitude");
    in_steps(used, longitude, latitude, to, back);
}

/* The second round finds every slot filled, and leaves the set as it is. */
static void session_of_place_and_unplace(void) {
    struct set s = opened(), fresh = s, after_first;
    for (int round = 0; round < 2; round++) {
        for (int longitude = -175; longitude <= 175; longitude += 14)
            for (int latitude = -84; latitude <= 84; latitude += 12)
                there_and_back(&s, longitude + 0.123, latitude + 0.321);
        if (round == 0)
            after_first = s;
    }
    CHECK(same_numbers(&s, &after_first), "the second round");
    CHECK(memcmp(s.frame, fresh.frame, sizeof s.frame) == 0, "the frame");
    CHECK(shown_in(&s, A5_KIND_FACE) >= 10 && shown_in(&s, A5_KIND_SPHERE) > 100, "the slots");
    CHECK(opening(&s, 0.0, 0.0, 0).status == A5_ANSWERED && same_numbers(&s, &fresh), "opened again");
}

/* ---- the square root */

static void root_is(double x, double root, uint32_t rounds) {
    double given = a5_sqrt(x);
    CHECK(memcmp(&given, &root, sizeof root) == 0, "sqrt");
    CHECK(a5_sqrt_rounds(x) == rounds, "sqrt_rounds");
}

static void square_roots(void) {
    root_is(4.0, 2.0, 1);
    root_is(9.0, 3.0, 2);
    root_is(2.0, 1.4142135623730951, 53);
    root_is(0.0, 0.0, 0);
    root_is(-0.0, -0.0, 0);
    root_is(INFINITY, INFINITY, 0);
    root_is(0x1p-1074, 0x1p-537, 1);
    root_is(67108863.0 * 67108863.0, 67108863.0, 26);
    const double none[] = {-1.0, NAN, -INFINITY};
    for (int i = 0; i < 3; i++)
        CHECK(isnan(a5_sqrt(none[i])) && a5_sqrt_rounds(none[i]) == 0, "no root");
}

int main(void) {
    opening_a_set();
    wrong_lengths();
    wrong_origins();
    wrong_numbers();
    wrong_contents_and_answers();
    showing();
    cross_products();
    fair_turns();
    square_roots();
    session_of_document_01();
    session_of_place_and_unplace();
    return finished("bindings/c/test");
}
