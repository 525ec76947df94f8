/* Long runs on the library: soak PART N SEED. tests/soak builds and runs it.
 *
 *   records N SEED    writes the strike program's header and N random records
 *   lines N SEED      reads the program's lines for them, and compares each with what the library gives on a set of its own
 *   calls N SEED      N random calls of every kind that writes to a set, on one, tables and panels among them, each compared with the same
 *                     call on a newly opened set, and every slot with the one that a used set of the same table has
 *   window N SEED     N additions to one window, compared with a plain list
 *   damage FILE       a table file with each of its bytes changed to every other value: what loading says, by the paper's rules, and calls
 *                     with each table that passes, compared with the same on a newly opened set
 *
 * Each prints one line; the exit status is 1 where something differs. */
#include "../bindings/a5.h"
#include <math.h>
#include <stdio.h>
#include <stdlib.h>
#include <string.h>

struct set {
    double frame[A5_FRAME], face[A5_FACE_STORE], sphere[A5_SPHERE_STORE];
};
#define LENT(s) (s)->frame, A5_FRAME, (s)->face, A5_FACE_STORE, (s)->sphere, A5_SPHERE_STORE
/* A call on a set with a table, or, where that is null, with the built-in one. */
#define ON(table, s, call, ...) ((table) ? call##_with(table, A5_TABLE, LENT(s), __VA_ARGS__) : call(LENT(s), __VA_ARGS__))

static uint64_t state;

/* The comparison before which one of the library's answers is spoilt, for the test of this test: SOAK_SPOIL. */
static size_t spoilt = SIZE_MAX;

static uint64_t random_bits(void) {
    uint64_t z = state += 0x9e3779b97f4a7c15u;
    z = (z ^ z >> 30) * 0xbf58476d1ce4e5b9u;
    z = (z ^ z >> 27) * 0x94d049bb133111ebu;
    return z ^ z >> 31;
}

static uint32_t below(uint32_t n) {
    return (uint32_t)((random_bits() >> 32) * n >> 32);
}

static double between(double low, double high) {
    return low + (high - low) * ((double)(random_bits() >> 11) * 0x1p-53);
}

static int failed(const char *part, size_t at, const char *what) {
    fprintf(stderr, "soak %s: %zu: %s\n", part, at, what);
    return 1;
}

static int open_set(const double *table, struct set *s) {
    return table ? a5_open_with(table, A5_TABLE, LENT(s)) : a5_open(LENT(s));
}

/* ---- the strike program's records and lines */

enum { RECORD = 10, AT_ONCE = 6000 };

static void write_number(uint8_t *bytes, uint32_t number) {
    for (int i = 0; i < 4; i++)
        bytes[i] = (uint8_t)(number >> (24 - 8 * i));
}

static int32_t read_number(const uint8_t *bytes) {
    return (int32_t)((uint32_t)bytes[0] << 24 | (uint32_t)bytes[1] << 16 | (uint32_t)bytes[2] << 8 | bytes[3]);
}

static void make_record(uint8_t record[RECORD]) {
    uint32_t kind = below(20);
    record[0] = kind == 0 ? (uint8_t)below(256) : kind < 12 ? 1 : 2;
    record[1] = record[0] == 1 && below(50) ? 0 : (uint8_t)below(13);
    if (record[0] == 1) {
        write_number(record + 2, (uint32_t)(int32_t)between(-1800000000.0, 1800000000.0));
        write_number(record + 6, (uint32_t)(int32_t)between(-905000000.0, 905000000.0));
    } else {
        double reach = below(10) ? 0.7e9 : 2.147e9;
        write_number(record + 2, (uint32_t)(int32_t)between(-reach, reach));
        write_number(record + 6, (uint32_t)(int32_t)between(-reach, reach));
    }
}

static int records(size_t n) {
    static uint8_t bytes[RECORD * AT_ONCE];
    fwrite("EAD\0\1", 1, 5, stdout);
    while (n > 0) {
        size_t now = n < AT_ONCE ? n : AT_ONCE;
        for (size_t i = 0; i < now; i++)
            make_record(bytes + RECORD * i);
        if (fwrite(bytes, RECORD, now, stdout) != now)
            return 1;
        n -= now;
    }
    return 0;
}

static char *hex(char *to, double number) {
    uint64_t bits;
    memcpy(&bits, &number, sizeof bits);
    for (int i = 60; i >= 0; i -= 4)
        *to++ = "0123456789abcdef"[bits >> i & 15];
    return to;
}

/* The line that a record should get. */
static size_t line_of(struct set *s, const uint8_t *record, char *line) {
    double to[2], a = read_number(record + 2), b = read_number(record + 6);
    uint8_t status = 12, id = record[1];
    if (record[0] == 1 && id == 0)
        status = a5_place(LENT(s), a / 10000000.0, b / 10000000.0, &id, to);
    else if (record[0] == 2)
        status = a5_unplace(LENT(s), a / 1000000000.0, b / 1000000000.0, id, to);
    if (status != A5_ANSWERED)
        return (size_t)sprintf(line, "R %d\n", status);
    char *end = line + (record[0] == 1 ? sprintf(line, "P %d ", id) : sprintf(line, "U "));
    end = hex(end, to[0]);
    *end++ = ' ';
    end = hex(end, to[1]);
    *end++ = '\n';
    return (size_t)(end - line);
}

static int lines(size_t n) {
    static struct set s;
    uint8_t record[RECORD];
    char wanted[80], line[80];
    if (a5_open(LENT(&s)) != A5_ANSWERED)
        return 1;
    for (size_t i = 0; i < n; i++) {
        make_record(record);
        size_t length = line_of(&s, record, wanted);
        bool is_read = fread(line, 1, length, stdin) == length;
        line[length - 2] ^= i == spoilt;
        if (!is_read || memcmp(line, wanted, length) != 0)
            return failed("lines", i, "another line");
    }
    if (getchar() != EOF)
        return failed("lines", n, "more lines than records");
    printf("soak records: %zu records, each line as the library answers\n", n);
    return 0;
}

/* ---- calls on one set against newly opened ones */

enum { TABLES = 8, LONGEST = 12 };

static struct {
    double numbers[A5_TABLE];
    /* null: the built-in table */
    const double *table;
    uint8_t status;
    struct set opened, used;
} tables[TABLES];

/* The built-in table turned about the poles: each quaternion and each theta. */
static void turn_table(const double *from, double angle, double *to) {
    memcpy(to, from, A5_TABLE * sizeof *to);
    double s = sin(angle / 2), c = cos(angle / 2);
    for (double *row = to; row < to + A5_TABLE; row += 7) {
        row[0] = fmod(row[0] + angle, 6.283185307179586);
        double x = row[2], y = row[3], z = row[4], w = row[5];
        row[2] = c * x - s * y;
        row[3] = c * y + s * x;
        row[4] = c * z + s * w;
        row[5] = c * w - s * z;
    }
}

/* Table 0 is the built-in one; the last has an axis that is nobody's, so that calls give 8; the one before cannot be opened. */
static int make_tables(const char *name) {
    uint8_t file[A5_TABLE_FILE + 1];
    double from[A5_TABLE];
    FILE *stream = fopen(name, "rb");
    if (!stream || fread(file, 1, sizeof file, stream) != A5_TABLE_FILE || a5_table_load(file, A5_TABLE_FILE, from) != A5_ANSWERED)
        return failed("calls", 0, "the table file can't be read");
    fclose(stream);
    for (int k = 0; k < TABLES; k++) {
        tables[k].table = k ? tables[k].numbers : NULL;
        turn_table(from, 0.37 * k, tables[k].numbers);
        if (k == TABLES - 1)
            tables[k].numbers[1] += 0.25;
        if (k == TABLES - 2)
            tables[k].numbers[6] += 1.0;
        tables[k].status = (uint8_t)open_set(tables[k].table, &tables[k].opened);
        if (tables[k].status != (k == TABLES - 2 ? A5_REFUSED_FRAME_ROWS : A5_ANSWERED))
            return failed("calls", (size_t)k, "a table that should open does not, or the reverse");
        tables[k].used = tables[k].opened;
        for (int i = 0; i < 20000 && tables[k].status == A5_ANSWERED; i++) {
            uint8_t id = (uint8_t)(i % 12);
            double to[2];
            ON(tables[k].table, &tables[k].used, a5_unplace, between(-1.0, 1.0), between(-1.0, 1.0), id, to);
        }
    }
    return 0;
}

/* A call: what goes in, and what comes out. */
struct call {
    uint32_t kind;
    double a, b;
    uint8_t origin;
    size_t n, m;
    a5_position positions[LONGEST];
    uint8_t block[A5_BLOCK];
    /* out */
    uint8_t status, id;
    double to[2];
    a5_result results[LONGEST];
    a5_point points[LONGEST];
    a5_box box;
};

enum { FORWARD, INVERSE, PLACE, UNPLACE, LIST, REGION, PANEL, KINDS };

static double odd_number(void) {
    static const double ODD[] = {0.0, -0.0, 90.0, -90.0, 180.0, -180.0, 360.0, 4.0, 8.0, 8.1, 400.0, 1e-300, INFINITY, -INFINITY, NAN, 0.6180339887498949};
    return ODD[below(sizeof ODD / sizeof *ODD)];
}

static void make_call(struct call *c) {
    memset(c, 0, sizeof *c);
    c->kind = below(KINDS);
    c->origin = (uint8_t)(below(40) ? below(12) : below(256));
    bool on_face = c->kind == INVERSE || c->kind == UNPLACE;
    double reach = on_face ? (below(4) ? 0.8 : 4.1) : 180.0;
    c->a = below(60) ? c->kind == FORWARD ? between(-8, 8) : between(-reach, reach) : odd_number();
    c->b = below(60) ? on_face ? between(-reach, reach) : c->kind == FORWARD ? between(-0.1, 3.3) : between(-90, 90) : odd_number();
    c->n = c->kind == REGION ? below(50) ? 1 + below(LONGEST) : 0 : below(LONGEST + 1);
    c->m = below(60) ? c->n : below(LONGEST + 1);
    double spread = below(2) ? 1.0 : 40.0;
    for (size_t i = 0; i < c->n; i++) {
        c->positions[i].longitude = c->a + between(-spread, spread);
        c->positions[i].latitude = below(200) ? fmax(-90, fmin(90, c->b + between(-spread, spread))) : odd_number();
    }
    for (int i = 0; i < A5_BLOCK; i++)
        c->block[i] = (uint8_t)random_bits();
    c->block[0] = (uint8_t)(below(20) ? below(3) : below(256));
    c->block[4] = c->origin;
    if (below(2)) {
        write_number(c->block + 8, (uint32_t)(int32_t)between(-0.8e9, 0.8e9));
        write_number(c->block + 12, (uint32_t)(int32_t)between(-0.8e9, 0.8e9));
    }
}

static void perform(const double *t, struct set *s, struct call *c) {
    switch (c->kind) {
    case FORWARD:
        c->status = ON(t, s, a5_forward, c->a, c->b, c->origin, c->to);
        break;
    case INVERSE:
        c->status = ON(t, s, a5_inverse, c->a, c->b, c->origin, c->to);
        break;
    case PLACE:
        c->status = ON(t, s, a5_place, c->a, c->b, &c->id, c->to);
        break;
    case UNPLACE:
        c->status = ON(t, s, a5_unplace, c->a, c->b, c->origin, c->to);
        break;
    case LIST:
        c->status = ON(t, s, a5_place_list, c->positions, c->n, c->results, c->m);
        break;
    case REGION:
        c->status = ON(t, s, a5_region, c->positions, c->n, c->points, c->m, &c->id, &c->box);
        break;
    default:
        c->status = ON(t, s, a5_panel_step, c->block, A5_BLOCK);
    }
}

static bool same_results(const struct call *a, const struct call *b) {
    for (size_t i = 0; i < LONGEST; i++)
        if (a->results[i].refusal != b->results[i].refusal || a->results[i].origin != b->results[i].origin ||
            memcmp(&a->results[i].x, &b->results[i].x, sizeof(double)) || memcmp(&a->results[i].y, &b->results[i].y, sizeof(double)))
            return false;
    return true;
}

/* The padding of results and boxes means nothing. */
static bool same(const struct call *a, const struct call *b) {
    return a->status == b->status && a->id == b->id && !memcmp(a->to, b->to, sizeof a->to) && !memcmp(a->points, b->points, sizeof a->points) &&
           !memcmp(a->block, b->block, sizeof a->block) && !memcmp(&a->box.least_x, &b->box.least_x, 4 * sizeof(double)) &&
           a->box.empty == b->box.empty && same_results(a, b);
}

/* Every filled slot is the one that a used set has, and the frame is as open wrote it. */
static bool slots_hold(const struct set *s, const struct set *used) {
    if (memcmp(s->frame, used->frame, sizeof s->frame))
        return false;
    for (int k = 0; k < A5_FACE_SLOTS; k++)
        if (s->face[k * A5_FACE_WIDTH] == 1.0 && memcmp(s->face + k * A5_FACE_WIDTH, used->face + k * A5_FACE_WIDTH, A5_FACE_WIDTH * sizeof(double)))
            return false;
    for (int k = 0; k < A5_SPHERE_SLOTS; k++)
        if (s->sphere[k * A5_SPHERE_WIDTH] == 1.0 &&
            memcmp(s->sphere + k * A5_SPHERE_WIDTH, used->sphere + k * A5_SPHERE_WIDTH, A5_SPHERE_WIDTH * sizeof(double)))
            return false;
    return true;
}

static int calls(size_t n, const char *file) {
    static struct set s, fresh;
    static struct call one, other;
    size_t now = 0, opens = 0, refused = 0;
    if (make_tables(file))
        return 1;
    s = tables[0].opened;
    for (size_t i = 0; i < n; i++) {
        if (below(2000) == 0) {
            /* an open that is refused leaves the table that was */
            size_t next = below(TABLES);
            uint8_t status = (uint8_t)open_set(tables[next].table, &s);
            if (status != tables[next].status)
                return failed("calls", i, "open");
            if (status == A5_ANSWERED)
                now = next;
            opens++;
            if (status == A5_ANSWERED && memcmp(&s, &tables[now].opened, sizeof s))
                return failed("calls", i, "open wrote another set");
        }
        make_call(&one);
        other = one;
        fresh = tables[now].opened;
        perform(tables[now].table, &s, &one);
        perform(tables[now].table, &fresh, &other);
        refused += one.status != A5_ANSWERED;
        one.block[31] ^= i == spoilt;
        if (!same(&one, &other))
            return failed("calls", i, "another answer than on a newly opened set");
        if (i % 64 == 0 && (!slots_hold(&s, &tables[now].used) || !slots_hold(&fresh, &tables[now].used)))
            return failed("calls", i, "a slot holds something else");
    }
    printf("soak calls: %zu calls on one set, %zu refused, %zu opens with %d tables: all as on a newly opened set\n", n, refused, opens, TABLES);
    return 0;
}

/* ---- additions to a window against a plain list */

static struct {
    uint32_t minute;
    uint8_t origin;
} ring[A5_WINDOW_MOST];

static int window(size_t n) {
    static a5_window w;
    uint32_t counts[A5_ORIGINS] = {0}, had[A5_ORIGINS], last = 0;
    size_t first = 0, end = 0, accepted = 0;
    a5_window_new(&w);
    for (size_t i = 0; i < n; i++) {
        uint32_t pace = (uint32_t)(i >> 16) % 4, minute = last + (below(pace == 0 ? 3 : 40) == 0) + (below(20000) == 0 ? below(400) : 0);
        uint8_t origin = (uint8_t)(below(100) ? below(12) : below(256));
        minute -= minute && below(100) == 0;
        size_t stay = first;
        while (stay < end && minute >= ring[stay % A5_WINDOW_MOST].minute && minute - ring[stay % A5_WINDOW_MOST].minute >= A5_WINDOW_MINUTES)
            stay++;
        uint8_t wanted = origin > 11 ? 4 : minute < last ? 17 : end - stay == A5_WINDOW_MOST ? 18 : 0;
        if (a5_window_add(&w, minute, origin) != wanted)
            return failed("window", i, "another status");
        if (wanted == 0) {
            for (; first < stay; first++)
                counts[ring[first % A5_WINDOW_MOST].origin]--;
            ring[end % A5_WINDOW_MOST].minute = last = minute;
            ring[end++ % A5_WINDOW_MOST].origin = origin;
            counts[origin]++;
            accepted++;
        }
        a5_window_counts(&w, had);
        had[11] ^= i == spoilt;
        if (memcmp(had, counts, sizeof counts) || a5_window_kept(&w) != end - first)
            return failed("window", i, "other counts");
    }
    printf("soak window: %zu additions, %zu accepted, %zu kept at the end, minute %u: all counts as in a plain list\n", n, accepted, end - first, last);
    return 0;
}

/* ---- every damage of a table file */

static uint8_t wanted_of(const uint8_t *file) {
    double t[A5_TABLE];
    if (memcmp(file, "EAT\0\1", 5))
        return 20;
    for (int k = 0; k < A5_TABLE; k++) {
        uint64_t bits = 0;
        for (int i = 0; i < 8; i++)
            bits = bits << 8 | file[5 + 8 * k + i];
        memcpy(&t[k], &bits, sizeof bits);
    }
    for (int k = 0; k < A5_TABLE; k++)
        if (!(fabs(t[k]) <= (k % 7 >= 2 && k % 7 <= 5 ? 1.0 : 8.0)))
            return 21;
    for (const double *r = t; r < t + A5_TABLE; r += 7)
        if (!(fabs(r[2] * r[2] + r[3] * r[3] + r[4] * r[4] + r[5] * r[5] - 1.0) <= 1e-12))
            return 22;
    return 0;
}

/* Some calls with a table on a set, each as on a newly opened one. */
static bool calls_agree(const double *table, struct set *s, const struct set *opened) {
    static struct set fresh;
    static struct call one, other;
    for (int i = 0; i < 8; i++) {
        make_call(&one);
        other = one;
        fresh = *opened;
        perform(table, s, &one);
        perform(table, &fresh, &other);
        if (!same(&one, &other))
            return false;
    }
    return true;
}

static int damage(const char *name) {
    static struct set s, opened;
    static uint8_t file[A5_TABLE_FILE + 1], damaged[A5_TABLE_FILE];
    double table[A5_TABLE];
    size_t by_status[32] = {0}, unopened = 0;
    FILE *stream = fopen(name, "rb");
    if (!stream || fread(file, 1, sizeof file, stream) != A5_TABLE_FILE)
        return failed("damage", 0, "the table file can't be read");
    fclose(stream);
    for (size_t at = 0; at < A5_TABLE_FILE; at++)
        for (int add = 1; add < 256; add++) {
            memcpy(damaged, file, sizeof damaged);
            damaged[at] = (uint8_t)(damaged[at] + add);
            uint8_t status = a5_table_load(damaged, A5_TABLE_FILE, table);
            status ^= at == spoilt;
            if (status != wanted_of(damaged))
                return failed("damage", at, "another status");
            by_status[status]++;
            if (status != A5_ANSWERED)
                continue;
            status = a5_open_with(table, A5_TABLE, LENT(&opened));
            unopened += status == A5_REFUSED_FRAME_ROWS;
            if (status != A5_ANSWERED && status != A5_REFUSED_FRAME_ROWS)
                return failed("damage", at, "open is refused otherwise");
            s = opened;
            if (status == A5_ANSWERED && !calls_agree(table, &s, &opened))
                return failed("damage", at, "another answer than on a newly opened set");
        }
    printf("soak damage: %d files: %zu loaded, of which %zu can't be opened (7); 20: %zu, 21: %zu, 22: %zu; all calls as on a newly opened set\n",
           A5_TABLE_FILE * 255, by_status[0], unopened, by_status[20], by_status[21], by_status[22]);
    return 0;
}

int main(int count, char **words) {
    const char *spoil = getenv("SOAK_SPOIL");
    if (spoil)
        spoilt = strtoull(spoil, NULL, 10);
    if (count == 3 && !strcmp(words[1], "damage"))
        return damage(words[2]);
    if (count < 4)
        return failed("soak", 0, "usage: soak PART N SEED");
    size_t n = strtoull(words[2], NULL, 10);
    state = strtoull(words[3], NULL, 10);
    if (!strcmp(words[1], "records"))
        return records(n);
    if (!strcmp(words[1], "lines"))
        return lines(n);
    if (!strcmp(words[1], "calls") && count == 5)
        return calls(n, words[4]);
    if (!strcmp(words[1], "window"))
        return window(n);
    return failed("soak", 0, "no such part");
}
