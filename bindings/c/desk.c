/* The desk: reads a feed of strikes, outlines, turns and panel commands, and prints what became of them, the counts of the last
 * three hours by face and by outline, and the as-run sheet.
 *
 *     desk [--table FILE] FEED
 *
 * A line of FEED is one of these; an empty one and one that starts with # are passed over:
 *
 *     MINUTE LONGITUDE LATITUDE           a strike; those of one minute that follow each other are placed as one list
 *     outline NAME LONGITUDE LATITUDE ..  a channel's outline on one face, whose box then counts strikes
 *     turn NAME WISH ..                   sixteen channels' wishes, to hand out a turn
 *     panel COMMAND ORIGIN FIRST SECOND   the panel's registers, in the strike program's units, and one step
 *
 * A bad line, and one that a call refuses, is named by its number on standard error and counted; the next one follows. The exit
 * status is 1 where a file can't be read, a table is refused or standard output can't be written, and else 0. */
#define _POSIX_C_SOURCE 200809L
#include "../a5.h"
#include <stdarg.h>
#include <stdio.h>
#include <stdlib.h>
#include <string.h>

enum { LIST = 512, OUTLINES = 64, NAME = 24 };

struct outline {
    char name[NAME + 1];
    uint8_t origin;
    a5_box box;
};

static struct {
    bool turned;
    double table[A5_TABLE], frame[A5_FRAME], face[A5_FACE_STORE], sphere[A5_SPHERE_STORE];
    a5_window window;
    /* the points of the strikes that the window accepted, in a ring: those that it keeps are the last of them */
    a5_result accepted[A5_WINDOW_MOST];
    size_t how_many;
    size_t by_face[A5_ORIGINS];
    /* strikes of one minute that wait to be placed, and their lines */
    a5_position positions[LIST];
    size_t lines[LIST], waiting;
    uint32_t minute;
    struct outline outlines[OUTLINES];
    size_t outline_count;
    uint8_t registers[A5_BLOCK];
    size_t line, strikes, bad;
} desk;

#define SET desk.frame, A5_FRAME, desk.face, A5_FACE_STORE, desk.sphere, A5_SPHERE_STORE
/* A call on the set, with the table where there is one. */
#define ON_SET(call, ...) (desk.turned ? call##_with(desk.table, A5_TABLE, SET, __VA_ARGS__) : call(SET, __VA_ARGS__))

/* Names a bad line, and counts it. */
static void bad(size_t line, const char *format, ...) {
    va_list words;
    va_start(words, format);
    fprintf(stderr, "line %zu: ", line);
    vfprintf(stderr, format, words);
    fputc('\n', stderr);
    va_end(words);
    desk.bad++;
}

/* ---- words of a line */

static char *next_word(char **rest) {
    return strtok_r(NULL, " \t\r\n", rest);
}

/* A number in decimal, as in 12.5 or -3e-2. */
static bool read_number(const char *word, double *number) {
    char *end;
    if (!word || word[strspn(word, "+-.0123456789eE")] != 0)
        return false;
    *number = strtod(word, &end);
    return end != word && *end == 0;
}

/* A whole number from least to most, which has at most ten digits. */
static bool read_whole(const char *word, int64_t least, int64_t most, int64_t *number) {
    if (!word)
        return false;
    const char *digits = word + (*word == '-');
    size_t length = strspn(digits, "0123456789");
    if (length == 0 || length > 10 || digits[length] != 0)
        return false;
    *number = strtoll(word, NULL, 10);
    return *number >= least && *number <= most;
}

/* A name of printable characters. */
static bool is_name(const char *word) {
    if (!word || strlen(word) > NAME)
        return false;
    for (; *word; word++)
        if (*word < '!' || *word > '~')
            return false;
    return true;
}

/* ---- strikes */

static void keep(uint32_t minute, a5_result place, size_t line) {
    uint8_t status = a5_window_add(&desk.window, minute, place.origin);
    if (status != A5_ANSWERED) {
        bad(line, "strike refused with %d", status);
        return;
    }
    desk.accepted[desk.how_many++ % A5_WINDOW_MOST] = place;
    desk.by_face[place.origin]++;
}

/* Places the strikes that wait, in one list. */
static void place_waiting(void) {
    a5_result results[LIST];
    size_t count = desk.waiting;
    desk.waiting = 0;
    if (ON_SET(a5_place_list, desk.positions, count, results, count) != A5_ANSWERED)
        abort(); /* the set and the results have the right lengths */
    for (size_t i = 0; i < count; i++) {
        if (results[i].refusal != A5_ANSWERED)
            bad(desk.lines[i], "strike refused with %d", results[i].refusal);
        else
            keep(desk.minute, results[i], desk.lines[i]);
    }
}

static void strike(const char *first, char **rest) {
    int64_t minute;
    a5_position at;
    if (!read_whole(first, 0, UINT32_MAX, &minute) || !read_number(next_word(rest), &at.longitude) || !read_number(next_word(rest), &at.latitude) ||
        next_word(rest)) {
        place_waiting();
        bad(desk.line, "no strike, outline, turn or panel command");
        return;
    }
    if (desk.waiting == LIST || minute != desk.minute)
        place_waiting();
    desk.strikes++;
    desk.minute = (uint32_t)minute;
    desk.lines[desk.waiting] = desk.line;
    desk.positions[desk.waiting++] = at;
}

/* ---- outlines, turns and the panel */

static void outline(char **rest) {
    /* one more than a region has at most, so that a longer outline is refused */
    a5_position positions[A5_REGION + 1];
    a5_point points[A5_REGION + 1];
    struct outline made;
    const char *name = next_word(rest), *word;
    size_t n = 0;
    if (!is_name(name)) {
        bad(desk.line, "no name");
        return;
    }
    while ((word = next_word(rest))) {
        a5_position at;
        if (!read_number(word, &at.longitude) || !read_number(next_word(rest), &at.latitude)) {
            bad(desk.line, "outline %s: no longitude and latitude", name);
            return;
        }
        if (n <= A5_REGION)
            positions[n++] = at;
    }
    a5_box_new(&made.box); /* a box that is lent must have true or false in empty */
    uint8_t status = ON_SET(a5_region, positions, n, points, n, &made.origin, &made.box);
    if (status != A5_ANSWERED || desk.outline_count == OUTLINES) {
        if (status != A5_ANSWERED)
            bad(desk.line, "outline %s refused with %d", name, status);
        else
            bad(desk.line, "outline %s: there are %d already", name, OUTLINES);
        return;
    }
    strcpy(made.name, name);
    desk.outlines[desk.outline_count++] = made;
    printf("outline %s: face %d, x %.9f to %.9f, y %.9f to %.9f\n", name, made.origin, made.box.least_x, made.box.greatest_x, made.box.least_y,
           made.box.greatest_y);
}

static void turn(char **rest) {
    uint16_t wishes[A5_CHANNELS + 1], grants[A5_CHANNELS];
    const char *name = next_word(rest), *word;
    size_t n = 0, wished = 0, granted = 0;
    if (!is_name(name)) {
        bad(desk.line, "no name");
        return;
    }
    while ((word = next_word(rest))) {
        int64_t wish;
        if (!read_whole(word, 0, UINT16_MAX, &wish)) {
            bad(desk.line, "turn %s: no wish", name);
            return;
        }
        if (n <= A5_CHANNELS)
            wishes[n++] = (uint16_t)wish;
    }
    uint8_t status = a5_fair_turns(wishes, n, grants, A5_CHANNELS);
    if (status != A5_ANSWERED) {
        bad(desk.line, "turn %s refused with %d", name, status);
        return;
    }
    for (size_t k = 0; k < A5_CHANNELS; k++)
        wished += wishes[k], granted += grants[k];
    printf("turn %s: %zu wished, %zu granted%s:", name, wished, granted, wished > A5_TURN_CALLS ? ", crowded" : "");
    for (size_t k = 0; k < A5_CHANNELS; k++)
        printf(" %d", grants[k]);
    printf("\n");
}

/* A signed number to four registers, the highest byte first. */
static void write_input(uint8_t *registers, int64_t number) {
    for (int i = 0; i < 4; i++)
        registers[i] = (uint8_t)((uint64_t)number >> (24 - 8 * i));
}

static double read_result(const uint8_t *registers) {
    uint64_t bits = 0;
    double number;
    for (int i = 0; i < 8; i++)
        bits = bits << 8 | registers[i];
    memcpy(&number, &bits, sizeof number);
    return number;
}

static void panel(char **rest) {
    uint8_t *r = desk.registers;
    int64_t command, origin, first, second;
    if (!read_whole(next_word(rest), 0, UINT8_MAX, &command) || !read_whole(next_word(rest), 0, UINT8_MAX, &origin) ||
        !read_whole(next_word(rest), INT32_MIN, INT32_MAX, &first) || !read_whole(next_word(rest), INT32_MIN, INT32_MAX, &second) || next_word(rest)) {
        bad(desk.line, "no panel command");
        return;
    }
    r[A5_PANEL_COMMAND] = (uint8_t)command;
    r[A5_PANEL_MASK] = A5_PANEL_DONE | A5_PANEL_REFUSED;
    r[A5_PANEL_ORIGIN] = (uint8_t)origin;
    write_input(r + A5_PANEL_INPUTS, first);
    write_input(r + A5_PANEL_INPUTS + 4, second);
    if (ON_SET(a5_panel_step, r, A5_BLOCK) != A5_ANSWERED)
        abort(); /* the set and the registers have the right lengths, and the table passed */
    printf("panel %d: status %d, interrupt %d, origin %d, refusal %d, results %.9f %.9f\n", (int)command, r[A5_PANEL_STATUS],
           r[A5_PANEL_INTERRUPT], r[A5_PANEL_ORIGIN], r[A5_PANEL_REFUSAL], read_result(r + A5_PANEL_RESULTS), read_result(r + A5_PANEL_RESULTS + 8));
}

/* ---- the feed */

static void read_line(char *line, size_t length) {
    desk.line++;
    if (memchr(line, 0, length)) {
        place_waiting();
        bad(desk.line, "no text");
        return;
    }
    char *rest, *first = strtok_r(line, " \t\r\n", &rest);
    if (!first || *first == '#')
        return;
    void (*const kinds[])(char **) = {outline, turn, panel};
    const char *const names[] = {"outline", "turn", "panel"};
    for (size_t k = 0; k < 3; k++)
        if (strcmp(first, names[k]) == 0) {
            place_waiting();
            kinds[k](&rest);
            return;
        }
    strike(first, &rest);
}

/* ---- what is printed at the end */

static size_t in_box(const struct outline *o) {
    size_t kept = a5_window_kept(&desk.window), count = 0;
    for (size_t i = desk.how_many - kept; i < desk.how_many; i++) {
        const a5_result *p = &desk.accepted[i % A5_WINDOW_MOST];
        count += p->origin == o->origin && o->box.least_x <= p->x && p->x <= o->box.greatest_x && o->box.least_y <= p->y && p->y <= o->box.greatest_y;
    }
    return count;
}

static void report(void) {
    uint32_t counts[A5_ORIGINS];
    uint8_t page[A5_PAGE];
    a5_window_counts(&desk.window, counts);
    printf("%zu lines, %zu strikes, %zu accepted, %u in the window, %zu bad lines\n", desk.line, desk.strikes, desk.how_many,
           a5_window_kept(&desk.window), desk.bad);
    for (int k = 0; k < A5_ORIGINS; k++)
        if (desk.by_face[k])
            printf("face %d: %u in the window, %zu accepted\n", k, counts[k], desk.by_face[k]);
    for (size_t k = 0; k < desk.outline_count; k++)
        printf("outline %s: %zu in the window\n", desk.outlines[k].name, in_box(&desk.outlines[k]));
    if (a5_sheet(&desk.window, page, A5_PAGE) == A5_ANSWERED)
        fwrite(page, 1, A5_PAGE, stdout);
}

/* ---- the beginning */

static int failed(const char *name, const char *what) {
    fprintf(stderr, "%s: %s\n", name, what);
    return 1;
}

static int load_table(const char *name) {
    uint8_t bytes[A5_TABLE_FILE + 1];
    FILE *file = fopen(name, "rb");
    if (!file)
        return failed(name, "can't be read");
    size_t n = fread(bytes, 1, sizeof bytes, file);
    int unread = ferror(file);
    fclose(file);
    if (unread)
        return failed(name, "can't be read");
    uint8_t status = a5_table_load(bytes, n, desk.table);
    desk.turned = true;
    if (status == A5_ANSWERED)
        status = a5_open_with(desk.table, A5_TABLE, SET);
    if (status != A5_ANSWERED)
        fprintf(stderr, "%s: refused with %d\n", name, status);
    return status != A5_ANSWERED;
}

int main(int count, char **words) {
    bool turned = count == 4 && strcmp(words[1], "--table") == 0;
    if (count != 2 && !turned) {
        fprintf(stderr, "usage: desk [--table FILE] FEED\n");
        return 1;
    }
    if (turned ? load_table(words[2]) : a5_open(SET) != A5_ANSWERED)
        return 1;
    a5_window_new(&desk.window);
    FILE *feed = fopen(words[count - 1], "rb");
    if (!feed)
        return failed(words[count - 1], "can't be read");
    char *line = NULL;
    size_t room = 0;
    ssize_t length;
    while ((length = getline(&line, &room, feed)) >= 0)
        read_line(line, (size_t)length);
    int unread = ferror(feed);
    free(line);
    fclose(feed);
    place_waiting();
    report();
    int status = unread ? failed(words[count - 1], "can't be read to its end") : 0;
    return fflush(stdout) != 0 || ferror(stdout) ? failed("standard output", "can't be written") : status;
}
