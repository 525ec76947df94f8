/* Opens a set with the table of a file and places a longitude and a latitude on it, and back: place_with FILE LONGITUDE LATITUDE.
 * The exit status is a refusal's number, or 100 where the words are wrong or the file can't be read. */
#include "../a5.h"
#include <stdio.h>
#include <stdlib.h>

static double frame[A5_FRAME], face[A5_FACE_STORE], sphere[A5_SPHERE_STORE], table[A5_TABLE];

#define LENT frame, A5_FRAME, face, A5_FACE_STORE, sphere, A5_SPHERE_STORE

/* Ends the program with a refusal. */
static void answered(const char *call, uint8_t status) {
    if (status == A5_ANSWERED)
        return;
    fprintf(stderr, "%s: refused with %d\n", call, status);
    exit(status);
}

/* The file's bytes, one more than a table file has at most, so that a longer one is refused. */
static size_t read_file(const char *name, uint8_t *bytes, size_t most) {
    FILE *file = fopen(name, "rb");
    if (!file) {
        fprintf(stderr, "%s can't be read\n", name);
        exit(100);
    }
    size_t n = fread(bytes, 1, most, file);
    fclose(file);
    return n;
}

int main(int count, char **words) {
    if (count != 4) {
        fprintf(stderr, "usage: place_with FILE LONGITUDE LATITUDE\n");
        return 100;
    }
    uint8_t bytes[A5_TABLE_FILE + 1], id;
    double to[2], back[2];
    size_t n = read_file(words[1], bytes, sizeof bytes);
    answered("load", a5_table_load(bytes, n, table));
    answered("open", a5_open_with(table, A5_TABLE, LENT));
    double longitude = strtod(words[2], NULL), latitude = strtod(words[3], NULL);
    answered("place", a5_place_with(table, A5_TABLE, LENT, longitude, latitude, &id, to));
    printf("origin %d, x %.17g, y %.17g\n", id, to[0], to[1]);
    answered("unplace", a5_unplace_with(table, A5_TABLE, LENT, to[0], to[1], id, back));
    printf("longitude %.17g, latitude %.17g\n", back[0], back[1]);
    return 0;
}
