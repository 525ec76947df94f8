/* Places two lightning strikes on their faces, brings them back, and shows a triangle that the set keeps for later. */
#include "../a5.h"
#include <stdio.h>

struct set {
    double frame[A5_FRAME];
    double face[A5_FACE_STORE];
    double sphere[A5_SPHERE_STORE];
};

/* A set as the calls take it: each buffer with its length. */
#define LENT(set) (set)->frame, A5_FRAME, (set)->face, A5_FACE_STORE, (set)->sphere, A5_SPHERE_STORE
#define STORES(set) (set)->face, A5_FACE_STORE, (set)->sphere, A5_SPHERE_STORE

static int refused(const char *call, uint8_t number) {
    fprintf(stderr, "%s was refused: %u\n", call, number);
    return 1;
}

static int there_and_back(struct set *set, double longitude, double latitude) {
    uint8_t origin, status;
    double point[2], position[2];
    status = a5_place(LENT(set), longitude, latitude, &origin, point);
    if (status != A5_ANSWERED)
        return refused("place", status);
    status = a5_unplace(LENT(set), point[0], point[1], origin, position);
    if (status != A5_ANSWERED)
        return refused("unplace", status);
    printf("%.6f %.6f lies on face %u at (%.6f, %.6f), back at %.6f %.6f\n", longitude, latitude, origin, point[0],
           point[1], position[0], position[1]);
    return 0;
}

static void show_filled(const struct set *set, uint8_t kind, const double *store, size_t slots) {
    for (size_t slot = 0; slot < slots; slot++) {
        size_t part[2];
        if (a5_show(STORES(set), kind, slot, part) != A5_ANSWERED || part[1] == 0)
            continue;
        printf("%s slot %zu:", kind == A5_KIND_FACE ? "face" : "sphere", slot);
        for (size_t i = 0; i < part[1]; i++)
            printf(" %.4f", store[part[0] + i]);
        printf("\n");
    }
}

int main(void) {
    static struct set set;
    uint8_t status = a5_open(LENT(&set));
    if (status != A5_ANSWERED)
        return refused("open", status);
    if (there_and_back(&set, 16.3725, 48.2083) || there_and_back(&set, -93.0, 45.0))
        return 1;
    show_filled(&set, A5_KIND_FACE, set.face, A5_FACE_SLOTS);
    show_filled(&set, A5_KIND_SPHERE, set.sphere, A5_SPHERE_SLOTS);
    return 0;
}
