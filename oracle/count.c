/* Calls one export N times on one loop, for oracle/count: count EXPORT SHAPE CORNERS TIMES MODE. What is built, placed, measured, paired or cut is a convex
   polygon or a star round one centre; the pair is the same loop a little smaller, so that every edge is compared. In long mode, MODE `long`, it is the same
   loop with the mark of that mode. */
#include "../exports/desk.h"
#include <math.h>
#include <stdio.h>
#include <stdlib.h>
#include <string.h>

typedef struct {
    double list[1536], positions[1536], normals[1536];
    uint8_t header[88], classes[512], bytes[DESK_LOOP_BYTES(512)];
    size_t n, size;
} Loop;

static uint32_t build(Loop *l) {
    return desk_build_f64(l->list, 3 * l->n, l->header, 88, l->positions, 3 * l->n, l->normals, 3 * l->n, l->classes, l->n);
}

static const double centre[3] = {0.36, 0.48, 0.8};

/* Round the centre, from the two unit vectors across it. */
static void make(Loop *l, int star, size_t n, double size) {
    const double *c = centre, u[3] = {0.8, -0.6, 0.0}, v[3] = {0.48, 0.64, -0.6};
    l->n = n;
    for (size_t i = 0; i < n; i++) {
        double turn = 2.0 * M_PI * (double)i / (double)n, r = star && i % 2 ? 0.6 * size : size;
        for (int k = 0; k < 3; k++)
            l->list[3 * i + k] = cos(r) * c[k] + sin(r) * (cos(turn) * u[k] + sin(turn) * v[k]);
    }
    l->size = DESK_LOOP_BYTES(n);
    if (build(l) != n || desk_build((uint8_t *)l->list, 24 * n, l->bytes, l->size) != n) {
        fprintf(stderr, "count: no ring of %zu corners\n", n);
        exit(1);
    }
}

/* A built loop differs by its mark alone. */
static void mark(Loop *l) {
    l->header[3] |= 8;
    l->bytes[3] |= 8;
}

int main(int argc, char **argv) {
    static Loop a, b;
    static uint16_t triangles[1530];
    static double distance[1];
    if (argc != 6)
        return 2;
    int star = !strcmp(argv[2], "star");
    size_t n = (size_t)atoi(argv[3]);
    make(&a, star, n, 0.3);
    make(&b, star, n, 0.25);
    if (!strcmp(argv[5], "long")) {
        mark(&a);
        mark(&b);
    }
    uint32_t r = 0;
    for (int times = atoi(argv[4]); times > 0; times--) {
        if (!strcmp(argv[1], "desk_build"))
            r = desk_build((uint8_t *)a.list, 24 * n, a.bytes, a.size);
        else if (!strcmp(argv[1], "desk_place"))
            r = desk_place(a.bytes, a.size, (uint8_t *)centre, 24);
        else if (!strcmp(argv[1], "desk_far"))
            r = desk_far(a.bytes, a.size, (uint8_t *)centre, 24, (uint8_t *)distance, 8);
        else if (!strcmp(argv[1], "desk_pair"))
            r = desk_pair(a.bytes, a.size, b.bytes, b.size);
        else if (!strcmp(argv[1], "desk_triangles"))
            r = desk_triangles(a.bytes, a.size, (uint8_t *)triangles, sizeof triangles);
        else if (!strcmp(argv[1], "desk_build_f64"))
            r = build(&a);
        else if (!strcmp(argv[1], "desk_place_f64"))
            r = desk_place_f64(a.header, 88, a.positions, 3 * n, a.normals, 3 * n, a.classes, n, centre[0], centre[1], centre[2]);
        else if (!strcmp(argv[1], "desk_far_f64"))
            r = desk_far_f64(a.header, 88, a.positions, 3 * n, a.normals, 3 * n, a.classes, n, centre[0], centre[1], centre[2], distance, 1);
        else if (!strcmp(argv[1], "desk_pair_f64"))
            r = desk_pair_f64(a.header, 88, a.positions, 3 * n, a.normals, 3 * n, a.classes, n, b.header, 88, b.positions, 3 * n, b.normals, 3 * n, b.classes, n);
        else
            r = desk_triangles_f64(a.header, 88, a.positions, 3 * n, a.classes, n, triangles, 1530);
    }
    printf("%u\n", r);
    return 0;
}
