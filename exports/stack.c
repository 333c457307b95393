/* How much stack each call takes: the stack below is painted, the call made on loops of 512 corners, plain and then long, or a scene of
   two such areas run, and what is no longer paint is counted. Prints the most, and what the scene took, and fails where that is not
   below half of DESK_STACK_BYTES and of DESK_SCENE_STACK_BYTES, so that the paths that these inputs do not take have as much
   again. */
#include "desk.h"
#include <stdio.h>
#include <string.h>

#define ROOM (1u << 20)
#define N DESK_MOST_POSITIONS
#define PAINT 0xA5u

typedef struct {
    double list[DESK_LIST_FLOATS(N)], positions[DESK_LIST_FLOATS(N)], normals[DESK_LIST_FLOATS(N)];
    uint8_t header[DESK_HEADER_BYTES], classes[N], bytes[DESK_LOOP_BYTES(N)];
} Loop;

static Loop a, b;
static uint8_t triangles[DESK_MOST_TRIANGLES_BYTES], arc[DESK_ARC_BYTES], other[DESK_ARC_BYTES], out[DESK_ARC_BYTES];
static uint16_t numbers[DESK_TRIANGLES_NUMBERS(N)];
static double full[DESK_FULL_POSITIONS_FLOATS], chord[1];
static uint8_t scene[DESK_MOST_SCENE_BYTES], text[DESK_MOST_TEXT_BYTES];
static size_t scene_size = 0;

static __attribute__((noinline)) void paint(void) {
    volatile uint8_t room[ROOM];
    size_t i;
    for (i = 0; i < ROOM; i++)
        room[i] = PAINT;
}

/* Reads what `paint` and the call after it left in the same place. */
static __attribute__((noinline)) size_t touched(void) {
    volatile uint8_t room[ROOM];
    size_t i = 0;
    while (i < ROOM && room[i] == PAINT)
        i++;
    return ROOM - i;
}

static double root(double x) {
    uint64_t bits;
    memcpy(&bits, &x, 8);
    bits = desk_root(bits);
    memcpy(&x, &bits, 8);
    return x;
}

/* A star of 512 corners round the pole: the turn from one to the next is that whose half has this tangent, of pi / 512. */
static void make(Loop *l, double size) {
    const double half = 0.006136000157623, c = (1 - half * half) / (1 + half * half), s = 2 * half / (1 + half * half);
    double x = 1, y = 0;
    size_t i;
    for (i = 0; i < N; i++) {
        double r = i % 2 ? 0.6 * size : size, norm = root(r * r + 1), turned = c * x - s * y, scale = root(x * x + y * y);
        l->list[3 * i] = r * x / scale / norm;
        l->list[3 * i + 1] = r * y / scale / norm;
        l->list[3 * i + 2] = 1 / norm;
        y = s * x + c * y;
        x = turned;
    }
}

/* A record more of the scene: its kind, its areas and a list of positions. */
static void put(uint8_t kind, uint8_t a, uint8_t b, const double *list, size_t n) {
    const size_t body = (b ? 4 : 2) + DESK_LIST_BYTES(n);
    const uint8_t bytes[] = {(uint8_t)body, (uint8_t)(body >> 8), 0, 0, kind, 0, a, 0, b, 0};
    memcpy(scene + scene_size, bytes, sizeof bytes);
    scene_size += 6 + body;
    if (n)
        memcpy(scene + scene_size - DESK_LIST_BYTES(n), list, DESK_LIST_BYTES(n));
}

/* Both loops as areas, cut as every area is, a place in one, and the pair: all four records must be read. */
static uint32_t run_scene(void) {
    const uint64_t size = desk_scene(scene, scene_size, text, sizeof text);
    return !DESK_IS_REFUSED_SIZE(size) && size >= 6 && memcmp(text + size - 6, "end 4\n", 6) == 0 ? 0 : DESK_REFUSED;
}

#define BYTES(x) (uint8_t *)(x)
#define WHOLE(l) (l).bytes, sizeof(l).bytes
#define PARTS(l) (l).header, DESK_HEADER_BYTES, (l).positions, DESK_LIST_FLOATS(N), (l).normals, DESK_LIST_FLOATS(N), (l).classes, N

/* The calls by number: none of them is refused. */
#define SCENE 38
static uint32_t call(int which) {
    switch (which) {
    case 0: return desk_build(BYTES(a.list), DESK_LIST_BYTES(N), WHOLE(a));
    case 1: return desk_build(BYTES(b.list), DESK_LIST_BYTES(N), WHOLE(b));
    case 2: return desk_build_f64(a.list, DESK_LIST_FLOATS(N), PARTS(a));
    case 3: return desk_build_f64(b.list, DESK_LIST_FLOATS(N), PARTS(b));
    case 4: return desk_place(WHOLE(a), BYTES(b.list), DESK_POSITION_BYTES);
    case 5: return desk_place_f64(PARTS(a), b.list[0], b.list[1], b.list[2]);
    case 6: return desk_pair(WHOLE(a), WHOLE(b));
    case 7: return desk_pair_f64(PARTS(a), PARTS(b));
    case 8: return desk_equivalent(WHOLE(a), WHOLE(b));
    case 9: return desk_convex(WHOLE(a));
    case 10: return desk_simple(WHOLE(a));
    case 11: return desk_vertex(WHOLE(a), BYTES(b.list), DESK_POSITION_BYTES);
    case 12: return desk_on_edge(WHOLE(a), BYTES(b.list), DESK_POSITION_BYTES);
    case 13: return desk_triangles(WHOLE(a), triangles, sizeof triangles);
    case 14: return desk_accepts(WHOLE(a), triangles, sizeof triangles);
    case 15: return desk_triangles_f64(a.header, DESK_HEADER_BYTES, a.positions, DESK_LIST_FLOATS(N), a.classes, N, numbers, DESK_TRIANGLES_NUMBERS(N));
    case 16: return desk_arc(BYTES(a.list), 24, BYTES(a.list + 3), 24, arc, sizeof arc);
    case 17: return desk_arc(BYTES(b.list), 24, BYTES(a.list + 3), 24, other, sizeof other);
    case 18: return desk_arc_opposite(arc, sizeof arc, out, sizeof out);
    case 19: return desk_arc_side(arc, sizeof arc, BYTES(b.list), 24);
    case 20: return desk_arc_contains(arc, sizeof arc, BYTES(b.list), 24);
    case 21: return desk_arc_intersection(arc, sizeof arc, other, sizeof other, out, sizeof out);
    case 22: return desk_arc_relate(arc, sizeof arc, other, sizeof other, out, sizeof out);
    case 23: return desk_full_positions(full, DESK_FULL_POSITIONS_FLOATS);
    case 24: return desk_far(WHOLE(a), BYTES(b.list), DESK_POSITION_BYTES, out, sizeof out);
    case 25: return desk_far_f64(PARTS(a), b.list[0], b.list[1], b.list[2], chord, 1);
    case 26: return desk_arc_far(arc, sizeof arc, BYTES(b.list), DESK_POSITION_BYTES, out, sizeof out);
    case 27: return desk_build_long(BYTES(a.list), DESK_LIST_BYTES(N), WHOLE(a));
    case 28: return desk_build_long(BYTES(b.list), DESK_LIST_BYTES(N), WHOLE(b));
    case 29: return desk_build_long_f64(a.list, DESK_LIST_FLOATS(N), PARTS(a));
    case 30: return desk_build_long_f64(b.list, DESK_LIST_FLOATS(N), PARTS(b));
    case 31: return desk_place(WHOLE(a), BYTES(b.list), DESK_POSITION_BYTES);
    case 32: return desk_place_f64(PARTS(a), b.list[0], b.list[1], b.list[2]);
    case 33: return desk_pair(WHOLE(a), WHOLE(b));
    case 34: return desk_pair_f64(PARTS(a), PARTS(b));
    case 35: return desk_simple(WHOLE(a));
    case 36: return desk_arc_intersection_long(arc, sizeof arc, other, sizeof other, out, sizeof out);
    case 37: return desk_arc_relate_long(arc, sizeof arc, other, sizeof other, out, sizeof out);
    case SCENE: return run_scene();
    case 39: return (uint32_t)(desk_root(0x4000000000000000u) >> 32);
    case 40: return (uint32_t)(desk_radians(0x3ff0000000000000u) >> 32);
    default: return (uint32_t)(desk_atan2(0x4000000000000000u, 0x3ff0000000000000u) >> 32);
    }
}
#define CALLS 42

int main(void) {
    size_t most = 0, of_scene = 0;
    int which, worst = 0;
    make(&a, 0.5);
    make(&b, 0.25);
    put(1, 1, 0, a.list, N);
    put(1, 2, 0, b.list, N);
    put(2, 1, 0, b.list, 1);
    put(3, 1, 2, NULL, 0);
    for (which = 0; which < CALLS; which++) {
        size_t taken;
        uint32_t answer;
        paint();
        answer = call(which);
        taken = touched();
        if (which <= SCENE && DESK_IS_REFUSED(answer)) {
            printf("stack: call %d is refused %u\n", which, (unsigned)(answer - DESK_REFUSED));
            return 1;
        }
        if (which == SCENE)
            of_scene = taken;
        else if (taken > most) {
            most = taken;
            worst = which;
        }
#ifdef EACH
        printf("call %d: answer %u, %u bytes\n", which, (unsigned)answer, (unsigned)taken);
#endif
    }
    printf("stack: at most %u bytes (call %d), a scene %u\n", (unsigned)most, worst, (unsigned)of_scene);
    return most >= DESK_STACK_BYTES / 2 || of_scene >= DESK_SCENE_STACK_BYTES / 2;
}
