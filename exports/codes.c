/* Every constant of desk.h met in an answer of the library, and every size both enough and, by one less, too little. Prints what is not
   so and fails. Floats go to bytes as they stand: it runs on little-endian machines alone. */
#include "desk.h"
#include <stdio.h>
#include <string.h>

#define T 0.5773502691896258
#define A 0.816496580927726
#define B 0.408248290463863

typedef struct {
    uint8_t bytes[DESK_MOST_LOOP_BYTES];
    size_t size;
} Loop;

static const double octant[] = {1, 0, 0, 0, 1, 0, 0, 0, 1}, below[] = {1, 0, 0, 0, 1, 0, 0, 0, -1};
static const double square[] = {0.6, 0, 0.8, 0, 0.6, 0.8, -0.6, 0, 0.8, 0, -0.6, 0.8};
static const double turned[] = {0.48, 0.36, 0.8, -0.36, 0.48, 0.8, -0.48, -0.36, 0.8, 0.36, -0.48, 0.8};
static const double small[] = {0.28, 0, 0.96, 0, 0.28, 0.96, -0.28, 0, 0.96, 0, -0.28, 0.96};
static const double south[] = {0.6, 0, -0.8, 0, 0.6, -0.8, -0.6, 0, -0.8, 0, -0.6, -0.8};
static const double dart[] = {0.6, 0, 0.8, 0, 0.6, 0.8, -0.6, 0, 0.8, 0, 0.28, 0.96};
static const double straight[] = {1, 0, 0, 0.6, 0.8, 0, 0, 1, 0, 0, 0, 1};
static const double eight[] = {A, B, B, A, -B, -B, A, -B, B, A, B, -B};
static const double silent[] = {-T, T, -T, 1, 0, 0, -T, -T, T, T, -T, T};
static const double one[] = {-0.8, 0, -0.6, 1, 0, 0, 0.64, -0.48, 0.6}, two[] = {0, -1, 0, 0, 0, 1, 1, 0, 0};
static const double longer[] = {2, 0, 0}, across[] = {0.36, 0.48, 0.8, 0.36, 0.48, -0.8};
/* A side of 164 degrees on the equator; a place south of it, across it from the strip's first inside and more than a quarter circle from there; a patch
   that lies across it, more than a quarter circle from where it starts; two arcs that cross more than a quarter circle from the first one's start. */
static const double strip[] = {1, 0, 0, -0.96, 0.28, 0, -0.9216, 0.2688, 0.28, 0.96, 0, 0.28}, beyond[] = {-0.598272, 0.797696, -0.07584};
static const double patch[] = {0.768, 0.576, 0.28, 0.768, 0.576, -0.28, 0.9216, 0.2688, -0.28};
static const double wide[] = {1, 0, 0, -0.8, 0.6, 0}, upright[] = {-0.36, 0.48, 0.8, -0.36, 0.48, -0.8};

static int wrong = 0;
static Loop loop, other;
static uint8_t out[DESK_MOST_LOOP_BYTES];
static uint8_t scene[DESK_MOST_SCENE_BYTES + 1u], text[DESK_MOST_TEXT_BYTES];

static void hold(const char *what, unsigned long answer, unsigned long wanted) {
    if (answer == wanted)
        return;
    printf("codes: %s is %lu, and not %lu\n", what, answer, wanted);
    wrong = 1;
}
#define HOLD(answer, wanted) hold(#answer, (unsigned long)(answer), (unsigned long)(wanted))

#define BYTES(list) (const uint8_t *)(list)
#define LIST(list) BYTES(list), sizeof(list)
#define LOOP(l) (l).bytes, (l).size

static void built(Loop *l, uint32_t corners) {
    if (DESK_IS_REFUSED(corners)) {
        printf("codes: a list is refused %u\n", (unsigned)(corners - DESK_REFUSED));
        wrong = 1;
    }
    l->size = DESK_LOOP_BYTES(corners);
}
static void build(Loop *l, const double *list, size_t n) {
    built(l, desk_build(BYTES(list), DESK_LIST_BYTES(n), l->bytes, sizeof l->bytes));
}
static void build_long(Loop *l, const double *list, size_t n) {
    built(l, desk_build_long(BYTES(list), DESK_LIST_BYTES(n), l->bytes, sizeof l->bytes));
}
#define BUILD(l, list) build(&(l), list, sizeof(list) / DESK_POSITION_BYTES)
#define BUILD_LONG(l, list) build_long(&(l), list, sizeof(list) / DESK_POSITION_BYTES)

static unsigned class_at(size_t n, size_t i) { return loop.bytes[DESK_HEADER_BYTES + 2 * DESK_LIST_BYTES(n) + i]; }

static void headers(void) {
    BUILD(loop, octant);
    HOLD(loop.bytes[2], DESK_STATE_RING);
    HOLD(loop.bytes[3], DESK_MARK_REVERSED);
    HOLD(class_at(3, 0), DESK_CLASS_CONVEX);
    BUILD(loop, square);
    HOLD(loop.bytes[3], DESK_MARK_REVERSED + DESK_MARK_INSIDES);
    BUILD(loop, eight);
    HOLD(loop.bytes[3] & DESK_MARK_WEAK, DESK_MARK_WEAK);
    BUILD(loop, dart);
    HOLD(class_at(4, 0), DESK_CLASS_REFLEX); /* the last of the list, which was reversed */
    BUILD(loop, straight);
    HOLD(class_at(4, 2), DESK_CLASS_BOTH);
    build(&loop, NULL, 0);
    HOLD(loop.bytes[2], DESK_STATE_EMPTY);
    build(&loop, straight, 3);
    HOLD(loop.bytes[2], DESK_STATE_FULL);
}

static void places(void) {
    BUILD(loop, octant);
    HOLD(desk_place(LOOP(loop), BYTES(straight + 3), 24), DESK_PLACE_OUTSIDE);
    HOLD(desk_vertex(LOOP(loop), BYTES(octant), 24), DESK_YES);
    HOLD(desk_vertex(LOOP(loop), BYTES(square), 24), DESK_NO);
    HOLD(desk_on_edge(LOOP(loop), BYTES(square), 24), DESK_YES);
    HOLD(desk_convex(LOOP(loop)), DESK_YES);
    HOLD(desk_simple(LOOP(loop)), DESK_YES);
    BUILD(loop, square);
    HOLD(desk_place(LOOP(loop), BYTES(octant + 6), 24), DESK_PLACE_INSIDE);
    BUILD(loop, silent);
    HOLD(desk_place(LOOP(loop), BYTES(octant), 24), DESK_PLACE_MUTE);
}

static void pair(const double *a, size_t n, const double *b, size_t m, uint32_t wanted) {
    build(&loop, a, n);
    build(&other, b, m);
    HOLD(desk_pair(LOOP(loop), LOOP(other)), wanted);
    HOLD(desk_equivalent(LOOP(loop), LOOP(other)), wanted == DESK_PAIR_EQUAL ? DESK_YES : DESK_NO);
}

static void pairs(void) {
    pair(square, 4, south, 4, DESK_PAIR_DISJOINT);
    pair(octant, 3, below, 3, DESK_PAIR_TOUCHING);
    pair(square, 4, turned, 4, DESK_PAIR_INTERSECTING);
    pair(square, 4, small, 4, DESK_PAIR_CONTAINING);
    pair(small, 4, square, 4, DESK_PAIR_WITHIN);
    pair(square, 4, square, 4, DESK_PAIR_EQUAL);
    pair(one, 3, two, 3, DESK_REFUSED_BOTH_WAYS);
}

static void arcs(void) {
    uint8_t a[DESK_ARC_BYTES], b[DESK_ARC_BYTES];
    HOLD(desk_arc(BYTES(octant), 24, BYTES(octant + 3), 24, a, DESK_ARC_BYTES - 1), DESK_REFUSED_ROOM);
    HOLD(desk_arc(BYTES(octant), 24, BYTES(octant + 3), 24, a, DESK_ARC_BYTES), 0);
    HOLD(desk_arc_side(a, sizeof a, BYTES(straight + 3), DESK_POSITION_BYTES), DESK_SIDE_COLLINEAR);
    HOLD(desk_arc_side(a, sizeof a, BYTES(octant + 6), DESK_POSITION_BYTES), DESK_SIDE_LEFT);
    HOLD(desk_arc_side(a, sizeof a, BYTES(below + 6), DESK_POSITION_BYTES), DESK_SIDE_RIGHT);
    HOLD(desk_arc_contains(a, sizeof a, BYTES(straight + 3), DESK_POSITION_BYTES), DESK_YES);
    HOLD(desk_arc_relate(a, sizeof a, a, sizeof a, out, DESK_ARC_BYTES - 1), DESK_REFUSED_ROOM);
    HOLD(desk_arc_relate(a, sizeof a, a, sizeof a, out, DESK_ARC_BYTES), DESK_ARCS_OVERLAPPING);
    HOLD(desk_arc_opposite(a, sizeof a, b, sizeof b), 0);
    HOLD(desk_arc(BYTES(across), 24, BYTES(across + 3), 24, b, sizeof b), 0);
    HOLD(desk_arc_intersection(a, sizeof a, b, sizeof b, out, DESK_POSITION_BYTES - 1), DESK_REFUSED_ROOM);
    HOLD(desk_arc_intersection(a, sizeof a, b, sizeof b, out, DESK_POSITION_BYTES), DESK_YES);
    HOLD(desk_arc_relate(a, sizeof a, b, sizeof b, out, DESK_POSITION_BYTES), DESK_ARCS_INTERSECTING);
    HOLD(desk_arc(BYTES(octant), 24, BYTES(octant + 6), 24, b, sizeof b), 0);
    HOLD(desk_arc_relate(a, sizeof a, b, sizeof b, out, DESK_POSITION_BYTES), DESK_ARCS_TOUCHING);
    HOLD(desk_arc(BYTES(square), 24, BYTES(octant + 6), 24, b, sizeof b), 0);
    HOLD(desk_arc_relate(a, sizeof a, b, sizeof b, NULL, 0), DESK_ARCS_DISJOINT);
    HOLD(desk_arc(BYTES(wide), 24, BYTES(wide + 3), 24, a, sizeof a), 0);
    HOLD(desk_arc(BYTES(upright), 24, BYTES(upright + 3), 24, b, sizeof b), 0);
    HOLD(desk_arc_intersection(a, sizeof a, b, sizeof b, NULL, 0), DESK_NO);
    HOLD(desk_arc_relate(a, sizeof a, b, sizeof b, NULL, 0), DESK_ARCS_DISJOINT);
    HOLD(desk_arc_intersection_long(a, sizeof a, b, sizeof b, out, DESK_POSITION_BYTES - 1), DESK_REFUSED_ROOM);
    HOLD(desk_arc_intersection_long(a, sizeof a, b, sizeof b, out, DESK_POSITION_BYTES), DESK_YES);
    HOLD(desk_arc_relate_long(a, sizeof a, b, sizeof b, out, DESK_POSITION_BYTES - 1), DESK_REFUSED_ROOM);
    HOLD(desk_arc_relate_long(a, sizeof a, b, sizeof b, out, DESK_POSITION_BYTES), DESK_ARCS_INTERSECTING);
}

/* In long mode: the mark alone is other than in plain mode, of empty and full too; and each call that goes by it. */
static void modes(void) {
    double ps[DESK_LIST_FLOATS(4)], ns[DESK_LIST_FLOATS(4)], qs[DESK_LIST_FLOATS(3)], ms[DESK_LIST_FLOATS(3)];
    uint8_t header[DESK_HEADER_BYTES], classes[4], head[DESK_HEADER_BYTES], codes[3];
    BUILD(other, strip);
    BUILD_LONG(loop, strip);
    HOLD(loop.bytes[3], DESK_MARK_REVERSED + DESK_MARK_INSIDES + DESK_MARK_LONG);
    HOLD(desk_equivalent(LOOP(loop), LOOP(other)), DESK_YES);
    HOLD(desk_pair(LOOP(loop), LOOP(other)), DESK_REFUSED_MODES);
    HOLD(desk_place(LOOP(other), BYTES(beyond), 24), DESK_PLACE_INSIDE); /* plain mode misses where the way there leaves the strip */
    HOLD(desk_place(LOOP(loop), BYTES(beyond), 24), DESK_PLACE_OUTSIDE);
    HOLD(desk_simple(LOOP(loop)), DESK_YES);
    other.bytes[3] += DESK_MARK_LONG;
    HOLD(memcmp(loop.bytes, other.bytes, loop.size), 0);
    BUILD(loop, strip);
    BUILD(other, patch);
    HOLD(desk_pair(LOOP(loop), LOOP(other)), DESK_PAIR_CONTAINING); /* and here that the sides cross */
    BUILD_LONG(loop, strip);
    BUILD_LONG(other, patch);
    HOLD(desk_pair(LOOP(loop), LOOP(other)), DESK_PAIR_INTERSECTING);
    HOLD(desk_build_long_f64(strip, 12, header, sizeof header, ps, 12, ns, 12, classes, 4), 4);
    HOLD(memcmp(header, loop.bytes, sizeof header), 0);
    HOLD(desk_build_long_f64(patch, 9, head, sizeof head, qs, 9, ms, 9, codes, 3), 3);
    HOLD(desk_place_f64(header, sizeof header, ps, 12, ns, 12, classes, 4, beyond[0], beyond[1], beyond[2]), DESK_PLACE_OUTSIDE);
    HOLD(desk_pair_f64(header, sizeof header, ps, 12, ns, 12, classes, 4, head, sizeof head, qs, 9, ms, 9, codes, 3), DESK_PAIR_INTERSECTING);
    head[3] -= DESK_MARK_LONG;
    HOLD(desk_pair_f64(header, sizeof header, ps, 12, ns, 12, classes, 4, head, sizeof head, qs, 9, ms, 9, codes, 3), DESK_REFUSED_MODES);
    build_long(&loop, NULL, 0);
    HOLD(loop.bytes[2], DESK_STATE_EMPTY);
    HOLD(loop.bytes[3], DESK_MARK_LONG);
    build_long(&other, straight, 3);
    HOLD(other.bytes[2], DESK_STATE_FULL);
    HOLD(other.bytes[3], DESK_MARK_LONG);
    HOLD(desk_pair(LOOP(loop), LOOP(other)), DESK_PAIR_DISJOINT);
    build(&other, straight, 3);
    HOLD(desk_pair(LOOP(loop), LOOP(other)), DESK_REFUSED_MODES);
}

static void refusals(void) {
    static uint8_t many[DESK_LIST_BYTES(DESK_MOST_POSITIONS + 1u)];
    double nothing[3] = {0, 0, 0}, nan[3];
    nan[0] = nan[1] = nan[2] = nothing[0] / nothing[1];
    HOLD(desk_build(many, DESK_LIST_BYTES(DESK_MOST_POSITIONS + 1u), out, sizeof out), DESK_REFUSED_MANY);
    HOLD(desk_build(many, DESK_LIST_BYTES(DESK_MOST_POSITIONS), out, sizeof out), DESK_REFUSED_NOT_UNIT);
    HOLD(desk_build(LIST(nan), out, sizeof out), DESK_REFUSED_NOT_FINITE);
    HOLD(desk_build(LIST(longer), out, sizeof out), DESK_REFUSED_NOT_UNIT);
    HOLD(desk_build(BYTES(octant), 23, out, sizeof out), DESK_REFUSED_SHAPE);
    BUILD(loop, silent);
    HOLD(desk_triangles(LOOP(loop), out, sizeof out), DESK_REFUSED_NO_EAR);
    build(&loop, NULL, 0);
    HOLD(desk_accepts(LOOP(loop), NULL, 0), DESK_REFUSED_NO_RING);
    BUILD(loop, octant);
    loop.bytes[loop.size - 1] = 3;
    HOLD(desk_convex(LOOP(loop)), DESK_REFUSED_CLASS);
}

static void sizes(void) {
    double floats[DESK_FULL_POSITIONS_FLOATS], ps[DESK_LIST_FLOATS(4)], ns[DESK_LIST_FLOATS(4)];
    uint16_t numbers[DESK_FULL_TRIANGLES_NUMBERS];
    uint8_t header[DESK_HEADER_BYTES], classes[4];
    HOLD(DESK_MOST_LOOP_BYTES, DESK_LOOP_BYTES(DESK_MOST_POSITIONS));
    HOLD(DESK_MOST_TRIANGLES_BYTES, DESK_TRIANGLES_BYTES(DESK_MOST_POSITIONS));
    HOLD(desk_build(NULL, 0, out, DESK_HEADER_BYTES - 1), DESK_REFUSED_ROOM);
    HOLD(desk_build(NULL, 0, out, DESK_HEADER_BYTES), 0);
    HOLD(desk_build(LIST(square), out, DESK_LOOP_BYTES(4u) - 1), DESK_REFUSED_ROOM);
    HOLD(desk_build(LIST(square), out, DESK_LOOP_BYTES(4u)), 4);
    HOLD(desk_build_f64(square, DESK_LIST_FLOATS(4), header, DESK_HEADER_BYTES, ps, DESK_LIST_FLOATS(4), ns, DESK_LIST_FLOATS(4), classes, 4), 4);
    HOLD(desk_triangles_f64(header, sizeof header, ps, 12, classes, 4, numbers, DESK_TRIANGLES_NUMBERS(4u) - 1), DESK_REFUSED_ROOM);
    HOLD(desk_triangles_f64(header, sizeof header, ps, 12, classes, 4, numbers, DESK_TRIANGLES_NUMBERS(4u)), DESK_TRIANGLES(4u));
    HOLD(desk_place_f64(header, sizeof header, ps, 12, ns, 12, classes, 4, 0, 0, 1), DESK_PLACE_INSIDE);
    HOLD(desk_pair_f64(header, sizeof header, ps, 12, ns, 12, classes, 4, header, sizeof header, ps, 12, ns, 12, classes, 4), DESK_PAIR_EQUAL);
    BUILD(loop, square);
    HOLD(desk_triangles(LOOP(loop), out, DESK_TRIANGLES_BYTES(4u) - 1), DESK_REFUSED_ROOM);
    HOLD(desk_triangles(LOOP(loop), out, DESK_TRIANGLES_BYTES(4u)), DESK_TRIANGLES(4u));
    HOLD(desk_accepts(LOOP(loop), out, DESK_TRIANGLES_BYTES(4u)), DESK_YES);
    build(&loop, straight, 3);
    HOLD(desk_triangles(LOOP(loop), out, DESK_FULL_TRIANGLES_BYTES - 1), DESK_REFUSED_ROOM);
    HOLD(desk_triangles(LOOP(loop), out, DESK_FULL_TRIANGLES_BYTES), DESK_FULL_TRIANGLES);
    HOLD(desk_triangles_f64(loop.bytes, DESK_HEADER_BYTES, NULL, 0, NULL, 0, numbers, DESK_FULL_TRIANGLES_NUMBERS), DESK_FULL_TRIANGLES);
    HOLD(desk_full_positions(floats, DESK_FULL_POSITIONS_FLOATS - 1), DESK_REFUSED_ROOM);
    HOLD(desk_full_positions(floats, DESK_FULL_POSITIONS_FLOATS), DESK_FULL_POSITIONS);
    HOLD(desk_root(0x4010000000000000u), 0x4000000000000000u);
    HOLD(desk_atan2(0x8000000000000000u, 0x7ff8000000000001u), 0x8000000000000000u);
}

static double radians(const uint8_t *chord) {
    uint64_t bits;
    double angle;
    memcpy(&bits, chord, sizeof bits);
    bits = desk_radians(bits);
    memcpy(&angle, &bits, sizeof angle);
    return angle;
}

/* From the octant's border, of a position inside, at a corner and outside; from an arc; with too little room, which is refused after all else. */
static void distances(void) {
    double ps[DESK_LIST_FLOATS(3)], ns[DESK_LIST_FLOATS(3)], chord = 7;
    uint8_t header[DESK_HEADER_BYTES], classes[3], arc[DESK_ARC_BYTES];
    BUILD(loop, octant);
    memset(out, 7, DESK_CHORD_BYTES + 1u);
    HOLD(desk_far(LOOP(loop), BYTES(below + 6), DESK_POSITION_BYTES, out, DESK_CHORD_BYTES - 1), DESK_REFUSED_ROOM);
    HOLD(desk_far(LOOP(loop), BYTES(below + 6), DESK_POSITION_BYTES - 1, out, 0), DESK_REFUSED_SHAPE);
    HOLD(desk_far(LOOP(loop), BYTES(longer), DESK_POSITION_BYTES, out, 0), DESK_REFUSED_NOT_UNIT);
    HOLD(out[0] == 7 && memcmp(out, out + 1, DESK_CHORD_BYTES) == 0, 1); /* nothing was written */
    HOLD(desk_far(LOOP(loop), BYTES(below + 6), DESK_POSITION_BYTES, out, DESK_CHORD_BYTES), 0);
    HOLD(out[DESK_CHORD_BYTES], 7);
    HOLD(radians(out) > 1.57079 && radians(out) < 1.5708, 1); /* a quarter of the circle */
    HOLD(desk_far(LOOP(loop), BYTES(octant), DESK_POSITION_BYTES, out, sizeof out), 0);
    HOLD(radians(out) >= 0 && radians(out) < 1e-7, 1);
    HOLD(desk_far(LOOP(loop), BYTES(across), DESK_POSITION_BYTES, out, sizeof out), 0);
    HOLD(radians(out) > 0.3 && radians(out) < 0.4, 1);
    HOLD(desk_arc(BYTES(octant), 24, BYTES(octant + 3), 24, arc, sizeof arc), 0);
    HOLD(desk_arc_far(arc, sizeof arc, BYTES(octant + 6), DESK_POSITION_BYTES, out, DESK_CHORD_BYTES - 1), DESK_REFUSED_ROOM);
    HOLD(desk_arc_far(arc, sizeof arc, BYTES(octant + 6), DESK_POSITION_BYTES, out, DESK_CHORD_BYTES), 0);
    HOLD(radians(out) > 1.57079 && radians(out) < 1.5708, 1);
    HOLD(desk_build_f64(octant, 9, header, sizeof header, ps, 9, ns, 9, classes, 3), 3);
    HOLD(desk_far_f64(header, sizeof header, ps, 9, ns, 9, classes, 3, 0, 0, -1, &chord, 0), DESK_REFUSED_ROOM);
    HOLD(chord, 7);
    HOLD(desk_far_f64(header, sizeof header, ps, 9, ns, 9, classes, 3, 0, 0, -1, &chord, 1), 0);
    HOLD(desk_far(LOOP(loop), BYTES(below + 6), DESK_POSITION_BYTES, out, sizeof out), 0);
    HOLD(memcmp(out, &chord, DESK_CHORD_BYTES), 0);
    build(&loop, NULL, 0);
    HOLD(desk_far(LOOP(loop), BYTES(octant), DESK_POSITION_BYTES, (uint8_t *)&chord, DESK_CHORD_BYTES), 0);
    HOLD(chord, 0);
    HOLD(desk_radians(0xbff0000000000000u), 0xbff0000000000000u);
    HOLD(desk_radians(0x8000000000000000u), 0x8000000000000000u);
    HOLD(desk_radians(0x4010000000000001u), 0x400921fb54442d18u);
    HOLD(desk_radians(0x4010000000000002u), 0x7ff8000000000000u);
}

/* A record of a scene at an offset: its kind, its areas and a list; answers the offset after it. */
static size_t put(size_t at, unsigned kind, unsigned a, unsigned b, const double *list, size_t n) {
    const unsigned body = (b ? 4u : 2u) + (unsigned)DESK_LIST_BYTES(n);
    const unsigned bytes[] = {body & 255u, body >> 8, 0, 0, kind, 0, a & 255u, a >> 8, b & 255u, b >> 8};
    size_t i;
    for (i = 0; i < (b ? 10u : 8u); i++)
        scene[at++] = (uint8_t)bytes[i];
    if (n)
        memcpy(scene + at, list, DESK_LIST_BYTES(n));
    return at + DESK_LIST_BYTES(n);
}

/* Whether the text ends in this line. */
static int last(size_t size, const char *line) {
    const size_t n = strlen(line);
    return size >= n && memcmp(text + size - n, line, n) == 0 && (size == n || text[size - n - 1] == '\n');
}

/* A text that nearly fills its room: two areas of five digits that intersect, four places, and pairs up to the scene's last byte. A byte
   more is refused. */
static void longest(void) {
    const size_t n = 2 * 36 + 4 * 20 + 6520 * 30 + 9;
    size_t at = put(put(0, 1, 65534, 0, square, 4), 1, 65535, 0, turned, 4), i;
    for (i = 0; i < 4; i++)
        at = put(at, 2, 65534, 0, south, 1);
    for (i = 0; i < 6520; i++)
        at = put(at, 3, 65534, 65535, NULL, 0);
    HOLD(at, DESK_MOST_SCENE_BYTES);
    HOLD(desk_scene(scene, DESK_MOST_SCENE_BYTES, text, DESK_MOST_TEXT_BYTES), n);
    HOLD(last(n, "end 6526\n"), 1);
    HOLD(desk_scene(scene, DESK_MOST_SCENE_BYTES, text, n - 1), DESK_REFUSED_SIZE_ROOM);
    HOLD(desk_scene(scene, DESK_MOST_SCENE_BYTES + 1u, text, DESK_MOST_TEXT_BYTES), 22);
    HOLD(last(22, "refused 28 at 0 65536\n"), 1);
}

/* What a refused scene's text ends in: a record that is cut short, a number that no area has, and a list whose second position is no unit vector. */
static void refused_scenes(void) {
    static const double far[] = {1, 0, 0, 2, 0, 0};
    const size_t size = put(0, 1, 1, 0, octant, 3);
    HOLD(desk_scene(scene, size - 1, text, sizeof text), 19);
    HOLD(last(19, "refused 20 at 0 79\n"), 1);
    HOLD(last(desk_scene(scene, put(size, 3, 1, 2, NULL, 0), text, sizeof text), "refused 25 at 80 88\n"), 1);
    HOLD(last(desk_scene(scene, put(size, 1, 2, 0, far, 2), text, sizeof text), "refused 4 at 80 86 1\n"), 1);
}

static void scenes(void) {
    const char lines[] = "area 1 3 ring reversed steady 1\nend 1\n";
    const size_t size = put(0, 1, 1, 0, octant, 3), n = sizeof lines - 1;
    HOLD(desk_scene(NULL, 0, NULL, 0), DESK_REFUSED_SIZE_ROOM);
    HOLD(desk_scene(NULL, 0, NULL, 0) - 5u, DESK_REFUSED_SIZE);
    HOLD(desk_scene(NULL, 0, text, sizeof text), 6);
    HOLD(last(6, "end 0\n"), 1);
    memset(text, 'x', n + 1);
    HOLD(desk_scene(scene, size, text, n - 1), DESK_REFUSED_SIZE_ROOM);
    HOLD(text[0] == 'x' && memcmp(text, text + 1, n) == 0, 1); /* nothing was written */
    HOLD(desk_scene(scene, size, text, n), n);
    HOLD(DESK_IS_REFUSED_SIZE(desk_scene(scene, size, text, n)), 0);
    HOLD(DESK_IS_REFUSED_SIZE(desk_scene(scene, size, text, n - 1)), 1);
    HOLD(memcmp(text, lines, n), 0);
    HOLD(desk_scene(scene, size, text, sizeof text), n);
    HOLD(text[n], 'x'); /* what lies past the text stays */
    refused_scenes();
    longest();
}

int main(void) {
    headers();
    places();
    pairs();
    arcs();
    modes();
    refusals();
    sizes();
    distances();
    scenes();
    return wrong;
}
