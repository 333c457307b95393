/* A whole program over desk.h, plain C99 and C++: two areas are built, asked, measured, compared and cut, and then come a refusal,
   a ring that is mute, a full loop, an area with a long side in both modes, and the first two areas as a scene. What it prints is
   exports/sample.txt. */
#include "desk.h"
#include <stdio.h>
#include <string.h>

/* A loop with room for 16 corners, and how many of its bytes are in use. */
#define CORNERS 16u
typedef struct {
    uint8_t bytes[DESK_LOOP_BYTES(CORNERS)];
    size_t size;
} Area;

/* What a refusal means, or null where the answer is none. */
static const char *refusal(uint32_t answer) {
    if (!DESK_IS_REFUSED(answer))
        return NULL;
    switch (answer) {
    case DESK_REFUSED_SHAPE: return "a length or a count does not fit";
    case DESK_REFUSED_MANY: return "more than 512 positions";
    case DESK_REFUSED_NOT_FINITE: return "a component is NaN or infinite";
    case DESK_REFUSED_NOT_UNIT: return "a position is not a unit vector";
    case DESK_REFUSED_ROOM: return "an output is too short";
    case DESK_REFUSED_CLASS: return "a class above 2";
    case DESK_REFUSED_BOTH_WAYS: return "each loop is found in the other";
    case DESK_REFUSED_NO_EAR: return "the ring cannot be cut";
    case DESK_REFUSED_NO_RING: return "an empty or full loop has no triangles to check";
    case DESK_REFUSED_MODES: return "one loop is plain, the other long";
    default: return "a refusal that this program does not know";
    }
}

/* Prints the refusal and says whether there was one. */
static int refused(const char *what, uint32_t answer) {
    const char *why = refusal(answer);
    if (why != NULL)
        printf("%s: refused %u, %s\n", what, (unsigned)(answer - DESK_REFUSED), why);
    return why != NULL;
}

/* Doubles of this machine as little-endian bytes. */
static void put_floats(uint8_t *to, const double *from, size_t n) {
    size_t i, k;
    for (i = 0; i < n; i++) {
        uint64_t bits;
        memcpy(&bits, &from[i], sizeof bits);
        for (k = 0; k < 8; k++)
            to[8 * i + k] = (uint8_t)(bits >> (8 * k));
    }
}

static const char *state(const uint8_t *loop) {
    unsigned corners = loop[0] + 256u * loop[1];
    if (loop[2] == DESK_STATE_EMPTY)
        return "empty";
    if (loop[2] == DESK_STATE_FULL)
        return "full";
    return corners > 3 && !(loop[3] & DESK_MARK_INSIDES) ? "mute ring" : "ring";
}

/* Builds an area of at most CORNERS positions, by desk_build or desk_build_long; 1 where there is one. */
typedef uint32_t Build(const uint8_t *list, size_t list_len, uint8_t *out, size_t out_len);
static int build_by(Build *by, const char *name, Area *area, const double *list, size_t n) {
    uint8_t bytes[DESK_LIST_BYTES(CORNERS)];
    uint32_t corners;
    if (n > CORNERS)
        return 0;
    put_floats(bytes, list, DESK_LIST_FLOATS(n));
    corners = by(bytes, DESK_LIST_BYTES(n), area->bytes, sizeof area->bytes);
    if (refused(name, corners))
        return 0;
    area->size = DESK_LOOP_BYTES(corners);
    printf("%s: %s of %u corners, %s, %s%s\n", name, state(area->bytes), (unsigned)corners,
           area->bytes[3] & DESK_MARK_REVERSED ? "reversed" : "kept",
           area->bytes[3] & DESK_MARK_WEAK ? "weak" : "steady", area->bytes[3] & DESK_MARK_LONG ? ", long" : "");
    return 1;
}

static int build(const char *name, Area *area, const double *list, size_t n) {
    return build_by(desk_build, name, area, list, n);
}

static void place(const char *name, const Area *area, double x, double y, double z) {
    static const char *const words[] = {"outside", "inside", "mute: the area cannot tell"};
    const double p[3] = {x, y, z};
    uint8_t bytes[DESK_POSITION_BYTES];
    uint32_t answer;
    put_floats(bytes, p, 3);
    answer = desk_place(area->bytes, area->size, bytes, sizeof bytes);
    if (!refused(name, answer))
        printf("%s: (%g, %g, %g) is %s\n", name, x, y, z, words[answer]);
}

/* A little-endian number of 64 bits. */
static uint64_t number(const uint8_t *from) {
    uint64_t n = 0;
    int k;
    for (k = 7; k >= 0; k--)
        n = 256u * n + from[k];
    return n;
}

static double float_of(uint64_t bits) {
    double x;
    memcpy(&x, &bits, sizeof x);
    return x;
}

/* How far a position is from the border. A squared chord is no length: its radians are, times the earth's radius. */
static void distance(const char *name, const Area *area, double x, double y, double z) {
    const double p[3] = {x, y, z}, earth = 6371.0088;
    uint8_t bytes[DESK_POSITION_BYTES], out[DESK_CHORD_BYTES];
    uint64_t chord;
    double angle;
    put_floats(bytes, p, 3);
    if (refused(name, desk_far(area->bytes, area->size, bytes, sizeof bytes, out, sizeof out)))
        return;
    chord = number(out);
    angle = float_of(desk_radians(chord));
    printf("%s: (%g, %g, %g) is %.0f km from its border: squared chord %.6f, %.6f radians\n", name, x, y, z, angle * earth,
           float_of(chord), angle);
}

static void relate(const char *name, const Area *a, const Area *b) {
    static const char *const words[] = {"disjoint", "touching", "intersecting", "containing", "within", "equal"};
    uint32_t answer = desk_pair(a->bytes, a->size, b->bytes, b->size);
    if (!refused(name, answer))
        printf("%s: %s\n", name, words[answer]);
}

/* Cuts an area, has the cut checked, and prints the triangles. */
static void cut(const char *name, const Area *area) {
    uint8_t out[DESK_MOST_TRIANGLES_BYTES];
    uint32_t i, n = desk_triangles(area->bytes, area->size, out, sizeof out);
    if (refused(name, n))
        return;
    printf("%s: triangles %u, accepted %s:", name, (unsigned)n,
           desk_accepts(area->bytes, area->size, out, 6u * n) == DESK_YES ? "yes" : "no");
    for (i = 0; i < n; i++) {
        const uint8_t *t = out + 6 * i;
        printf(" %u-%u-%u", t[0] + 256u * t[1], t[2] + 256u * t[3], t[4] + 256u * t[5]);
    }
    printf("\n");
}

/* A full loop's triangles number twelve positions of the library. */
static void cut_full(const Area *area) {
    uint8_t out[DESK_FULL_TRIANGLES_BYTES];
    double positions[DESK_FULL_POSITIONS_FLOATS];
    const double *p;
    uint32_t n = desk_triangles(area->bytes, area->size, out, sizeof out);
    if (refused("full", n) || refused("full", desk_full_positions(positions, DESK_FULL_POSITIONS_FLOATS)))
        return;
    p = positions + 3 * out[6 * (n - 1)];
    printf("full: triangles %u, the last one starts at (%.3f, %.3f, %.3f)\n", (unsigned)n, p[0], p[1], p[2]);
}

/* A strip with a side of 164 degrees along the equator, a place south of it and a patch across it. That the way from inside the strip to
   the place crosses that side, more than a quarter circle on, and that the patch crosses it, as far from where it starts, long mode tells
   alone. */
static void compare_modes(void) {
    static const double corners[] = {1, 0, 0, -0.96, 0.28, 0, -0.9216, 0.2688, 0.28, 0.96, 0, 0.28};
    static const double across[] = {0.768, 0.576, 0.28, 0.768, 0.576, -0.28, 0.9216, 0.2688, -0.28};
    static Area strip, patch, long_strip, long_patch;
    if (!build("strip", &strip, corners, 4) || !build("patch", &patch, across, 3))
        return;
    place("strip", &strip, -0.598272, 0.797696, -0.07584);
    relate("strip to patch", &strip, &patch);
    if (!build_by(desk_build_long, "long strip", &long_strip, corners, 4)
        || !build_by(desk_build_long, "long patch", &long_patch, across, 3))
        return;
    place("long strip", &long_strip, -0.598272, 0.797696, -0.07584);
    relate("long strip to long patch", &long_strip, &long_patch);
    relate("long strip to patch", &long_strip, &patch);
}

/* A record of a scene: the length of its body, its kind, and the body, numbers of areas and then positions. Answers its
   length. */
enum { AREA = 1, PLACE = 2, PAIR = 3 };
static size_t put_record(uint8_t *to, unsigned kind, const unsigned *areas, size_t count, const double *list,
                         size_t n) {
    const size_t body = 2 * count + DESK_LIST_BYTES(n);
    size_t i;
    for (i = 0; i < 4; i++)
        to[i] = (uint8_t)(body >> (8 * i));
    to[4] = (uint8_t)kind;
    to[5] = 0;
    for (i = 0; i < 2 * count; i++)
        to[6 + i] = (uint8_t)(areas[i / 2] >> (8 * (i % 2)));
    put_floats(to + 6 + 2 * count, list, DESK_LIST_FLOATS(n));
    return 6 + body;
}

/* The numbers of a line, at most so many; answers how many there are. */
static unsigned numbers(const char *line, unsigned *to, unsigned most) {
    unsigned n = 0;
    int within = 0;
    for (; *line != '\n' && *line != 0; line++) {
        const int digit = *line >= '0' && *line <= '9';
        if (digit && !within && n == most)
            return n;
        if (digit && !within)
            to[n++] = 0;
        if (digit)
            to[n - 1] = 10 * to[n - 1] + (unsigned)(*line - '0');
        within = digit;
    }
    return n;
}

/* What the last line of a scene's text says. */
static void tell(const char *line) {
    unsigned n[4] = {0, 0, 0, 0};
    const unsigned count = numbers(line, n, 4);
    if (strncmp(line, "end ", 4) == 0 && count == 1) {
        printf("scene: all %u records were read\n", n[0]);
    } else if (strncmp(line, "refused ", 8) == 0 && count >= 3) {
        printf("scene: refused %u, the record at byte %u for what stands at byte %u\n", n[0], n[1], n[2]);
        if (count == 4)
            printf("scene: it is position %u of its list, counted from 0\n", n[3]);
    } else {
        printf("scene: broken output, take nothing from it\n");
    }
}

/* Runs a scene with so much room and prints its text. A refusal's number means the same whatever it is added to. */
static void run(const uint8_t *scene, size_t size, size_t room) {
    static uint8_t text[DESK_MOST_TEXT_BYTES + 1u];
    const uint64_t n = desk_scene(scene, size, text, room);
    size_t from;
    if (DESK_IS_REFUSED_SIZE(n)) {
        refused("scene", DESK_REFUSED + (uint32_t)(n - DESK_REFUSED_SIZE));
        return;
    }
    text[n] = 0; /* ours: the library writes none */
    printf("%s", (const char *)text);
    for (from = n > 0 ? (size_t)n - 1 : 0; from > 0 && text[from - 1] != '\n'; from--)
        ;
    tell((const char *)text + from);
}

/* The worked example of the scene program: both areas, two places in the first, and the pair; then the first area and one whose last position is no unit vector. */
static void run_example(const double *first, const double *second) {
    static const unsigned areas[] = {1, 2};
    static const double inside[] = {0.48, 0.6, 0.64}, outside[] = {0.6, 0, 0.8}, far[] = {1, 0, 0, 0, 1, 0, 0, 0, 2};
    uint8_t scene[256];
    size_t n = put_record(scene, AREA, areas, 1, first, 3);
    n += put_record(scene + n, AREA, areas + 1, 1, second, 3);
    n += put_record(scene + n, PLACE, areas, 1, inside, 1);
    n += put_record(scene + n, PLACE, areas, 1, outside, 1);
    n += put_record(scene + n, PAIR, areas, 2, NULL, 0);
    run(scene, n, DESK_MOST_TEXT_BYTES);
    run(scene, n, 0);
    n = put_record(scene, AREA, areas, 1, first, 3);
    n += put_record(scene + n, AREA, areas + 1, 1, far, 3);
    run(scene, n, DESK_MOST_TEXT_BYTES);
}

int main(void) {
    static const double first[] = {1, 0, 0, 0, 1, 0, 0, 0, 1}, second[] = {1, 0, 0, 0, 1, 0, 0, 0, -1};
    static const double square[] = {0.6, 0, 0.8, 0, 0.6, 0.8, -0.6, 0, 0.8, 0, -0.6, 0.8};
    static const double longer[] = {1, 0, 0, 0, 2, 0, 0, 0, 1}, whole[] = {1, 0, 0, 0.6, 0.8, 0, 0, 1, 0};
    const double t = 0.5773502691896258;
    const double silent[] = {-t, t, -t, 1, 0, 0, -t, -t, t, t, -t, t};
    static Area a, b, c, mute, full;
    if (build("area 1", &a, first, 3) && build("area 2", &b, second, 3)) {
        place("area 1", &a, 0.48, 0.6, 0.64);
        place("area 1", &a, 0.6, 0.0, 0.8);
        place("area 1", &a, 0.6, 0.8, 0.8);
        distance("area 1", &a, 0.48, 0.6, 0.64);
        relate("area 1 to area 2", &a, &b);
        cut("area 1", &a);
    }
    if (build("square", &c, square, 4))
        cut("square", &c);
    build("too long", &c, longer, 3);
    if (build("silent", &mute, silent, 4))
        place("silent", &mute, 0.6, 0.0, 0.8);
    if (build("full", &full, whole, 3)) {
        place("full", &full, 0.6, 0.0, 0.8);
        cut_full(&full);
    }
    refused("short", desk_full_positions(NULL, 0));
    compare_modes();
    run_example(first, second);
    return 0;
}
