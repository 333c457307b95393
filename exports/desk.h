/* The desk's geometry for C and C++: the functions of target/staticlib/libdesk.a (`exports/library`, x86-64 Linux).
   docs/SCOPE.md says what each answer means; exports/sample.c is a whole program; exports/check compiles it as C99 and
   as C++, links and runs it, and holds every name and constant below to the archive.

   ANSWERS. Every call returns for every input. An answer below DESK_REFUSED is an answer. One from there on is a
   refusal, DESK_REFUSED plus its number (the constants DESK_REFUSED_..), and then nothing was written to any buffer.
   A size is answered as a uint64_t below DESK_REFUSED_SIZE, and a refusal there is DESK_REFUSED_SIZE plus its number
   (DESK_REFUSED_SIZE_..). Nothing needs to be checked beforehand, and bytes past a result stay as they were.

   BUFFERS. A slice is a pointer and a count of elements (bytes, doubles or uint16_t, by the pointer's type); the
   pointer may be null where the count is 0. Bytes may stand at any address; doubles and uint16_t are aligned as C
   aligns them (8 and 2 bytes). Slices that are only read may overlap. A slice that is written overlaps no other.
   Numbers in bytes are little-endian, floats are IEEE 754 binary64. A -0.0 in a position or normal counts as 0.0.

   STACK. A call needs less than DESK_STACK_BYTES of stack, desk_scene less than DESK_SCENE_STACK_BYTES: exports/check
   measures that calls on loops of 512 corners, and a scene of two such areas, stay below half of it. No memory is taken
   from the heap; of a C library memcpy and memset are needed.
   THREADS. The library has no variable of its own: calls may run at the same time in any number of threads, as long as
   no slice that one call writes is read or written by another meanwhile.

   A POSITION is a unit vector: x, y, z, 24 bytes or three doubles. Its squared norm may be off 1 by 2^-40.
   A LOOP is built from a list of positions and handed back to every question, as DESK_LOOP_BYTES(n) bytes:
     byte  0  uint16_t count n: how many corners, 0 for empty and full
           2  uint8_t  state: DESK_STATE_..
           3  uint8_t  marks: the sum of DESK_MARK_..; other bits are passed over
           4  four bytes, zero where built, passed over where read
           8  the bounding cap: its centre (three doubles), its squared chord (a double)
          40  two positions known to be inside (six doubles), zero where the mark DESK_MARK_INSIDES is missing
          88  n positions, 24 bytes each, clockwise
      88+24n  n normals, 24 bytes each: the i-th is that of the edge from corner i to the next, counted round
      88+48n  n classes, a byte each: DESK_CLASS_..
   A ring of more than three corners without insides is MUTE: it cannot tell what lies in it. That is not "outside".
   A loop is PLAIN or LONG, by the mark DESK_MARK_LONG, which desk_build_long and desk_build_long_f64 set, for empty and
   full too, and desk_build and desk_build_f64 do not. Two great circles meet in two points, opposite each other. Plain
   takes the one on the side of the first arc's start alone, and misses a meeting that is a quarter circle or more from
   it; long tries both, and asks no cap. desk_place, desk_pair, desk_simple and their _f64 forms go by the mark, no other
   call reads it, and desk_pair and desk_pair_f64 refuse two loops of which one alone has it (DESK_REFUSED_MODES).
   What desk_build, desk_build_long or one of their _f64 forms wrote, as many bytes or elements of it as a loop of the
   count it answered has, handed back as it is, is refused by no call for what it is. With room, a position that is fine
   and triangles in sixes of bytes there is no other refusal than DESK_REFUSED_NO_EAR of desk_triangles,
   DESK_REFUSED_MODES and DESK_REFUSED_BOTH_WAYS of desk_pair, and DESK_REFUSED_NO_RING of desk_accepts, for empty and
   full.
   The functions whose names end in _f64 take the same loop in parts: the 88 bytes of the header, 3n doubles of
   positions, 3n of normals, n classes. An ARC is 72 bytes: start, end, normal. A TRIANGLE is three uint16_t, numbers of
   the ring's corners counted from 0; those of a full loop number the 12 positions of desk_full_positions.

   SCENES. A scene is the bytes that the program `scene` reads, and its text what that prints: README.md has both. The
   text is a line for each record, and then one line that is `end N`, where all N records were read, or
   `refused NUMBER at RECORD FIELD`, with the offsets of the record and of the field that it is refused for; for 3 and 4
   also with the INDEX of the position in its list. A text whose last line is neither is broken output: take nothing from
   it. NUMBER is a call's own (2, 3, 4, 7) or one that a scene's text alone has: 20 the record is cut short, 21 its kind
   is unknown, 22 its length is wrong for its kind, 23 an area number is zero, 24 an area before has that number,
   25 no area before has it, 26 too many areas, 27 too many positions, 28 more than DESK_MOST_SCENE_BYTES.
   docs/REFUSALS.md has the table. A record of kind 4 asks how far a position is from an area's border (the area's number,
   uint16_t, and one position): its line is `far AREA BITS`, where BITS is the squared chord that desk_far writes, as sixteen
   hexadecimal digits, the highest first. That number is what desk_radians takes. */
#ifndef DESK_H
#define DESK_H
#include <stddef.h>
#include <stdint.h>

#ifdef __cplusplus
extern "C" {
#endif

/* ---- refusals: an answer from DESK_REFUSED on */
#define DESK_REFUSED 65536u
#define DESK_IS_REFUSED(answer) ((answer) >= DESK_REFUSED)
#define DESK_REFUSED_SHAPE (DESK_REFUSED + 1u)      /* a length or a count does not fit: see each call */
#define DESK_REFUSED_MANY (DESK_REFUSED + 2u)       /* more than DESK_MOST_POSITIONS positions */
#define DESK_REFUSED_NOT_FINITE (DESK_REFUSED + 3u) /* a component is NaN or infinite */
#define DESK_REFUSED_NOT_UNIT (DESK_REFUSED + 4u)   /* a position's squared norm is outside 1-2^-40 to 1+2^-40 */
#define DESK_REFUSED_ROOM (DESK_REFUSED + 5u)       /* an output is shorter than the result needs */
#define DESK_REFUSED_CLASS (DESK_REFUSED + 6u)      /* a class above 2 in a loop handed back */
#define DESK_REFUSED_BOTH_WAYS (DESK_REFUSED + 7u)  /* each of two loops is found in the other */
#define DESK_REFUSED_NO_EAR (DESK_REFUSED + 8u)     /* the ring cannot be cut into triangles */
#define DESK_REFUSED_NO_RING (DESK_REFUSED + 9u)    /* triangles of an empty or full loop cannot be checked */
#define DESK_REFUSED_MODES (DESK_REFUSED + 11u)     /* of two loops that are paired one is plain, the other long */
/* where the answer is a size: from DESK_REFUSED_SIZE on, 2^32 */
#define DESK_REFUSED_SIZE UINT64_C(4294967296)
#define DESK_IS_REFUSED_SIZE(answer) ((answer) >= DESK_REFUSED_SIZE)
#define DESK_REFUSED_SIZE_ROOM (DESK_REFUSED_SIZE + 5u) /* an output is shorter than the result needs */

/* ---- sizes */
#define DESK_MOST_POSITIONS 512u                    /* in a list, and corners of a ring */
#define DESK_POSITION_BYTES 24u
#define DESK_LIST_BYTES(n) (24u * (n))              /* a list of n positions */
#define DESK_LIST_FLOATS(n) (3u * (n))
#define DESK_HEADER_BYTES 88u
#define DESK_LOOP_BYTES(n) (88u + 49u * (n))        /* room for the loop of a list of n positions */
#define DESK_MOST_LOOP_BYTES 25176u
#define DESK_TRIANGLES(n) ((n) < 3u ? 0u : (n) - 2u) /* how many triangles a ring of n corners has */
#define DESK_TRIANGLES_BYTES(n) (6u * DESK_TRIANGLES(n))
#define DESK_TRIANGLES_NUMBERS(n) (3u * DESK_TRIANGLES(n)) /* the same for desk_triangles_f64, in uint16_t */
#define DESK_FULL_TRIANGLES 20u                     /* of a full loop */
#define DESK_FULL_TRIANGLES_BYTES 120u
#define DESK_FULL_TRIANGLES_NUMBERS 60u
#define DESK_MOST_TRIANGLES_BYTES 3060u             /* room for those of any loop */
#define DESK_FULL_POSITIONS 12u
#define DESK_FULL_POSITIONS_FLOATS 36u
#define DESK_ARC_BYTES 72u
#define DESK_CHORD_BYTES 8u                         /* a squared chord */
#define DESK_MOST_SCENE_BYTES 65536u                /* a longer scene is refused in its text */
#define DESK_MOST_TEXT_BYTES 196989u                /* room for the text of any scene */
#define DESK_STACK_BYTES 131072u                    /* of every call but desk_scene */
#define DESK_SCENE_STACK_BYTES 655360u

/* ---- codes */
#define DESK_STATE_EMPTY 0u /* no position lies in it */
#define DESK_STATE_FULL 1u  /* every position does */
#define DESK_STATE_RING 2u
#define DESK_MARK_REVERSED 1u /* the list ran the other way, and the corners run against it */
#define DESK_MARK_WEAK 2u     /* the sum of its turns is below 2^-30 in size: which way it runs is uncertain */
#define DESK_MARK_INSIDES 4u  /* the two insides are there */
#define DESK_MARK_LONG 8u     /* it was built long */
#define DESK_CLASS_CONVEX 0u
#define DESK_CLASS_REFLEX 1u
#define DESK_CLASS_BOTH 2u
#define DESK_NO 0u
#define DESK_YES 1u
#define DESK_PLACE_OUTSIDE 0u
#define DESK_PLACE_INSIDE 1u
#define DESK_PLACE_MUTE 2u /* the loop cannot tell */
#define DESK_PAIR_DISJOINT 0u
#define DESK_PAIR_TOUCHING 1u
#define DESK_PAIR_INTERSECTING 2u
#define DESK_PAIR_CONTAINING 3u /* the first contains the second */
#define DESK_PAIR_WITHIN 4u     /* the first lies within the second */
#define DESK_PAIR_EQUAL 5u
#define DESK_SIDE_COLLINEAR 0u
#define DESK_SIDE_LEFT 1u
#define DESK_SIDE_RIGHT 2u
#define DESK_ARCS_DISJOINT 0u
#define DESK_ARCS_INTERSECTING 1u
#define DESK_ARCS_TOUCHING 2u
#define DESK_ARCS_OVERLAPPING 3u

/* ---- loops
   Refusals are looked for in this order, and the first is given.
   "A list's": SHAPE, MANY, then NOT_FINITE and NOT_UNIT position by position.
   "A loop's": SHAPE (a length that does not agree with the count, a state above 2, a count that does not fit the
   state), MANY, CLASS, then NOT_FINITE and NOT_UNIT position by position, then NOT_FINITE of normals, cap and insides.
   "A position's": SHAPE (not 24 bytes), NOT_FINITE, NOT_UNIT. */

/* Builds the loop of a list. The answer is its count, 0 for empty and full, whose 88 bytes of header alone are written.
   Refuses: a list's; ROOM where out is shorter than DESK_LOOP_BYTES(n), n being the positions without one closing
   position that repeats the first, or 0 where fewer than three are left. DESK_LOOP_BYTES of the whole list suffices. */
uint32_t desk_build(const uint8_t *list, size_t list_len, uint8_t *out, size_t out_len);

/* The same in long mode: DESK_MARK_LONG is among the marks, and no other byte differs. For an area with a side of a
   quarter circle or more, or so large that a place can lie that far from its inside, and for every area that is paired
   with such a one. Refuses as desk_build does. */
uint32_t desk_build_long(const uint8_t *list, size_t list_len, uint8_t *out, size_t out_len);

/* DESK_PLACE_..: where a position lies. One on the border, a corner or on an edge, may be inside or outside;
   desk_vertex and desk_on_edge tell of the border. Refuses: the loop's, then the position's. */
uint32_t desk_place(const uint8_t *loop, size_t loop_len, const uint8_t *position, size_t position_len);

/* DESK_PAIR_..: how a stands to b. A mute loop contains nothing here, and which side of a weak one is inside hangs on
   rounding: with either the answer tells nothing sure, DESK_PAIR_DISJOINT least of all.
   Refuses: those of a, those of b, MODES, whatever the states, BOTH_WAYS. */
uint32_t desk_pair(const uint8_t *a, size_t a_len, const uint8_t *b, size_t b_len);

/* DESK_NO or DESK_YES: whether the loops have the same corners and classes, whatever their first corner and direction.
   Refuses: those of a, those of b. */
uint32_t desk_equivalent(const uint8_t *a, size_t a_len, const uint8_t *b, size_t b_len);

/* DESK_NO or DESK_YES: whether the ring is convex; whether it is simple. Refuses: the loop's. */
uint32_t desk_convex(const uint8_t *loop, size_t loop_len);
uint32_t desk_simple(const uint8_t *loop, size_t loop_len);

/* DESK_NO or DESK_YES: whether the position is a corner; whether it is on an edge.
   Refuses: the loop's, then the position's. */
uint32_t desk_vertex(const uint8_t *loop, size_t loop_len, const uint8_t *position, size_t position_len);
uint32_t desk_on_edge(const uint8_t *loop, size_t loop_len, const uint8_t *position, size_t position_len);

/* Cuts the loop. The answer is how many triangles were written, six bytes each: 0 for an empty loop, 20 for a full one,
   n-2 for a ring. Refuses: the loop's without those of normals, cap and insides, which it does not read; ROOM where out
   is shorter than that many triangles; NO_EAR. */
uint32_t desk_triangles(const uint8_t *loop, size_t loop_len, uint8_t *out, size_t out_len);

/* DESK_NO or DESK_YES: whether the triangles are cuts of this ring, each at an eligible ear, the last the ring left.
   Refuses: SHAPE where the triangles are not in sixes; the loop's as desk_triangles does; NO_RING. */
uint32_t desk_accepts(const uint8_t *loop, size_t loop_len, const uint8_t *triangles, size_t triangles_len);

/* The positions that a full loop's triangles number, 36 doubles. The answer is 12. Refuses: ROOM below 36. */
uint32_t desk_full_positions(double *out, size_t out_len);

/* ---- arcs
   "An arc's": SHAPE (not 72 bytes), NOT_FINITE and NOT_UNIT of start, of end, NOT_FINITE of the normal. */

/* 0, with the arc in out. Refuses: SHAPE of start, of end, then NOT_FINITE and NOT_UNIT of start, of end; ROOM below
   72 bytes. */
uint32_t desk_arc(const uint8_t *start, size_t start_len, const uint8_t *end, size_t end_len, uint8_t *out,
                  size_t out_len);

/* 0, with the same arc walked backwards in out. Refuses: the arc's; ROOM below 72 bytes. */
uint32_t desk_arc_opposite(const uint8_t *arc, size_t arc_len, uint8_t *out, size_t out_len);

/* DESK_SIDE_..: the side on which a position lies. Refuses: the arc's, the position's. */
uint32_t desk_arc_side(const uint8_t *arc, size_t arc_len, const uint8_t *position, size_t position_len);

/* DESK_NO or DESK_YES: whether the position is on the arc. Refuses: the arc's, the position's. */
uint32_t desk_arc_contains(const uint8_t *arc, size_t arc_len, const uint8_t *position, size_t position_len);

/* DESK_NO; or DESK_YES with the position in which they meet in out.
   Refuses: those of a, those of b; ROOM below 24 bytes, where there is such a position. */
uint32_t desk_arc_intersection(const uint8_t *a, size_t a_len, const uint8_t *b, size_t b_len, uint8_t *out,
                               size_t out_len);

/* DESK_ARCS_..: with the position in out where they intersect or touch, with the shared arc where they overlap.
   Refuses: those of a, those of b; ROOM below the 24 or 72 bytes that the answer writes. 72 always suffice. */
uint32_t desk_arc_relate(const uint8_t *a, size_t a_len, const uint8_t *b, size_t b_len, uint8_t *out, size_t out_len);

/* The same two in long mode: both points are tried in which the great circles meet. A position within both arcs comes
   before one at an end. */
uint32_t desk_arc_intersection_long(const uint8_t *a, size_t a_len, const uint8_t *b, size_t b_len, uint8_t *out,
                                    size_t out_len);
uint32_t desk_arc_relate_long(const uint8_t *a, size_t a_len, const uint8_t *b, size_t b_len, uint8_t *out,
                              size_t out_len);

/* ---- how far
   A SQUARED CHORD is what these write: the square of the straight line from a position to the nearest point, on a sphere of
   radius 1, from 0.0 to 4.0. It is neither a length nor an angle, but less is nearer. desk_radians makes it the angle at
   the earth's centre, and that times the earth's radius is a length along the ground. It is never NaN and never -0.0. At a
   corner or on an edge it need not be 0.0: the last bits of the nearest point are rounded. */

/* 0, with the squared chord from the position to the loop's border in out: the least over the edges; 0.0 for an empty or
   full loop, which has no border. A position inside has a distance too, that to the border, and desk_place tells on which
   side it lies. Mute and weak loops answer like any other.
   Refuses: the loop's, then the position's; last of all ROOM below DESK_CHORD_BYTES. */
uint32_t desk_far(const uint8_t *loop, size_t loop_len, const uint8_t *position, size_t position_len, uint8_t *out,
                  size_t out_len);

/* 0, with the squared chord from the position to the arc in out.
   Refuses: the arc's, the position's; last of all ROOM below DESK_CHORD_BYTES. */
uint32_t desk_arc_far(const uint8_t *arc, size_t arc_len, const uint8_t *position, size_t position_len, uint8_t *out,
                      size_t out_len);

/* ---- the same without copying, for callers that keep loops as floats: answers and refusals as above. A header to be
   read that is not 88 bytes is SHAPE, and so is a slice that is not 3n, 3n or n. */

/* ROOM: a header below 88 bytes; from three positions on, positions or normals below 3n doubles, classes below n.
   Of an empty or full loop the header alone is written. */
uint32_t desk_build_f64(const double *list, size_t list_len, uint8_t *header, size_t header_len, double *positions,
                        size_t positions_len, double *normals, size_t normals_len, uint8_t *classes,
                        size_t classes_len);
uint32_t desk_build_long_f64(const double *list, size_t list_len, uint8_t *header, size_t header_len, double *positions,
                             size_t positions_len, double *normals, size_t normals_len, uint8_t *classes,
                             size_t classes_len);
uint32_t desk_place_f64(const uint8_t *header, size_t header_len, const double *positions, size_t positions_len,
                        const double *normals, size_t normals_len, const uint8_t *classes, size_t classes_len,
                        double x, double y, double z);
uint32_t desk_pair_f64(const uint8_t *header, size_t header_len, const double *positions, size_t positions_len,
                       const double *normals, size_t normals_len, const uint8_t *classes, size_t classes_len,
                       const uint8_t *other_header, size_t other_header_len, const double *other_positions,
                       size_t other_positions_len, const double *other_normals, size_t other_normals_len,
                       const uint8_t *other_classes, size_t other_classes_len);
uint32_t desk_triangles_f64(const uint8_t *header, size_t header_len, const double *positions, size_t positions_len,
                            const uint8_t *classes, size_t classes_len, uint16_t *out, size_t out_len);
/* The squared chord is one double. ROOM: no double in out. */
uint32_t desk_far_f64(const uint8_t *header, size_t header_len, const double *positions, size_t positions_len,
                      const double *normals, size_t normals_len, const uint8_t *classes, size_t classes_len, double x,
                      double y, double z, double *out, size_t out_len);

/* ---- scenes */

/* How many bytes of text were written to the front of out, with no zero byte after them. A scene that is refused is a
   text too, whose last line says so: the only refusal is DESK_REFUSED_SIZE_ROOM, where out is shorter than the text.
   DESK_MOST_TEXT_BYTES always suffice. */
uint64_t desk_scene(const uint8_t *scene, size_t scene_len, uint8_t *out, size_t out_len);

/* ---- numbers, as the 64 bits of a double, never refused; every NaN is answered as 7FF8000000000000 */

/* The square root, correctly rounded; a negative number gives NaN. */
uint64_t desk_root(uint64_t b);
/* The angle of (x, y) in radians, by an arctangent that is proved to be within 2^-45 of the exact angle for finite x and y that
   are not both zero; runs hold it to the C library's atan2 within as much. y = 0.0 with x = NaN gives 0.0, y = -0.0 gives -0.0. */
uint64_t desk_atan2(uint64_t y, uint64_t x);
/* The angle of a squared chord in radians, from 0 to pi. A number below 0 gives -1, which is no angle. 0.0 and -0.0 keep their
   sign; 4, and the double next above it, give pi; whatever is larger gives NaN. */
uint64_t desk_radians(uint64_t c);

#ifdef __cplusplus
}
#endif
#endif
