// Carries calls to the exports across the emulator, for a host that cannot link x86-64 code (Arm).
// One batch in, the same batch back: u64 size, then calls. A call is u32 export, u32 count of arguments, u64 value
// (0; the answer on the way back), u64 status (0; 1 done, 2 no such export), then its arguments, each
// u32 kind (0 number, 1 double, 2 slice), u32 0, u64 number, bits or count of elements, u64 size in bytes, and the
// bytes, which the host pads to eights. Slices are lent in place, so what comes back is what the exports left.
// Freestanding: no C library, so nothing but the port and these lines runs.
typedef unsigned long u64;
typedef unsigned int u32;
typedef unsigned char u8;

#define EXPORTS(X)                                                                                                     \
    X(desk_root) X(desk_atan2) X(desk_build) X(desk_place) X(desk_pair) X(desk_triangles) X(desk_accepts)              \
    X(desk_convex) X(desk_simple) X(desk_vertex) X(desk_on_edge) X(desk_equivalent) X(desk_arc) X(desk_arc_opposite)   \
    X(desk_arc_side) X(desk_arc_contains) X(desk_arc_intersection) X(desk_arc_relate) X(desk_build_f64)                \
    X(desk_place_f64) X(desk_pair_f64) X(desk_triangles_f64) X(desk_full_positions) X(leaf_vec) X(leaf_number)         \
    X(leaf_case) X(leaf_cap) X(desk_scene) X(desk_radians) X(desk_far) X(desk_arc_far) X(desk_far_f64)                 \
    X(desk_build_long) X(desk_build_long_f64) X(desk_arc_intersection_long) X(desk_arc_relate_long)

// Weak, so that an export which is not there yet is a null pointer.
#define DECLARE(name) extern u64 name(void) __attribute__((weak));
EXPORTS(DECLARE)
#define ENTRY(name) (void *)name,
static void *const table[] = {EXPORTS(ENTRY)};
#define MOST (sizeof table / sizeof table[0])

// One shape for all exports: whole numbers and pointers go in their own registers, then on the stack in order,
// doubles in theirs, and a function reads only as many as it has.
typedef u64 any(u64, u64, u64, u64, u64, u64, u64, u64, u64, u64, u64, u64, u64, u64, u64, u64, double, double, double);

static u8 batch[1 << 26] __attribute__((aligned(16)));

static long call3(long number, long a, long b, long c) {
    long r;
    __asm__ volatile("syscall" : "=a"(r) : "a"(number), "D"(a), "S"(b), "d"(c) : "rcx", "r11", "memory");
    return r;
}

static void stop(long status) {
    for (;;) call3(231, status, 0, 0);
}

// Reads `size` bytes; an end before the first one is the end of the work.
static void take(u8 *to, u64 size) {
    u64 have = 0;
    while (have < size) {
        long got = call3(0, 0, (long)(to + have), (long)(size - have));
        if (got <= 0) stop(have == 0 && got == 0 ? 0 : 1);
        have += (u64)got;
    }
}

static void give(const u8 *from, u64 size) {
    u64 have = 0;
    while (have < size) {
        long put = call3(1, 1, (long)(from + have), (long)(size - have));
        if (put <= 0) stop(1);
        have += (u64)put;
    }
}

// Makes the call at `at` and returns where the next one starts.
static u64 make(u64 at) {
    u64 *head = (u64 *)(batch + at);
    u32 export = ((u32 *)head)[0], count = ((u32 *)head)[1];
    u64 n[16] = {0}, used = 0, used_doubles = 0;
    double d[3] = {0};
    at += 24;
    for (u32 i = 0; i < count; i++) {
        u64 *arg = (u64 *)(batch + at);
        u32 kind = *(u32 *)arg;
        if (kind == 0) n[used++ & 15] = arg[1];
        if (kind == 1) d[used_doubles++ % 3] = *(double *)(arg + 1);
        if (kind == 2) {
            n[used++ & 15] = (u64)(arg + 3);
            n[used++ & 15] = arg[1];
        }
        at += 24 + (arg[2] + 7) / 8 * 8;
    }
    void *f = export < MOST ? table[export] : 0;
    head[2] = f ? 1 : 2;
    if (f)
        head[1] = ((any *)f)(n[0], n[1], n[2], n[3], n[4], n[5], n[6], n[7], n[8], n[9], n[10], n[11], n[12], n[13],
                             n[14], n[15], d[0], d[1], d[2]);
    return at;
}

__attribute__((used)) static void run(void) {
    for (;;) {
        u64 size = 0;
        take((u8 *)&size, 8);
        if (size > sizeof batch) stop(1);
        take(batch, size);
        for (u64 at = 0; at < size;) at = make(at);
        give((u8 *)&size, 8);
        give(batch, size);
    }
}

__asm__(".globl _start\n_start:\n xor %ebp, %ebp\n and $-16, %rsp\n call run\n hlt\n");

// What compiled code may ask of a C library.
void *memcpy(void *to, const void *from, u64 n) {
    u8 *t = to;
    const u8 *f = from;
    for (u64 i = 0; i < n; i++) t[i] = f[i];
    return to;
}
void *memmove(void *to, const void *from, u64 n) {
    u8 *t = to;
    const u8 *f = from;
    if (t < f)
        for (u64 i = 0; i < n; i++) t[i] = f[i];
    else
        for (u64 i = n; i > 0; i--) t[i - 1] = f[i - 1];
    return to;
}
void *memset(void *to, int v, u64 n) {
    u8 *t = to;
    for (u64 i = 0; i < n; i++) t[i] = (u8)v;
    return to;
}
int memcmp(const void *a, const void *b, u64 n) {
    const u8 *p = a, *q = b;
    for (u64 i = 0; i < n; i++)
        if (p[i] != q[i]) return p[i] < q[i] ? -1 : 1;
    return 0;
}
int bcmp(const void *a, const void *b, u64 n) { return memcmp(a, b, n); }
