// Loaded before the C library, this counts allocations and refuses one of them. `.ci/sweeps` builds and loads it.
//
// A program speaks to it by asking for blocks of impossible sizes: `rows --refused` as crates/rows_base/src/refusals.rt says,
// where allocations are counted within the calls that it marks alone, and the programs in C from REFUSE on. For a program
// that does not, the environment variable REFUSED says which allocation is refused, and at its end the file that
// ALLOCATIONS names is told how many were made. Without these, and in a program that never asks, nothing is refused.
typedef unsigned long size_t;
extern void *__libc_malloc(size_t), *__libc_calloc(size_t, size_t), *__libc_realloc(void *, size_t);
extern void *__libc_memalign(size_t, size_t);
extern char *getenv(const char *);
extern long strtol(const char *, char **, int);
extern int open(const char *, int, ...), dprintf(int, const char *, ...);

static const size_t REFUSE = 0x7e00000000000000ul, HAS_COME = 0x7d00000000000000ul, IS_LARGER = 0x7c00000000000000ul;
static const size_t REFUSE_WITHIN = 0x7b00000000000000ul, BEGIN = 0x7a00000000000000ul, END = 0x7900000000000000ul;
static const size_t TELL = 0x7800000000000000ul, WAS_TOLD = 0x7700000000000000ul, ASKED = 98689;
static size_t left, made, largest, told;
// Whether allocations are counted within calls alone, and whether a call has begun and not ended.
static int come, within, begun;

// Counts an allocation of n bytes, and says whether it is the one that is refused.
static int refused(size_t n) {
    if (within && !begun) return 0;
    made++;
    if (n > largest) largest = n;
    if (left == 0 || --left > 0) return 0;
    come = 1;
    return 1;
}

static void *answer(int yes) { return yes ? __libc_malloc(1) : 0; }

void *malloc(size_t n) {
    if (n >= WAS_TOLD) {
        if (n >= REFUSE || (n >= REFUSE_WITHIN && n < IS_LARGER)) {
            within = n < REFUSE;
            left = n - (within ? REFUSE_WITHIN : REFUSE);
            come = begun = 0;
            largest = told = 0;
            return 0;
        }
        if (n == HAS_COME) return answer(come);
        if (n >= IS_LARGER) return answer(largest > n - IS_LARGER);
        if (n == BEGIN || n == END) {
            begun = n == BEGIN;
            return 0;
        }
        if (n >= TELL) {
            told |= 1ul << (n - TELL);
            return 0;
        }
        return answer((told >> (n - WAS_TOLD)) & 1);
    }
    if (n == ASKED && within) return 0;
    return refused(n) ? 0 : __libc_malloc(n);
}
void *calloc(size_t n, size_t size) { return refused(n * size) ? 0 : __libc_calloc(n, size); }
void *realloc(void *p, size_t n) { return refused(n) ? 0 : __libc_realloc(p, n); }
void *aligned_alloc(size_t alignment, size_t n) { return refused(n) ? 0 : __libc_memalign(alignment, n); }
int posix_memalign(void **p, size_t alignment, size_t n) {
    if (refused(n)) return 12;
    *p = __libc_memalign(alignment, n);
    return *p ? 0 : 12;
}

__attribute__((constructor)) static void begin(void) {
    char *n = getenv("REFUSED");
    left = n ? strtol(n, 0, 10) : 0;
    made = 0;
}
__attribute__((destructor)) static void end(void) {
    size_t all = made;
    char *path = getenv("ALLOCATIONS");
    // 01 is for writing
    if (path) dprintf(open(path, 01), "%lu\n", all);
}
