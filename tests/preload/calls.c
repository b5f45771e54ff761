// Loaded before the C library, this looks at the calls by which files are opened, looked at, locked, written to the device, named and
// removed, and refuses some of them or does something before one. `tests/shardfile` builds and loads it. Environment variables say what:
//
// CALLS=FILE            a line for each of these calls: its name, and the name of its file
// REFUSED=CALL WHICH N  the call that this means fails with the error N
// BEFORE=CALL WHICH     before the call that this means the shell does what DO says
//
// CALL is open, stat, lock, sync, name (both link and rename) or unlink; WHICH is a number, from 1 on, of the call among those of its
// kind, a number with + for this call and all after it, or the name that ends that of its file.
typedef unsigned long size_t;
extern char *getenv(const char *), *strtok_r(char *, const char *, char **), *strdup(const char *);
extern int unsetenv(const char *), fork(void), execl(const char *, const char *, ...), waitpid(int, int *, int), strcmp(const char *, const char *), atoi(const char *);
extern int snprintf(char *, size_t, const char *, ...), dprintf(int, const char *, ...), close(int);
extern size_t strlen(const char *);
extern long readlink(const char *, char *, size_t);
extern void *dlsym(void *, const char *), free(void *), _exit(int);
extern int *__errno_location(void);

enum { OPEN, STAT, LOCK, SYNC, NAME, UNLINK, KINDS };
static const char *const KIND[KINDS] = {"open", "stat", "lock", "sync", "name", "unlink"};
static int made[KINDS];

// The next function of this name: -1 is RTLD_NEXT.
static void *next(const char *name) { return dlsym((void *)-1l, name); }

static int really_open(const char *path, int flags, unsigned mode) {
    return ((int (*)(const char *, int, ...))next("open"))(path, flags, mode);
}

static int ends_with(const char *path, const char *end) {
    size_t n = strlen(path), m = strlen(end);
    return m <= n && strcmp(path + n - m, end) == 0;
}

// Whether the variable means this call; its third word is then in `number`.
static int is_meant(const char *variable, int kind, const char *path, int *number) {
    char *value = getenv(variable), *copy, *rest, *which, *third;
    int meant = 0;
    if (!value || !*value || !(copy = strdup(value))) return 0;
    if (strcmp(strtok_r(copy, " ", &rest), KIND[kind]) == 0 && (which = strtok_r(0, " ", &rest))) {
        meant = atoi(which) > 0 ? atoi(which) == made[kind] || (atoi(which) < made[kind] && ends_with(which, "+")) : ends_with(path, which);
        third = strtok_r(0, " ", &rest);
        if (third) *number = atoi(third);
    }
    free(copy);
    return meant;
}

// Whether the call is refused, after all that is to be done before it.
static int is_refused(int kind, const char *path) {
    // 02001 is for writing at the end
    char *log = getenv("CALLS"), *done = getenv("DO");
    int number = 0, to;
    made[kind]++;
    if (log && (to = really_open(log, 02001, 0)) >= 0) {
        dprintf(to, "%s %s\n", KIND[kind], path);
        close(to);
    }
    if (done && is_meant("BEFORE", kind, path, &number)) {
        unsetenv("BEFORE");
        unsetenv("LD_PRELOAD");
        // No `system`, while which a program takes no SIGINT.
        int child = fork();
        if (child == 0) {
            execl("/bin/sh", "sh", "-c", done, (char *)0);
            _exit(127);
        }
        waitpid(child, 0, 0);
    }
    if (!is_meant("REFUSED", kind, path, &number)) return 0;
    *__errno_location() = number;
    return 1;
}

static int is_refused_of(int kind, int fd) {
    char link[64], path[4096];
    long n;
    snprintf(link, sizeof link, "/proc/self/fd/%d", fd);
    n = readlink(link, path, sizeof path - 1);
    path[n < 0 ? 0 : n] = 0;
    return is_refused(kind, path);
}

int open(const char *path, int flags, ...) {
    __builtin_va_list rest;
    unsigned mode;
    __builtin_va_start(rest, flags);
    mode = __builtin_va_arg(rest, unsigned);
    __builtin_va_end(rest);
    return is_refused(OPEN, path) ? -1 : really_open(path, flags, mode);
}
int statx(int fd, const char *path, int flags, unsigned mask, void *to) {
    int refused = *path ? is_refused(STAT, path) : is_refused_of(STAT, fd);
    return refused ? -1 : ((int (*)(int, const char *, int, unsigned, void *))next("statx"))(fd, path, flags, mask, to);
}
int flock(int fd, int how) { return is_refused_of(LOCK, fd) ? -1 : ((int (*)(int, int))next("flock"))(fd, how); }
int fsync(int fd) { return is_refused_of(SYNC, fd) ? -1 : ((int (*)(int))next("fsync"))(fd); }
int link(const char *from, const char *to) {
    return is_refused(NAME, to) ? -1 : ((int (*)(const char *, const char *))next("link"))(from, to);
}
int rename(const char *from, const char *to) {
    return is_refused(NAME, to) ? -1 : ((int (*)(const char *, const char *))next("rename"))(from, to);
}
int unlink(const char *path) { return is_refused(UNLINK, path) ? -1 : ((int (*)(const char *))next("unlink"))(path); }
