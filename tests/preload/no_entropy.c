// Loaded before the C library, this has no random bytes to give: the source of the system fails. `tests/secretshares` builds
// and loads it.
extern int *__errno_location(void);

int getentropy(void *bytes, unsigned long count) {
    (void)bytes;
    (void)count;
    // 5 is EIO
    *__errno_location() = 5;
    return -1;
}
