/* What `calls.c` has from `ours.c`, or from `library.c` for SQLite's library. */
#include <stddef.h>
#include <stdint.h>

struct bytes {
    uint8_t *at;
    size_t count;
};

/* The sum of the values that a call has read, by which both sides are compared. */
extern long long sum;

/* Makes a call on up to two files, or on the database of this name. Returns 0, or an error. */
int call(const char *operation, const char *name, const struct bytes *files, struct bytes *out);

/* Frees what a call has made. */
void discard(struct bytes *out);
