/*
** Makes a call of a library some times, unless that takes more than a second. Prints the processor
** seconds of the shortest one and the sum of the values that it read, and writes the bytes that it
** made into OUT. OUT is the database of a call that makes none.
**
** usage: calls RUNS OPERATION OUT [FILE [FILE2]]
*/
#define _POSIX_C_SOURCE 200809L
#include <stdio.h>
#include <stdlib.h>
#include <time.h>

#include "calls.h"

long long sum;

static void expect(int is_good, const char *what)
{
    if (!is_good) {
        perror(what);
        exit(1);
    }
}

static struct bytes read_file(const char *name)
{
    struct bytes bytes = {NULL, 0};
    FILE *file = fopen(name, "rb");
    expect(file != NULL && fseek(file, 0, SEEK_END) == 0, name);
    bytes.count = (size_t)ftell(file);
    bytes.at = malloc(bytes.count + 1);
    rewind(file);
    expect(bytes.at != NULL && fread(bytes.at, 1, bytes.count, file) == bytes.count, name);
    fclose(file);
    return bytes;
}

static void write_file(const char *name, const struct bytes *bytes)
{
    FILE *file = fopen(name, "wb");
    expect(file != NULL && fwrite(bytes->at, 1, bytes->count, file) == bytes->count, name);
    expect(fclose(file) == 0, name);
}

static double seconds(void)
{
    struct timespec now;
    clock_gettime(CLOCK_PROCESS_CPUTIME_ID, &now);
    return (double)now.tv_sec + (double)now.tv_nsec / 1e9;
}

int main(int count, char **words)
{
    struct bytes files[2] = {{NULL, 0}, {NULL, 0}}, out = {NULL, 0};
    double best = 1e9, total = 0;
    expect(count >= 4 && count <= 6, "usage");
    for (int file = 0; file < count - 4; file++) {
        files[file] = read_file(words[4 + file]);
    }
    for (int run = 0; run < atoi(words[1]) && total < 1; run++) {
        discard(&out);
        sum = 0;
        double start = seconds();
        int code = call(words[2], words[3], files, &out);
        double taken = seconds() - start;
        if (code != 0) {
            fprintf(stderr, "%s: error %d\n", words[2], code);
            return 1;
        }
        total += taken;
        best = taken < best ? taken : best;
    }
    if (out.at != NULL) {
        write_file(words[3], &out);
    }
    printf("%.9f %lld\n", best, sum);
    return 0;
}
