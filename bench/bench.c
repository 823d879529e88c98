/* Times of several libraries with Composthum's C calls on one image, in one run: every round runs every library once, so that what else
   the machine does falls on all alike. Prints a line for each call and library, fields parted by tabs: bytes and parts of the image, call,
   library, and the median of the rounds in microseconds. Three lines of the library `floor` are what no library can go below:

       read    every field of every row of the image read once
       write   every field of every row of the moved image read and written once, for either list
       copy    the moved image copied by memcpy, for either list

       bench IMAGE LIST LIST_OF_ALL ROUNDS NAME[/N]=LIBRARY.so...

   A library with /N takes part in every N-th round only. One that lacks a call is passed over for that call. All libraries must accept the image
   and write the same moved images, or there are no figures. */
#include "composthum.h"
#include <dlfcn.h>
#include <stdio.h>
#include <stdlib.h>
#include <string.h>
#include <time.h>

typedef dmp_checked check_call(const uint8_t *, size_t);
typedef dmp_found lookup_call(const uint8_t *, size_t, uint8_t, uint32_t);
typedef dmp_boxed box_call(const uint8_t *, size_t, uint32_t);
typedef dmp_migrated migrate_call(const uint8_t *, size_t, const uint8_t *, size_t, uint8_t *, size_t, uint64_t *, size_t);

enum { CHECK, LOOKUP, BOX, MOVE_SOME, MOVE_ALL, CALLS };
static const char *call_names[CALLS] = { "check", "lookup", "box", "migrate", "migrate-all" };
enum { READ, WRITE_SOME, WRITE_ALL, COPY_SOME, COPY_ALL, FLOORS };
static const char *floor_names[FLOORS] = { "read", "write", "write-all", "copy", "copy-all" };
enum { MOST = 8 };

typedef struct {
    const char *name;
    int every;
    void *calls[CALLS];
    double *times[CALLS];
    int count[CALLS];
} library;

typedef struct {
    uint8_t *bytes;
    size_t length;
} file;

static file image, lists[2], moved[2];
static uint8_t *out;
static uint64_t *work;
static size_t rows;
static volatile uint64_t sink;

static void stop(const char *what, const char *why) {
    fprintf(stderr, "bench: %s: %s\n", what, why);
    exit(2);
}

static void *memory(size_t bytes) {
    void *got = calloc(bytes, 1);
    if (!got) stop("memory", "there is none");
    return got;
}

static file slurp(const char *path) {
    FILE *from = fopen(path, "rb");
    if (!from) stop(path, "cannot be read");
    file read = { memory(1 << 21), 0 };
    read.length = fread(read.bytes, 1, 1 << 21, from);
    fclose(from);
    return read;
}

static double now(void) {
    struct timespec t;
    clock_gettime(CLOCK_MONOTONIC, &t);
    return t.tv_sec * 1e6 + t.tv_nsec / 1e3;
}

/* ---- the floors */

/* the walk of the rows, each field read once and, where there is a place for it, written once */
static inline uint64_t walk(const uint8_t *b, size_t len, uint8_t *to) {
    uint64_t sum = 0;
    size_t at = 8;
    for (int p = 0; p < b[5]; p++) {
        uint32_t count;
        memcpy(&count, b + at, 4);
        if (to) memcpy(to + at, &count, 4);
        at += 4;
        for (uint32_t s = 0; s < count && at + 48 <= len; s++) {
            uint64_t word[6];
            memcpy(word, b + at, 48);
            if (to) memcpy(to + at, word, 48);
            for (int i = 0; i < 6; i++) sum += word[i];
            size_t size = 44 + 4 * (size_t)(word[1] ? __builtin_popcountll(word[1]) : 1);
            for (size_t k = 48; k + 4 <= size; k += 4) {
                uint32_t slot;
                memcpy(&slot, b + at + k, 4);
                if (to) memcpy(to + at + k, &slot, 4);
                sum += slot;
            }
            at += size;
        }
    }
    return sum;
}

static void run_floor(int floor) {
    switch (floor) {
    case READ: sink = walk(image.bytes, image.length, NULL); break;
    case WRITE_SOME: sink = walk(moved[0].bytes, moved[0].length, out); break;
    case WRITE_ALL: sink = walk(moved[1].bytes, moved[1].length, out); break;
    case COPY_SOME: memcpy(out, moved[0].bytes, moved[0].length); break;
    default: memcpy(out, moved[1].bytes, moved[1].length);
    }
    sink += out[image.length / 2];
}

/* ---- the calls */

static dmp_migrated migrate(const library *l, int call) {
    const file *list = &lists[call - MOVE_SOME];
    return ((migrate_call *)l->calls[call])(image.bytes, image.length, list->bytes, list->length, out, DMP_LONGEST_IMAGE, work, rows);
}

/* the refusal; looking for an entity that is not there is as good as for one that is */
static uint32_t run_call(const library *l, int call) {
    switch (call) {
    case CHECK: return ((check_call *)l->calls[call])(image.bytes, image.length).refusal;
    case LOOKUP: return ((lookup_call *)l->calls[call])(image.bytes, image.length, 0, 1).refusal % 21;
    case BOX: return ((box_call *)l->calls[call])(image.bytes, image.length, 0).refusal;
    default: return migrate(l, call).refusal;
    }
}

/* NAME[/N]=LIBRARY.so */
static library opened(char *argument, int rounds) {
    library l = { .name = argument, .every = 1 };
    char *path = strchr(argument, '=');
    if (!path) stop(argument, "is not NAME=LIBRARY.so");
    *path++ = 0;
    char *every = strchr(argument, '/');
    if (every) {
        *every++ = 0;
        l.every = atoi(every) > 0 ? atoi(every) : 1;
    }
    void *handle = dlopen(path, RTLD_NOW | RTLD_LOCAL);
    if (!handle) stop(path, dlerror());
    l.calls[CHECK] = dlsym(handle, "dmp_check");
    l.calls[LOOKUP] = dlsym(handle, "dmp_lookup");
    l.calls[BOX] = dlsym(handle, "dmp_box");
    l.calls[MOVE_SOME] = l.calls[MOVE_ALL] = dlsym(handle, "dmp_migrate");
    for (int c = 0; c < CALLS; c++) l.times[c] = memory(rounds * sizeof(double));
    return l;
}

/* every library accepts the image, and all that migrate write the same images, which stay for the floors */
static void must_agree(const library *libraries, int count) {
    for (int l = 0; l < count; l++) {
        if (!libraries[l].calls[CHECK]) stop(libraries[l].name, "has no dmp_check");
        dmp_checked checked = ((check_call *)libraries[l].calls[CHECK])(image.bytes, image.length);
        if (checked.refusal) stop(libraries[l].name, "refuses the image");
        rows = checked.rows;
        for (int c = MOVE_SOME; c <= MOVE_ALL && libraries[l].calls[c]; c++) {
            dmp_migrated answer = migrate(&libraries[l], c);
            file *wanted = &moved[c - MOVE_SOME];
            if (answer.refusal) stop(libraries[l].name, "refuses the list");
            if (!wanted->bytes) {
                *wanted = (file){ memory(DMP_LONGEST_IMAGE), answer.length };
                memcpy(wanted->bytes, out, answer.length);
            }
            if (answer.length != wanted->length || memcmp(out, wanted->bytes, answer.length)) stop(libraries[l].name, "writes another image");
        }
    }
    for (int k = 0; k < 2; k++)
        if (!moved[k].bytes) moved[k] = image;
}

static int by_value(const void *a, const void *b) {
    double x = *(const double *)a, y = *(const double *)b;
    return (x > y) - (x < y);
}

static void print_median(const char *call, const char *name, double *times, int count) {
    if (!count) return;
    qsort(times, count, sizeof *times, by_value);
    printf("%zu\t%u\t%s\t%s\t%.2f\n", image.length, image.bytes[5], call, name, times[count / 2]);
}

static void run_rounds(library *libraries, int count, int rounds, double **floor_times) {
    for (int r = 0; r < rounds; r++) {
        for (int f = 0; f < FLOORS; f++) {
            double start = now();
            run_floor(f);
            floor_times[f][r] = now() - start;
        }
        for (int k = 0; k < count; k++) {
            /* each goes first in its turn */
            library *l = &libraries[(k + r) % count];
            for (int c = 0; c < CALLS && r % l->every == 0; c++) {
                if (!l->calls[c]) continue;
                double start = now();
                uint32_t refusal = run_call(l, c);
                l->times[c][l->count[c]++] = now() - start;
                if (refusal) stop(l->name, "refuses what it took before");
            }
        }
    }
}

int main(int argc, char **argv) {
    int rounds = argc > 4 ? atoi(argv[4]) : 0, count = argc - 5;
    if (rounds < 1 || count < 1 || count > MOST) {
        fprintf(stderr, "usage: bench IMAGE LIST LIST_OF_ALL ROUNDS NAME[/N]=LIBRARY.so...\n");
        return 2;
    }
    image = slurp(argv[1]);
    lists[0] = slurp(argv[2]);
    lists[1] = slurp(argv[3]);
    out = memory(DMP_LONGEST_IMAGE);
    work = memory(DMP_MOST_ROWS * sizeof *work);
    static library libraries[MOST];
    for (int l = 0; l < count; l++) libraries[l] = opened(argv[5 + l], rounds);
    must_agree(libraries, count);
    double *floor_times[FLOORS];
    for (int f = 0; f < FLOORS; f++) floor_times[f] = memory(rounds * sizeof(double));
    run_rounds(libraries, count, rounds, floor_times);
    for (int f = 0; f < FLOORS; f++) print_median(floor_names[f], "floor", floor_times[f], rounds);
    for (int c = 0; c < CALLS; c++)
        for (int l = 0; l < count; l++) print_median(call_names[c], libraries[l].name, libraries[l].times[c], libraries[l].count[c]);
    return 0;
}
