/* How much stack the calls of a library take: stack LIBRARY.so IMAGE LIST
   Each call runs in a thread whose stack was filled with a pattern; what lies between its top and the last byte that changed was used. A thread that
   calls nothing is taken off. Bytes that a call reserves and never writes at the far end are not seen. */
#include "composthum.h"
#include <dlfcn.h>
#include <pthread.h>
#include <stdio.h>
#include <stdlib.h>
#include <string.h>
#include <sys/mman.h>

enum { STACK = 4 << 20, PATTERN = 0xa5 };
enum { NOTHING, CHECK, LOOKUP, BOX, MIGRATE, CALLS };
static const char *names[CALLS] = { "nothing", "dmp_check", "dmp_lookup", "dmp_box", "dmp_migrate" };

static uint8_t image[1 << 21], list[1 << 20], out[DMP_LONGEST_IMAGE];
static uint64_t work[DMP_MOST_ROWS];
static size_t image_len, list_len;
static void *calls[CALLS];
static uint32_t refusal;

static void *run(void *chosen) {
    int call = *(int *)chosen;
    if (call == CHECK) refusal = ((dmp_checked(*)(const uint8_t *, size_t))calls[call])(image, image_len).refusal;
    if (call == LOOKUP) refusal = ((dmp_found(*)(const uint8_t *, size_t, uint8_t, uint32_t))calls[call])(image, image_len, 0, 1).refusal;
    if (call == BOX) refusal = ((dmp_boxed(*)(const uint8_t *, size_t, uint32_t))calls[call])(image, image_len, 0).refusal;
    if (call == MIGRATE)
        refusal = ((dmp_migrated(*)(const uint8_t *, size_t, const uint8_t *, size_t, uint8_t *, size_t, uint64_t *, size_t))calls[call])(
                      image, image_len, list, list_len, out, sizeof out, work, DMP_MOST_ROWS).refusal;
    return NULL;
}

static void stop(const char *what) {
    fprintf(stderr, "stack: %s\n", what);
    exit(2);
}

static size_t slurp(const char *path, uint8_t *to, size_t room) {
    FILE *from = fopen(path, "rb");
    if (!from) stop(path);
    size_t length = fread(to, 1, room, from);
    fclose(from);
    return length;
}

/* bytes of stack that a thread with this call wrote to, down from the top */
static size_t used(int call, uint8_t *stack) {
    pthread_attr_t attributes;
    pthread_t thread;
    memset(stack, PATTERN, STACK);
    pthread_attr_init(&attributes);
    if (pthread_attr_setstack(&attributes, stack, STACK) || pthread_create(&thread, &attributes, run, &call)) stop("no thread");
    pthread_join(thread, NULL);
    size_t untouched = 0;
    while (untouched < STACK && stack[untouched] == PATTERN) untouched++;
    return STACK - untouched;
}

int main(int argc, char **argv) {
    if (argc != 4) stop("usage: stack LIBRARY.so IMAGE LIST");
    void *library = dlopen(argv[1], RTLD_NOW);
    if (!library) stop(dlerror());
    image_len = slurp(argv[2], image, sizeof image);
    list_len = slurp(argv[3], list, sizeof list);
    uint8_t *stack = mmap(NULL, STACK, PROT_READ | PROT_WRITE, MAP_PRIVATE | MAP_ANONYMOUS, -1, 0);
    if (stack == MAP_FAILED) stop("no memory");
    size_t nothing = used(NOTHING, stack);
    for (int call = CHECK; call < CALLS; call++)
        if ((calls[call] = dlsym(library, names[call]))) {
            size_t bytes = used(call, stack) - nothing;
            if (refusal) stop("a call was refused");
            printf("%s %zu\n", names[call], bytes);
        }
    return 0;
}
