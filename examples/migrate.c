/* Builds a mesh of two triangles by hand, all of it in part 0 of two; checks it, sends triangle 2 to part 1, and prints what the calls say.

       3---4      edges 1 (1,2), 2 (1,3), 3 (2,3), 4 (2,4), 5 (3,4)
       |\2 |      triangles 1 (edges 1,2,3), 2 (edges 3,4,5)
       |1 \|
       1---2

       gcc -Iinclude examples/migrate.c crates/composthum/out/libcomposthum.a -o migrate && ./migrate */
#include "composthum.h"
#include <stdio.h>
#include <string.h>

enum { VERTEX, EDGE, TRIANGLE };

/* ---- an image is bytes, each number lowest byte first */

typedef struct {
    uint8_t bytes[1024];
    size_t length;
} image;

static void put(image *to, uint64_t number, int bytes) {
    for (int i = 0; i < bytes; i++) to->bytes[to->length++] = (uint8_t)(number >> (8 * i));
}

static void put_real(image *to, double real) {
    uint64_t bits;
    memcpy(&bits, &real, sizeof bits);
    put(to, bits, 8);
}

/* mark, version, part count, two zeros */
static void put_header(image *to, int parts) {
    memcpy(to->bytes, "DMP", 3);
    to->length = 3;
    put(to, 1, 2);
    put(to, parts, 1);
    put(to, 0, 2);
}

/* the first 24 bytes of a row that resides in part 0 alone, which owns it, and has no value */
static void put_row_head(image *to, int dimension, uint32_t number) {
    put(to, number, 4);
    put(to, dimension, 1);
    put(to, 0, 3);
    put(to, 1, 8);
    put(to, 0, 8);
}

static void put_vertex(image *to, uint32_t number, double x, double y, double z) {
    put_row_head(to, VERTEX, number);
    put_real(to, x);
    put_real(to, y);
    put_real(to, z);
}

/* the body names slots: places of rows in this part, counted from 0 */
static void put_bounded(image *to, int dimension, uint32_t number, const uint32_t *slots) {
    put_row_head(to, dimension, number);
    for (int i = 0; i < 6; i++) put(to, i <= dimension ? slots[i] : 0, 4);
}

/* rows ascend by dimension, then number: vertices in slots 0 to 3, edges in 4 to 8, triangles in 9 and 10 */
static void put_mesh(image *to) {
    static const uint32_t edges[5][2] = { { 0, 1 }, { 0, 2 }, { 1, 2 }, { 1, 3 }, { 2, 3 } };
    static const uint32_t triangles[2][3] = { { 4, 5, 6 }, { 6, 7, 8 } };
    put_header(to, 2);
    put(to, 11, 4);
    for (uint32_t i = 0; i < 4; i++) put_vertex(to, i + 1, i % 2, i / 2, 0);
    for (uint32_t i = 0; i < 5; i++) put_bounded(to, EDGE, i + 1, edges[i]);
    for (uint32_t i = 0; i < 2; i++) put_bounded(to, TRIANGLE, i + 1, triangles[i]);
    put(to, 0, 4);
}

/* ---- the calls */

static int refused(const char *call, uint32_t refusal, uint32_t major, uint32_t minor) {
    if (refusal) printf("%s: refused %u, place %u %u\n", call, refusal, major, minor);
    return refusal != 0;
}

/* the moved image in `after`; 0 where the move was refused */
static int move(const image *before, int dimension, uint32_t number, int part, image *after) {
    /* a word for each row of the image, whatever it holds */
    static uint64_t work[DMP_MOST_ROWS];
    image list = { { 0 }, 0 };
    put(&list, number, 4);
    put(&list, dimension, 1);
    put(&list, part, 1);
    put(&list, 0, 2);
    dmp_migrated moved =
        dmp_migrate(before->bytes, before->length, list.bytes, list.length, after->bytes, sizeof after->bytes, work, DMP_MOST_ROWS);
    if (refused("migrate", moved.refusal, moved.major, moved.minor)) return 0;
    after->length = moved.length;
    printf("migrate: %u bytes, %u rows, %u moved\n", moved.length, moved.rows, moved.moved);
    return 1;
}

static void look_up(const image *in, int dimension, uint32_t number) {
    dmp_found found = dmp_lookup(in->bytes, in->length, (uint8_t)dimension, number);
    if (refused("lookup", found.refusal, found.major, found.minor)) return;
    printf("lookup of dimension %d number %u: residence %llu, owner %u\n", dimension, number, (unsigned long long)found.residence, found.owner);
}

static void show_box(const image *in, uint32_t part) {
    dmp_boxed box = dmp_box(in->bytes, in->length, part);
    if (refused("box", box.refusal, box.major, box.minor)) return;
    if (!box.any)
        printf("box of part %u: no vertex\n", part);
    else
        printf("box of part %u: (%g, %g, %g) to (%g, %g, %g)\n", part, box.least[0], box.least[1], box.least[2], box.greatest[0], box.greatest[1],
               box.greatest[2]);
}

int main(void) {
    static image before, after;
    put_mesh(&before);
    dmp_checked checked = dmp_check(before.bytes, before.length);
    if (refused("check", checked.refusal, checked.major, checked.minor)) return 1;
    printf("check: %zu bytes, %u parts, %u rows\n", before.length, checked.parts, checked.rows);
    show_box(&before, 1);

    /* edge 3 is not a partition object: it bounds both triangles */
    move(&before, EDGE, 3, 1, &after);
    if (!move(&before, TRIANGLE, 2, 1, &after)) return 1;
    look_up(&after, EDGE, 3);
    look_up(&after, VERTEX, 4);
    show_box(&after, 1);
    return 0;
}
