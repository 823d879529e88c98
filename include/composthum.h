/* Composthum: a simplicial mesh cut into parts, checked and migrated between parts. Every call takes any bytes and comes back with an answer or a
   numbered refusal with the first place at fault; none trusts an earlier call. What each answers is proved for every input (crates/paper/specs).

   What the caller owes. Each pointer leads to as many bytes (words, for `work`) as the length beside it says; none is null, even where that
   length is 0; `work` is aligned as a uint64_t is. `out` and `work` are the only memory that a call writes to: neither may overlap the other,
   the image or the list. The bytes of all four may be anything.

   Threads and stack. A call keeps nothing between calls, allocates nothing and shares nothing: it is safe from many threads at once, each with
   an `out` and a `work` of its own. dmp_migrate takes less than 800 KiB of stack, the other calls less than 512 KiB.

   Every number that an answer does not set is 0; of a refused call these are all but `refusal`, `major` and `minor`.

   refusal  given exactly when                                                       place (major, minor)
    0       the call is accepted
    1       image over 1,048,576 bytes                                               0 0
    2       image under 8 bytes                                                      0 0
    3       mark differs                                                             0 0
    4       version is not 1                                                         0 0
    5       part count 0 or above 64, or a header zero byte is not zero              0 0
    6       counts and rows do not fill the image exactly                            0 0
    7       a row field is outside its layout, owner or a residence bit names no
            part, or own bit is missing                                              part, slot
    8       rows out of order                                                        part, later slot
    9       boundary broken                                                          part, slot
    10      a remote copy does not agree                                             part, slot
    11      residence broken                                                         part, slot
    12      owner wrong                                                              part, slot
    13      list: bytes left over, nonzero zeros, dimension above 3, not ascending   entry, 0
    14      destination names no part                                                entry, 0
    15      no such entity                                                           entry, 0
    16      entity is not a partition object                                         entry, 0
    17      working buffer short                                                     0 0
    18      result over 1,048,576 bytes                                              0 0
    19      result longer than the output buffer                                     0 0
    20      box of a part that is not there                                          0 0
    21      lookup finds no entity                                                   0 0
   They are judged in this order, each only when all before it pass: check gives 1 to 12, migrate 1 to 19, lookup 1 to 12 and 21, box 1 to 12
   and 20. For 7 to 12 the place is the first row, by part and then by slot, that breaks the rule; for 13 to 16 the first entry of the list,
   counted from 0. Of two entries out of order it is the later; bytes left over count as the entry after the last whole one; an entry from 2^32
   on, in a list of 32 GiB, is given as 2^32 - 1. */
#ifndef COMPOSTHUM_H
#define COMPOSTHUM_H

#include <stddef.h>
#include <stdint.h>

#ifdef __cplusplus
extern "C" {
#endif

/* the longest image, in bytes, the most parts, and the most rows that such an image has: working words that are enough for any image */
#define DMP_LONGEST_IMAGE 1048576
#define DMP_MOST_PARTS 64
#define DMP_MOST_ROWS 21845

/* part count and total of rows */
typedef struct {
    uint32_t refusal, major, minor, parts, rows;
} dmp_checked;

/* bytes and rows of the image in `out`, and the number of objects whose part changed */
typedef struct {
    uint32_t refusal, major, minor, length, rows, moved;
} dmp_migrated;

/* residence set (bit p for part p) and owner */
typedef struct {
    uint32_t refusal, major, minor, owner;
    uint64_t residence;
} dmp_found;

/* least and greatest x, y, z of the part's vertices; any is 0 where it has none */
typedef struct {
    uint32_t refusal, major, minor, any;
    double least[3], greatest[3];
} dmp_boxed;

dmp_checked dmp_check(const uint8_t *image, size_t image_len);

/* Writes the image that the list makes of this one.
   list  8 bytes an entry, lowest byte first: entity number (4), dimension (1), destination part (1), two zeros. Entries ascend strictly by
         dimension, then number; each names a partition object, that is an entity on the boundary of none. An object that is not listed stays,
         and one listed with its present part stays too. An empty list gives the same image.
   out   of an accepted call the first `length` bytes are the new image and those behind them are as they were; a refused call leaves all of it
         as it was. DMP_LONGEST_IMAGE bytes are always enough.
   work  one word for each row of the input image, or more. It need not be zero before; all of it is zero after every call, refused ones too. */
dmp_migrated dmp_migrate(const uint8_t *image, size_t image_len, const uint8_t *list, size_t list_len, uint8_t *out, size_t out_len, uint64_t *work,
                         size_t work_words);

dmp_found dmp_lookup(const uint8_t *image, size_t image_len, uint8_t dimension, uint32_t number);

/* The box grows by one vertex at a time in slot order; on equal values, 0 and minus zero among them, the earlier bits stay. */
dmp_boxed dmp_box(const uint8_t *image, size_t image_len, uint32_t part);

#ifdef __cplusplus
}
#endif

#endif
