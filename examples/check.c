/* Checks the image on standard input and prints what the check says.

       gcc -Iinclude examples/check.c crates/composthum/out/libcomposthum.a -o check && ./check < examples/mesh-b.dmp */
#include "composthum.h"
#include <stdio.h>

int main(void) {
    static uint8_t image[DMP_LONGEST_IMAGE + 1];
    size_t length = fread(image, 1, sizeof image, stdin);
    dmp_checked answer = dmp_check(image, length);
    if (answer.refusal) {
        printf("refused %u %u %u\n", answer.refusal, answer.major, answer.minor);
        return 1;
    }
    printf("sound: %u parts, %u rows\n", answer.parts, answer.rows);
    return 0;
}
