/* Folds a record file until steady, into another, and prints the numbers: steady FILE RESULT. Built
   by reference/check-library. */
#include <stdio.h>
#include "wsf.h"

/* No accepted file is longer; one that is gets refused whatever stands behind. */
static uint8_t file[WSF_MOST_ROOM + 1];
static uint8_t output[WSF_MOST_ROOM];

int main(int count, char **words)
{
    FILE *from, *to;
    size_t length, written;
    WsfSteady answer;

    if (count != 3 || (from = fopen(words[1], "rb")) == NULL) {
        fprintf(stderr, "usage: steady FILE RESULT\n");
        return 2;
    }
    length = fread(file, 1, sizeof file, from);
    fclose(from);
    answer = wsf_fold_until_steady(file, length, output, sizeof output);
    printf("returned %u folds %u runs %u\n", (unsigned)answer.number, (unsigned)answer.folds,
           (unsigned)answer.runs);
    if (answer.number != WSF_FOLDED)
        return 1;
    if ((to = fopen(words[2], "wb")) == NULL) {
        fprintf(stderr, "%s can't be written\n", words[2]);
        return 2;
    }
    written = fwrite(output, 1, (size_t)answer.length, to);
    return fclose(to) == 0 && written == answer.length ? 0 : 2;
}
