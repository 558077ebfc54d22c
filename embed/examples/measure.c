/* Prints the length of the result that a fold of a record file has, and the fold's looks, and writes
   nothing: measure FILE. Built by reference/check-library. */
#include <stdio.h>
#include "wsf.h"

/* No accepted file is longer; one that is gets refused whatever stands behind. */
static uint8_t file[WSF_MOST_ROOM + 1];

int main(int count, char **words)
{
    FILE *from;
    size_t length;
    WsfMeasure answer;

    if (count != 2 || (from = fopen(words[1], "rb")) == NULL) {
        fprintf(stderr, "usage: measure FILE\n");
        return 2;
    }
    length = fread(file, 1, sizeof file, from);
    fclose(from);
    answer = wsf_measure(file, length);
    printf("returned %u length %u looks %u\n", (unsigned)answer.number, (unsigned)answer.length,
           (unsigned)answer.looks);
    return answer.number == WSF_FOLDED ? 0 : 1;
}
