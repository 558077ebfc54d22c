/*
 * Folds names that are used once in a record file: `const n = 4096; load(n * 8)` becomes
 * `load(4096 * 8)`. The library is crates/wsf/out/libwsf.a, which `rt lib` in crates/wsf writes.
 * docs/EMBEDDING.md has the file's layout and says what is proved.
 *
 *     uint8_t output[WSF_MOST_ROOM];
 *     WsfAnswer answer = wsf_fold(file, file_length, output, sizeof output);
 *     if (answer.number == WSF_FOLDED)
 *         use(output, answer.length);
 *     else
 *         report(answer.number);      (refused: the output is as it was; the page says what to do)
 */
#ifndef WSF_H
#define WSF_H

#include <stddef.h>
#include <stdint.h>

#ifdef __cplusplus
extern "C" {
#endif

/*
 * Room. The output has to have the file's length and 8 bytes for each of its declarators (their
 * count is the u16, little-endian, at offset 14), or the file is refused with WSF_ROOM. No accepted
 * file wants more than WSF_MOST_ROOM. The result may well be longer than the file, never longer
 * than that room.
 *
 * What to reserve before a fold: for the result, the length that wsf_measure gives, which is exact;
 * for the output lent to wsf_fold, still the room above, whatever that length is. A file that
 * wsf_measure accepts is folded in every output of that room or more. The last result of
 * wsf_fold_until_steady may be longer or shorter than the measured one; it fits the room too.
 */
#define WSF_MOST_ROOM 42248

/*
 * The returned number: the first row of the refusal table that applies, in this order. The table is
 * in docs/EMBEDDING.md, "Refusals".
 */
enum {
    WSF_FOLDED = 0, /* the file is accepted, and folded where it can be, or measured */
    WSF_NO_RECORD_FILE = 1,
    WSF_VERSION = 2,
    WSF_HEADER = 3,
    WSF_LENGTH = 4,
    WSF_FACTS = 5,
    WSF_STATEMENTS = 6,
    WSF_NODE = 7,
    WSF_TREES = 8,
    WSF_DECLARED_TWICE = 9,
    WSF_USES = 10,
    WSF_ROOM = 11 /* the output is too short, and the file is good. Not returned by wsf_measure */
};

typedef struct {
    uint64_t number; /* WSF_FOLDED, or the row that refuses the file */
    uint64_t length; /* bytes of the result at the start of the output; 0 if refused */
    uint64_t folds;  /* declarators that are gone; 0 if refused. A result may differ from its file
                        with 0 folds: a shorthand may be written out, an empty declaration go */
} WsfAnswer;

typedef struct {
    uint64_t number; /* WSF_FOLDED, or the row that refuses the file */
    uint64_t length; /* bytes of the last result at the start of the output; 0 if refused */
    uint64_t folds;  /* declarators that are gone, by all runs; 0 if refused */
    uint64_t runs;   /* runs made, the last one counted, which changed nothing: at least 1, at most
                        2 more than the file has declarators; 0 if refused */
} WsfSteady;

typedef struct {
    uint64_t number; /* WSF_FOLDED, or the row that refuses the file; never WSF_ROOM */
    uint64_t length; /* bytes of the result that wsf_fold gives; 0 if refused */
    uint64_t looks;  /* how often the searches of that fold enter an expression
                        (docs/EMBEDDING.md): at most (T + 2 D) x 3,000, with T statements and D
                        declarators in the file; 0 if refused */
} WsfMeasure;

/*
 * What holds of all calls:
 *
 * The file is only read. An output is as it was past the result; all of it, if the file is refused.
 * Nothing else is written.
 *
 * Any bytes may be given as a file; none makes a call fail in another way than by its number. The
 * caller sees to it that each pointer is good for its length and not null (not even with a length
 * of 0), and that file and output don't overlap.
 *
 * Threads: no global or static state, no allocation, no system call; any number of threads may call
 * at the same time. Of the C library the calls use memcpy, memmove and memset.
 *
 * Stack: 2 MB below a call are enough. The size is measured, not proved (docs/EMBEDDING.md).
 */

/* Folds the file and writes the result to the start of the output. Folding the result may fold more. */
WsfAnswer wsf_fold(const uint8_t *file, size_t file_length, uint8_t *output, size_t output_length);

/*
 * Folds the file, then each result, until a run changes nothing, and writes the last result to the
 * start of the output. It refuses what wsf_fold refuses, and wants the same room. Folding the last
 * result, once or until steady, changes nothing.
 */
WsfSteady wsf_fold_until_steady(const uint8_t *file, size_t file_length, uint8_t *output,
                                size_t output_length);

/*
 * Works out, without an output, the length of the result that wsf_fold gives, and its looks. It
 * refuses what wsf_fold refuses, with the same number, but never with WSF_ROOM.
 */
WsfMeasure wsf_measure(const uint8_t *file, size_t file_length);

#ifdef __cplusplus
}
#endif

#endif
