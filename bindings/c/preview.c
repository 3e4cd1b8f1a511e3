/*
 * usage: preview BOOK QUESTION   answers the question of a flash from the book of ethanol and water, once as it is and
 * once with a newly fitted pair in place of the book's own, and prints both. No byte of the book changes.
 */
#include <inttypes.h>
#include <stdio.h>

#include "zektonk.h"

/* K; t1 of tau from ethanol to water and back. */
static const double t1_ij = -45.938911213102365, t1_ji = 651.4780724581726;

/* The pair of solvents 0 and 1, for a book of this version. */
static void put_pair(uint8_t *block, uint64_t version)
{
    static const double alpha[2] = {0.2937, 0.0};
    memset(block, 0, ZEKTONK_BLOCK);
    zektonk_put_word(block, ZEKTONK_WORD_KIND, ZEKTONK_KIND_PAIR);
    zektonk_put_word(block, ZEKTONK_PAIR_WORD_I, 0);
    zektonk_put_word(block, ZEKTONK_PAIR_WORD_J, 1);
    zektonk_put_float(block, ZEKTONK_PAIR_WORD_TAU_IJ + 1, t1_ij);
    zektonk_put_float(block, ZEKTONK_PAIR_WORD_TAU_JI + 1, t1_ji);
    zektonk_put_floats(block, ZEKTONK_PAIR_WORD_ALPHA_IJ, alpha, 2);
    zektonk_put_floats(block, ZEKTONK_PAIR_WORD_ALPHA_JI, alpha, 2);
    zektonk_seal_by(block, version);
}

/* 0 where the file isn't read. */
static size_t read_file(const char *name, uint8_t *bytes, size_t most)
{
    FILE *file = fopen(name, "rb");
    size_t length = file == NULL ? 0 : fread(bytes, 1, most, file);
    if (file == NULL || fclose(file) != 0)
        perror(name);
    return length;
}

static void print(const char *name, uint64_t number, const uint8_t *answer)
{
    if (number != ZEKTONK_ANSWERED)
        printf("%s: refused: %" PRIu64 "\n", name, number);
    else
        printf("%s: vapor fraction %.17g\n", name, zektonk_get_float(answer, ZEKTONK_ANSWER_WORD_VAPOR_FRACTION));
}

int main(int argc, char **argv)
{
    static uint8_t book[ZEKTONK_BOOK_MOST], question[ZEKTONK_QUESTION], answer[ZEKTONK_ANSWER_ROOM];
    static uint8_t offered[ZEKTONK_BLOCK];
    if (argc != 3) {
        fprintf(stderr, "usage: preview BOOK QUESTION\n");
        return 2;
    }
    size_t book_len = read_file(argv[1], book, sizeof book);
    size_t question_len = read_file(argv[2], question, sizeof question);
    put_pair(offered, zektonk_get_word(book, ZEKTONK_BOOK_WORD_VERSION));
    uint64_t number = zektonk_answer(book, book_len, question, question_len, answer, sizeof answer);
    print("by the book", number, answer);
    if (number != ZEKTONK_ANSWERED)
        return 1;
    number = zektonk_preview(book, book_len, offered, sizeof offered, question, question_len, answer, sizeof answer);
    print("as tried", number, answer);
    return number != ZEKTONK_ANSWERED;
}
