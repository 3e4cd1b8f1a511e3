/*
 * usage: feeds BOOK QUESTION   puts the question of a flash to a week's drums of ethanol and water in one call, and
 * prints what becomes of each. The question's own fractions are not read.
 */
#include <inttypes.h>
#include <stdio.h>

#include "zektonk.h"

#define FEEDS 4

/* Mole fractions of ethanol and of water; those of the third don't sum to 1. */
static const double fractions[FEEDS][2] = {{0.5, 0.5}, {0.2, 0.8}, {0.5, 0.4}, {0.9, 0.1}};

/* 0 where the file isn't read. */
static size_t read_file(const char *name, uint8_t *bytes, size_t most)
{
    FILE *file = fopen(name, "rb");
    size_t length = file == NULL ? 0 : fread(bytes, 1, most, file);
    if (file == NULL || fclose(file) != 0)
        perror(name);
    return length;
}

int main(int argc, char **argv)
{
    static uint8_t book[ZEKTONK_BOOK_MOST], question[ZEKTONK_QUESTION];
    static uint8_t feeds[FEEDS * ZEKTONK_FEED_BYTES], answers[FEEDS * ZEKTONK_ANSWER_ROOM];
    if (argc != 3) {
        fprintf(stderr, "usage: feeds BOOK QUESTION\n");
        return 2;
    }
    size_t book_len = read_file(argv[1], book, sizeof book);
    size_t question_len = read_file(argv[2], question, sizeof question);
    for (size_t k = 0; k < FEEDS; k++)
        zektonk_put_floats(feeds + ZEKTONK_FEED_BYTES * k, 0, fractions[k], 2);
    uint64_t number =
        zektonk_feeds(book, book_len, question, question_len, feeds, sizeof feeds, answers, sizeof answers);
    if (number != ZEKTONK_ANSWERED) {
        printf("refused: %" PRIu64 "\n", number);
        return 1;
    }
    for (size_t k = 0; k < FEEDS; k++) {
        const uint8_t *answer = zektonk_feed_answer(answers, k);
        uint64_t refusal = zektonk_get_word(answer, ZEKTONK_ANSWER_WORD_REFUSAL);
        printf("ethanol %.1f, water %.1f: ", fractions[k][0], fractions[k][1]);
        if (refusal != ZEKTONK_ANSWERED)
            printf("refused: %" PRIu64 "\n", refusal);
        else
            printf("vapor fraction %.17g\n", zektonk_get_float(answer, ZEKTONK_ANSWER_WORD_VAPOR_FRACTION));
    }
    return 0;
}
