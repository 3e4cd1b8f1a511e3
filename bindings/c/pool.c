/*
 * usage: pool BOOK QUESTION   answers the question of a flash from the book of ethanol and water for two drums that are
 * tipped into one charge, and prints it. The question's own fractions are not read.
 */
#include <inttypes.h>
#include <stdio.h>

#include "zektonk.h"

#define DRUMS 2

/* Moles of ethanol and of water. */
static const double moles[DRUMS][2] = {{868.273378, 666.101221}, {300.0, 502.172157}};

/* In whole micromoles, as a drum has them. */
static void put_drum(uint8_t *drum, const double *amounts)
{
    for (size_t i = 0; i < 2; i++)
        zektonk_put_word(drum, i, (uint64_t)(1e6 * amounts[i] + 0.5));
}

/* 0 where the file isn't read. */
static size_t read_file(const char *name, uint8_t *bytes, size_t most)
{
    FILE *file = fopen(name, "rb");
    size_t length = file == NULL ? 0 : fread(bytes, 1, most, file);
    if (file == NULL || fclose(file) != 0)
        perror(name);
    return length;
}

int main(int argc, char **argv)
{
    static uint8_t book[ZEKTONK_BOOK_MOST], question[ZEKTONK_QUESTION], answer[ZEKTONK_ANSWER_ROOM];
    static uint8_t drums[DRUMS * ZEKTONK_DRUM_BYTES];
    if (argc != 3) {
        fprintf(stderr, "usage: pool BOOK QUESTION\n");
        return 2;
    }
    size_t book_len = read_file(argv[1], book, sizeof book);
    size_t question_len = read_file(argv[2], question, sizeof question);
    for (size_t d = 0; d < DRUMS; d++) {
        uint8_t *drum = drums + ZEKTONK_DRUM_BYTES * d;
        put_drum(drum, moles[d]);
        uint64_t ethanol = zektonk_get_word(drum, 0), water = zektonk_get_word(drum, 1);
        printf("drum of %" PRIu64 " and %" PRIu64 " micromoles\n", ethanol, water);
    }
    uint64_t number =
        zektonk_pooled(book, book_len, question, question_len, drums, sizeof drums, answer, sizeof answer);
    if (number != ZEKTONK_ANSWERED) {
        printf("refused: %" PRIu64 "\n", number);
        return 1;
    }
    printf("vapor fraction %.17g\n", zektonk_get_float(answer, ZEKTONK_ANSWER_WORD_VAPOR_FRACTION));
    return 0;
}
