/*
 * usage: distance BOOK QUESTION   says how far the pressure of a flash of ethanol and water can rise or fall until its
 * outcome changes, from several pressures.
 */
#include <inttypes.h>
#include <stdio.h>

#include "zektonk.h"

static const double pressures[] = {5000.0, 90000.0, 120000.0, 400000.0, 90.0}; /* Pa */
static const char *const outcomes[] = {"", "liquid", "vapor", "liquid and vapor"};

/* 0 where the file isn't read. */
static size_t read_file(const char *name, uint8_t *bytes, size_t most)
{
    FILE *file = fopen(name, "rb");
    size_t length = file == NULL ? 0 : fread(bytes, 1, most, file);
    if (file == NULL || fclose(file) != 0)
        perror(name);
    return length;
}

static void print(const uint64_t *words)
{
    int64_t pascals = ZEKTONK_STEP_PASCALS * zektonk_signed_of(words[ZEKTONK_DISTANCE_WORD_STEPS]);
    if (words[ZEKTONK_DISTANCE_WORD_FOUND])
        printf("%s at %+" PRId64 " Pa", outcomes[words[ZEKTONK_DISTANCE_WORD_OUTCOME] & 3], pascals);
    else
        printf("no change within %d Pa", ZEKTONK_STEP_PASCALS * ZEKTONK_STEPS_MOST);
    printf(", %" PRIu64 " steps refused\n", words[ZEKTONK_DISTANCE_WORD_REFUSED]);
}

int main(int argc, char **argv)
{
    static uint8_t book[ZEKTONK_BOOK_MOST], question[ZEKTONK_QUESTION];
    uint64_t words[ZEKTONK_DISTANCE_WORDS];
    if (argc != 3) {
        fprintf(stderr, "usage: distance BOOK QUESTION\n");
        return 2;
    }
    size_t book_len = read_file(argv[1], book, sizeof book);
    if (read_file(argv[2], question, sizeof question) != ZEKTONK_QUESTION)
        return 2;
    for (size_t k = 0; k < sizeof pressures / sizeof pressures[0]; k++) {
        zektonk_put_float(question, ZEKTONK_QUESTION_WORD_PRESSURE, pressures[k]);
        zektonk_seal_by(question, zektonk_get_word(book, ZEKTONK_BOOK_WORD_VERSION));
        uint64_t number =
            zektonk_distance(book, book_len, question, sizeof question, words, ZEKTONK_DISTANCE_WORDS);
        printf("from %.0f Pa: ", pressures[k]);
        if (number == ZEKTONK_ANSWERED)
            print(words);
        else
            printf("refused: %" PRIu64 "\n", number);
    }
    return 0;
}
