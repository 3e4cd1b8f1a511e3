/*
 * usage: floor BOOK QUESTION   answers the question from the book and prints what the floor is shown of the answer, and
 * how much of it the lab has.
 */
#include <inttypes.h>
#include <stdio.h>

#include "zektonk.h"

static const char *const outcomes[] = {"", "liquid", "vapor", "liquid and vapor"};

/* 0 where the file isn't read. */
static size_t read_file(const char *name, uint8_t *bytes, size_t most)
{
    FILE *file = fopen(name, "rb");
    size_t length = file == NULL ? 0 : fread(bytes, 1, most, file);
    if (file == NULL || fclose(file) != 0)
        perror(name);
    return length;
}

static void print_row(const char *name, const uint64_t *words, size_t n)
{
    printf("%s", name);
    for (size_t i = 0; i < n; i++)
        printf(" %.5f", zektonk_float_of(words[i]));
    printf("\n");
}

static void print_floor(const uint64_t *words, size_t n)
{
    printf("task %" PRIu64 " %s\n", words[ZEKTONK_FLOOR_WORD_TASK], outcomes[words[ZEKTONK_FLOOR_WORD_OUTCOME] & 3]);
    printf("T %.2f K\n", zektonk_float_of(words[ZEKTONK_FLOOR_WORD_TEMPERATURE]));
    printf("p %.0f Pa\n", zektonk_float_of(words[ZEKTONK_FLOOR_WORD_PRESSURE]));
    printf("vapor fraction %.5f\n", zektonk_float_of(words[ZEKTONK_FLOOR_WORD_VAPOR_FRACTION]));
    print_row("liquid", words + ZEKTONK_FLOOR_WORD_LIQUID, n);
    print_row("vapor", words + ZEKTONK_FLOOR_WORD_VAPOR, n);
}

int main(int argc, char **argv)
{
    static uint8_t book[ZEKTONK_BOOK_MOST], question[ZEKTONK_QUESTION], answer[ZEKTONK_ANSWER_ROOM];
    uint64_t words[ZEKTONK_FLOOR_WORDS];
    if (argc != 3) {
        fprintf(stderr, "usage: floor BOOK QUESTION\n");
        return 2;
    }
    size_t book_len = read_file(argv[1], book, sizeof book);
    size_t question_len = read_file(argv[2], question, sizeof question);
    uint64_t number = zektonk_answer(book, book_len, question, question_len, answer, sizeof answer);
    if (number == ZEKTONK_ANSWERED)
        number = zektonk_floor(answer, sizeof answer, words, ZEKTONK_FLOOR_WORDS);
    if (number != ZEKTONK_ANSWERED) {
        printf("refused: %" PRIu64 "\n", number);
        return 1;
    }
    print_floor(words, (size_t)zektonk_get_word(book, ZEKTONK_BOOK_WORD_SOLVENTS));
    printf("for the lab: %zu bytes of %zu\n", zektonk_lab(answer, sizeof answer), sizeof answer);
    return 0;
}
