/*
 * usage: queue BOOK QUESTION   puts the question of a flash of ethanol and water, changed in one thing or another, as a
 * shift's queue under one allowance of activity evaluations, and prints what becomes of each.
 */
#include <inttypes.h>
#include <stdio.h>

#include "zektonk.h"

#define QUESTIONS 5
#define ALLOWANCE 2300

/* Pa, K and M; a temperature that no book is asked about, and more iterations than the allowance holds. */
static const struct {
    double pressure, temperature;
    uint64_t max_iterations;
} asked[QUESTIONS] = {
    {90000.0, 351.44, 500}, {90000.0, 260.0, 500}, {90000.0, 351.44, 1000000}, {70000.0, 351.44, 500},
    {120000.0, 351.44, 500}};

/* 0 where the file isn't read. */
static size_t read_file(const char *name, uint8_t *bytes, size_t most)
{
    FILE *file = fopen(name, "rb");
    size_t length = file == NULL ? 0 : fread(bytes, 1, most, file);
    if (file == NULL || fclose(file) != 0)
        perror(name);
    return length;
}

static void print(const uint8_t *answer, uint64_t asks)
{
    uint64_t refusal = zektonk_get_word(answer, ZEKTONK_ANSWER_WORD_REFUSAL);
    if (refusal != ZEKTONK_ANSWERED)
        printf("refused: %" PRIu64 "\n", refusal);
    else if (zektonk_get_word(answer, ZEKTONK_ANSWER_WORD_OUTCOME) == ZEKTONK_PUT_OFF)
        printf("put off, asks for %" PRIu64 "\n", asks);
    else
        printf("vapor fraction %.17g, %" PRIu64 " of %" PRIu64 " evaluations\n",
               zektonk_get_float(answer, ZEKTONK_ANSWER_WORD_VAPOR_FRACTION),
               zektonk_get_word(answer, ZEKTONK_ANSWER_WORD_EVALUATIONS), asks);
}

int main(int argc, char **argv)
{
    static uint8_t book[ZEKTONK_BOOK_MOST];
    static uint8_t questions[QUESTIONS * ZEKTONK_QUESTION], answers[QUESTIONS * ZEKTONK_ANSWER_ROOM];
    if (argc != 3) {
        fprintf(stderr, "usage: queue BOOK QUESTION\n");
        return 2;
    }
    size_t book_len = read_file(argv[1], book, sizeof book);
    for (size_t k = 0; k < QUESTIONS; k++) {
        uint8_t *question = questions + ZEKTONK_QUESTION * k;
        if (read_file(argv[2], question, ZEKTONK_QUESTION) != ZEKTONK_QUESTION)
            return 2;
        zektonk_put_float(question, ZEKTONK_QUESTION_WORD_PRESSURE, asked[k].pressure);
        zektonk_put_float(question, ZEKTONK_QUESTION_WORD_TEMPERATURE, asked[k].temperature);
        zektonk_put_word(question, ZEKTONK_QUESTION_WORD_MAX_ITERATIONS, asked[k].max_iterations);
        zektonk_seal_by(question, zektonk_get_word(book, ZEKTONK_BOOK_WORD_VERSION));
    }
    uint64_t number =
        zektonk_queue(book, book_len, questions, sizeof questions, ALLOWANCE, answers, sizeof answers);
    if (number != ZEKTONK_ANSWERED) {
        printf("refused: %" PRIu64 "\n", number);
        return 1;
    }
    for (size_t k = 0; k < QUESTIONS; k++) {
        printf("%.0f kPa, %.2f K: ", asked[k].pressure / 1000.0, asked[k].temperature);
        print(zektonk_queue_answer(answers, k), zektonk_most_evaluations(2, asked[k].max_iterations));
    }
    return 0;
}
