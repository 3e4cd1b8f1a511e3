/*
 * usage: flash BOOK QUESTION   answers the question file from the book file and prints what came of it, each word under
 * the name that it has in this task.
 * Floats are printed with 17 digits, which name each exactly. Status 1 with a refusal, 2 for a file that is not read.
 */
#include <inttypes.h>
#include <stdio.h>
#include <stdlib.h>

#include "zektonk.h"

static void print_row(const char *name, const uint8_t *block, size_t at, size_t n)
{
    printf("%s", name);
    for (size_t i = 0; i < n; i++)
        printf(" %.17g", zektonk_get_float(block, at + i));
    printf("\n");
}

static void print_float(const char *name, const uint8_t *block, size_t at, const char *unit)
{
    printf("%s %.17g%s\n", name, zektonk_get_float(block, at), unit);
}

static void print_count(const char *name, const uint8_t *block, size_t at)
{
    printf("%s %" PRIu64 "\n", name, zektonk_get_word(block, at));
}

/* Task 1. */
static void print_excess(const uint8_t *answer, size_t n)
{
    static const char *const validities[] = {"unassessed", "within", "extrapolated", "?"};
    print_float("T", answer, ZEKTONK_ANSWER_WORD_TEMPERATURE, " K");
    print_row("ln gamma", answer, ZEKTONK_ANSWER_WORD_LN_GAMMA, n);
    print_row("d ln gamma/dT (1/K)", answer, ZEKTONK_ANSWER_WORD_SLOPES, n);
    print_float("g^E/(R T)", answer, ZEKTONK_ANSWER_WORD_REDUCED_GIBBS, "");
    print_float("g^E", answer, ZEKTONK_ANSWER_WORD_GIBBS, " J/mol");
    print_float("h^E", answer, ZEKTONK_ANSWER_WORD_ENTHALPY, " J/mol");
    print_float("s^E", answer, ZEKTONK_ANSWER_WORD_ENTROPY, " J/(mol K)");
    print_float("c_p^E", answer, ZEKTONK_ANSWER_WORD_HEAT_CAPACITY, " J/(mol K)");
    printf("regression intervals: %s\n", validities[zektonk_get_word(answer, ZEKTONK_ANSWER_WORD_VALIDITY) & 3]);
    print_count("an interval is inferred:", answer, ZEKTONK_ANSWER_WORD_INFERRED);
}

/* Tasks 2 to 5. */
static void print_saturation(const uint8_t *answer, size_t n)
{
    print_float("T", answer, ZEKTONK_ANSWER_WORD_TEMPERATURE, " K");
    print_float("p", answer, ZEKTONK_ANSWER_WORD_PRESSURE, " Pa");
    print_count("iterations", answer, ZEKTONK_ANSWER_WORD_ITERATIONS);
    print_float("residual", answer, ZEKTONK_ANSWER_WORD_RESIDUAL, "");
    print_row("liquid", answer, ZEKTONK_ANSWER_WORD_LIQUID, n);
    print_row("vapor", answer, ZEKTONK_ANSWER_WORD_VAPOR, n);
}

/* Task 6, and task 7 where it tested a liquid. */
static void print_trials(const uint8_t *answer, size_t n)
{
    uint64_t trials = zektonk_get_word(answer, ZEKTONK_ANSWER_WORD_TRIALS);
    print_count("stable", answer, ZEKTONK_ANSWER_WORD_STABLE);
    for (uint64_t k = 1; k <= trials; k++) {
        const uint8_t *trial = answer + ZEKTONK_BLOCK * k;
        print_count("trial from solvent", trial, ZEKTONK_TRIAL_WORD_COMPONENT);
        print_float("  distance", trial, ZEKTONK_TRIAL_WORD_DISTANCE, "");
        print_count("  iterations", trial, ZEKTONK_TRIAL_WORD_ITERATIONS);
        print_count("  trivial", trial, ZEKTONK_TRIAL_WORD_TRIVIAL);
        print_row("  fractions", trial, ZEKTONK_TRIAL_WORD_FRACTIONS, n);
    }
}

static void print_notes(const uint8_t *answer)
{
    uint64_t notes = zektonk_get_word(answer, ZEKTONK_ANSWER_WORD_NOTES);
    printf("notes:%s%s%s\n", notes & ZEKTONK_NOTE_GAMMA_PHI ? " gamma-phi" : "",
           notes & ZEKTONK_NOTE_SPLIT_AT_SATURATION_BOUNDARY ? " split-at-saturation-boundary" : "",
           notes & ZEKTONK_NOTE_LIQUID_TPD_FINITE_TRIALS ? " liquid-tpd-finite-trials" : "");
}

/* Tasks 7, 8 and 9: what a flash has of its own, then the split. A single phase of tasks 8 and 9 has no words. */
static void print_split(const uint8_t *answer, size_t n, uint64_t task)
{
    static const char *const outcomes[] = {"none", "liquid", "vapor", "liquid and vapor"};
    uint64_t outcome = zektonk_get_word(answer, ZEKTONK_ANSWER_WORD_OUTCOME) & 3;
    printf("outcome: %s\n", outcomes[outcome]);
    if (task == ZEKTONK_TP_FLASH) {
        print_float("T", answer, ZEKTONK_ANSWER_WORD_TEMPERATURE, " K");
        print_float("p", answer, ZEKTONK_ANSWER_WORD_PRESSURE, " Pa");
        print_float("bubble", answer, ZEKTONK_ANSWER_WORD_BUBBLE, " Pa");
        print_float("dew", answer, ZEKTONK_ANSWER_WORD_DEW, " Pa");
        print_float("balance", answer, ZEKTONK_ANSWER_WORD_BALANCE, "");
        print_notes(answer);
        print_count("evaluations", answer, ZEKTONK_ANSWER_WORD_EVALUATIONS);
    } else if (outcome != ZEKTONK_LIQUID_AND_VAPOR) {
        return;
    }
    print_float("vapor fraction", answer, ZEKTONK_ANSWER_WORD_VAPOR_FRACTION, "");
    print_count("iterations", answer, ZEKTONK_ANSWER_WORD_ITERATIONS);
    print_float("residual", answer, ZEKTONK_ANSWER_WORD_RESIDUAL, "");
    if (outcome != ZEKTONK_VAPOR)
        print_row("liquid", answer, ZEKTONK_ANSWER_WORD_LIQUID, n);
    if (outcome != ZEKTONK_LIQUID)
        print_row("vapor", answer, ZEKTONK_ANSWER_WORD_VAPOR, n);
    if (task == ZEKTONK_TP_FLASH && outcome != ZEKTONK_VAPOR)
        print_trials(answer, n);
}

static void print_answer(const uint8_t *answer, size_t n)
{
    static const char *const titles[] = {
        "?", "excess properties", "bubble pressure", "dew pressure", "bubble temperature", "dew temperature",
        "liquid stability", "flash", "Rachford-Rice split", "Rachford-Rice split, negative flash"};
    uint64_t task = zektonk_get_word(answer, ZEKTONK_ANSWER_WORD_TASK);
    printf("task %" PRIu64 ", %s\n", task, titles[task <= ZEKTONK_RACHFORD_RICE_NEGATIVE ? task : 0]);
    switch (task) {
    case ZEKTONK_EXCESS_AT:
        print_excess(answer, n);
        break;
    case ZEKTONK_LIQUID_STABILITY:
        print_trials(answer, n);
        break;
    case ZEKTONK_TP_FLASH:
    case ZEKTONK_RACHFORD_RICE:
    case ZEKTONK_RACHFORD_RICE_NEGATIVE:
        print_split(answer, n, task);
        break;
    default:
        print_saturation(answer, n);
    }
}

/* The length, or `most` + 1 where the file is longer; ends the program where it can't be read. */
static size_t read_file(const char *name, uint8_t *bytes, size_t most)
{
    FILE *file = fopen(name, "rb");
    if (file == NULL) {
        perror(name);
        exit(2);
    }
    size_t length = fread(bytes, 1, most + 1, file);
    if (ferror(file)) {
        perror(name);
        exit(2);
    }
    fclose(file);
    return length;
}

int main(int argc, char **argv)
{
    static uint8_t book[ZEKTONK_BOOK_MOST + 1], question[ZEKTONK_QUESTION + 1], answer[ZEKTONK_ANSWER_ROOM];
    if (argc != 3) {
        fprintf(stderr, "usage: flash BOOK QUESTION\n");
        return 2;
    }
    size_t book_len = read_file(argv[1], book, ZEKTONK_BOOK_MOST);
    size_t question_len = read_file(argv[2], question, ZEKTONK_QUESTION);
    uint64_t number = zektonk_answer(book, book_len, question, question_len, answer, sizeof answer);
    if (number != ZEKTONK_ANSWERED) {
        printf("refused: %" PRIu64 "\n", number);
        return 1;
    }
    print_answer(answer, (size_t)zektonk_get_word(book, ZEKTONK_BOOK_WORD_SOLVENTS));
    return 0;
}
