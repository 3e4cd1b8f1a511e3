/*
 * usage: ask [FILE]   writes a book of ethanol and water and the question of a flash by the header's names, asks, and
 * prints the phases. With FILE the answer's blocks are put there, as the program `still` writes them.
 */
#include <inttypes.h>
#include <stdio.h>

#include "zektonk.h"

/* Gas constant, cal/(mol K): the pair's energies are in cal/mol. */
#define R_CAL 1.98720425864083

struct correlation {
    double t_r, reducing, low, high; /* K, Pa or mol/m3, K, K */
    size_t terms;
    double n[ZEKTONK_TERMS_MOST], exponent[ZEKTONK_TERMS_MOST];
};

/* The words of a correlation stand in one order for vapor pressure and density, from their first word on. */
static void put_correlation(uint8_t *block, size_t first, const struct correlation *c)
{
    size_t from = first - ZEKTONK_SOLVENT_WORD_VAPOR_T_R;
    zektonk_put_float(block, from + ZEKTONK_SOLVENT_WORD_VAPOR_T_R, c->t_r);
    zektonk_put_float(block, from + ZEKTONK_SOLVENT_WORD_VAPOR_REDUCING, c->reducing);
    zektonk_put_float(block, from + ZEKTONK_SOLVENT_WORD_VAPOR_LOW, c->low);
    zektonk_put_float(block, from + ZEKTONK_SOLVENT_WORD_VAPOR_HIGH, c->high);
    zektonk_put_word(block, from + ZEKTONK_SOLVENT_WORD_VAPOR_TERMS, c->terms);
    zektonk_put_floats(block, from + ZEKTONK_SOLVENT_WORD_VAPOR_N, c->n, c->terms);
    zektonk_put_floats(block, from + ZEKTONK_SOLVENT_WORD_VAPOR_EXPONENT, c->exponent, c->terms);
}

/* Of the density only the range is used, here that of the vapor pressure. */
static void put_solvent(uint8_t *book, size_t index, uint64_t cas, const struct correlation *vapor)
{
    uint8_t *block = book + ZEKTONK_BLOCK * (1 + index);
    struct correlation density = {vapor->t_r, vapor->reducing, vapor->low, vapor->high, 1, {1.0}, {1.0}};
    zektonk_put_word(block, ZEKTONK_WORD_KIND, ZEKTONK_KIND_SOLVENT);
    zektonk_put_word(block, ZEKTONK_SOLVENT_WORD_INDEX, index);
    zektonk_put_word(block, ZEKTONK_SOLVENT_WORD_CAS, cas);
    put_correlation(block, ZEKTONK_SOLVENT_WORD_VAPOR_T_R, vapor);
    put_correlation(block, ZEKTONK_SOLVENT_WORD_DENSITY_T_R, &density);
    zektonk_seal(block);
}

static void put_pair(uint8_t *block)
{
    const double tau_01[4] = {0.0, -57.9601 / R_CAL, 0.0, 0.0}, tau_10[4] = {0.0, 1241.7396 / R_CAL, 0.0, 0.0};
    const double alpha[2] = {0.2937, 0.0};
    zektonk_put_word(block, ZEKTONK_WORD_KIND, ZEKTONK_KIND_PAIR);
    zektonk_put_word(block, ZEKTONK_PAIR_WORD_I, 0);
    zektonk_put_word(block, ZEKTONK_PAIR_WORD_J, 1);
    zektonk_put_floats(block, ZEKTONK_PAIR_WORD_TAU_IJ, tau_01, 4);
    zektonk_put_floats(block, ZEKTONK_PAIR_WORD_TAU_JI, tau_10, 4);
    zektonk_put_floats(block, ZEKTONK_PAIR_WORD_ALPHA_IJ, alpha, 2);
    zektonk_put_floats(block, ZEKTONK_PAIR_WORD_ALPHA_JI, alpha, 2);
    zektonk_put_word(block, ZEKTONK_PAIR_WORD_INTERVAL, 1);
    zektonk_put_float(block, ZEKTONK_PAIR_WORD_LOW, 298.15);
    zektonk_put_float(block, ZEKTONK_PAIR_WORD_HIGH, 373.15);
    zektonk_put_word(block, ZEKTONK_PAIR_WORD_INFERRED, 0);
    zektonk_seal(block);
}

/* Solvent 0 is ethanol, 1 water. */
static size_t put_book(uint8_t *book)
{
    const struct correlation ethanol = {514.71, 6268000.0, 273.16, 510.0, 4,
                                        {-8.69441, 0.75644, -6.3125, 8.61738}, {1.0, 1.5, 3.0, 6.0}};
    const struct correlation water = {647.096, 22064000.0, 273.16, 640.0, 6,
                                      {-7.85951783, 1.84408259, -11.7866497, 22.6807411, -15.9618719, 1.80122502},
                                      {1.0, 1.5, 3.0, 3.5, 4.0, 7.5}};
    zektonk_put_word(book, ZEKTONK_WORD_KIND, ZEKTONK_KIND_BOOK);
    zektonk_put_word(book, ZEKTONK_BOOK_WORD_VERSION, ZEKTONK_FORMAT_VERSION);
    zektonk_put_word(book, ZEKTONK_BOOK_WORD_SOLVENTS, 2);
    zektonk_seal(book);
    put_solvent(book, 0, 64175, &ethanol);
    put_solvent(book, 1, 7732185, &water);
    put_pair(book + ZEKTONK_BLOCK * zektonk_pair_block(2, 0, 1));
    return ZEKTONK_BLOCK * zektonk_book_blocks(2);
}

/* A flash of an equimolar feed at 351.44 K and 90 kPa. */
static void put_question(uint8_t *question)
{
    const double feed[2] = {0.5, 0.5};
    zektonk_put_word(question, ZEKTONK_WORD_KIND, ZEKTONK_KIND_QUESTION);
    zektonk_put_word(question, ZEKTONK_QUESTION_WORD_TASK, ZEKTONK_TP_FLASH);
    zektonk_put_float(question, ZEKTONK_QUESTION_WORD_TEMPERATURE, 351.44);
    zektonk_put_float(question, ZEKTONK_QUESTION_WORD_PRESSURE, 90000.0);
    zektonk_put_floats(question, ZEKTONK_QUESTION_WORD_FRACTIONS, feed, 2);
    zektonk_put_word(question, ZEKTONK_QUESTION_WORD_MAX_ITERATIONS, ZEKTONK_DEFAULT_MAX_ITERATIONS);
    zektonk_put_float(question, ZEKTONK_QUESTION_WORD_TOLERANCE, ZEKTONK_DEFAULT_TOLERANCE);
    zektonk_put_word(question, ZEKTONK_QUESTION_WORD_MAX_TEMPERATURE_ITERATIONS,
                     ZEKTONK_DEFAULT_MAX_TEMPERATURE_ITERATIONS);
    zektonk_put_float(question, ZEKTONK_QUESTION_WORD_ENERGY_TOLERANCE, ZEKTONK_DEFAULT_ENERGY_TOLERANCE);
    zektonk_put_float(question, ZEKTONK_QUESTION_WORD_TM_THRESHOLD, ZEKTONK_DEFAULT_TM_THRESHOLD);
    zektonk_put_float(question, ZEKTONK_QUESTION_WORD_LOW, ZEKTONK_DEFAULT_LOW);
    zektonk_put_float(question, ZEKTONK_QUESTION_WORD_HIGH, ZEKTONK_DEFAULT_HIGH);
    zektonk_seal(question);
}

static int store(const char *name, const uint8_t *answer)
{
    size_t length = ZEKTONK_BLOCK * (1 + (size_t)zektonk_get_word(answer, ZEKTONK_ANSWER_WORD_TRIALS));
    FILE *file = fopen(name, "wb");
    if (file == NULL || fwrite(answer, 1, length, file) != length || fclose(file) != 0) {
        perror(name);
        return 2;
    }
    return 0;
}

int main(int argc, char **argv)
{
    static uint8_t book[ZEKTONK_BOOK_LARGEST], question[ZEKTONK_QUESTION], answer[ZEKTONK_ANSWER_ROOM];
    size_t length = put_book(book);
    put_question(question);
    uint64_t number = zektonk_answer(book, length, question, sizeof question, answer, sizeof answer);
    if (number != ZEKTONK_ANSWERED) {
        printf("refused: %" PRIu64 "\n", number);
        return 1;
    }
    printf("zektonk %s\n", ZEKTONK_VERSION);
    printf("vapor fraction %.6f\n", zektonk_get_float(answer, ZEKTONK_ANSWER_WORD_VAPOR_FRACTION));
    printf("ethanol in the liquid %.6f, in the vapor %.6f\n", zektonk_get_float(answer, ZEKTONK_ANSWER_WORD_LIQUID),
           zektonk_get_float(answer, ZEKTONK_ANSWER_WORD_VAPOR));
    return argc > 1 ? store(argv[1], answer) : 0;
}
