/*
 * SPDX-License-Identifier: MIT
 *
 * The core as a C program calls it: a book, a question and room for an answer in, the answer's blocks or a number out;
 * by a second call with drums besides, whose pool is the feed; by a third with up to 64 feeds, each answered by itself;
 * by a fourth with a pair's block that is tried in place of the book's own; by a fifth with up to 64 flash questions,
 * which are run in order as far as one allowance of work goes; by a sixth, how far a flash's pressure can rise or fall
 * until its outcome changes. Two readers show an answer to the floor and to the lab. Each call can say where the book
 * said no, and a refusal is put in words.
 * docs/FORMAT.md says what each word holds, docs/LINKING.md has the commands. Link with libzektonk.a, for x86-64 Linux.
 *
 * A block is 512 bytes: 64 little-endian words of 64 bits, a float as its bits. Word 63 is the check of words 0 to 62,
 * modulo 2^64: with a book of version 1 or 2 their sum; with one of version 3 the sum of the running sums after word 0,
 * after word 1 and on to word 62, in which two exchanged neighbours show. Book, question and answer go by the book's
 * version. zektonk_check computes it, zektonk_seal_by puts it.
 */
#ifndef ZEKTONK_H
#define ZEKTONK_H

#include <stddef.h>
#include <stdint.h>
#include <string.h>

#ifdef __cplusplus
extern "C" {
#endif

/* Of this header and of the archive beside it. */
#define ZEKTONK_VERSION "0.3.0"
#define ZEKTONK_VERSION_MAJOR 0
#define ZEKTONK_VERSION_MINOR 3
#define ZEKTONK_VERSION_PATCH 0

/* Bytes. */
#define ZEKTONK_BLOCK 512
#define ZEKTONK_QUESTION 512       /* a question has exactly these */
#define ZEKTONK_ANSWER_ROOM 4608   /* an answer slice has these or more: the answer block and eight trials */
#define ZEKTONK_BOOK_LARGEST 18944 /* a book of eight solvents and their 28 pairs */
#define ZEKTONK_BOOK_MOST 19456    /* one block more than any book has: reading up to here shows one that is too long */
#define ZEKTONK_DRUM_BYTES 64      /* a drum: eight words, each a count of micromoles */
#define ZEKTONK_FEED_BYTES 64      /* a feed among many: eight floats, in place of the question's fractions */
#define ZEKTONK_SENTENCE_ROOM 160  /* a refusal's sentence has no more than these */

/* Counts. */
#define ZEKTONK_WORDS 64         /* of a block */
#define ZEKTONK_SOLVENTS_MOST 8  /* of a book, and so entries of a row: fractions, K, liquid, vapor */
#define ZEKTONK_TERMS_MOST 8     /* of a correlation */
#define ZEKTONK_DRUMS_MOST 64    /* that pool into one charge */
#define ZEKTONK_FEEDS_MOST 64    /* of one call */
#define ZEKTONK_QUEUE_MOST 64    /* questions of one queue */
#define ZEKTONK_DISTANCE_WORDS 4 /* that zektonk_distance gives */
#define ZEKTONK_STEPS_MOST 1000  /* of a distance, each way */
#define ZEKTONK_TRIALS_MOST 8    /* of an answer */
#define ZEKTONK_FLOOR_WORDS 22   /* that zektonk_floor gives */
#define ZEKTONK_PLACE_WORDS 3    /* of a place, beside a call's number */
#define ZEKTONK_FORMAT_VERSION 1 /* word 1 of block 0 of a book without molar masses, */
#define ZEKTONK_FORMAT_VERSION_MASS 2 /* of a book with them, which takes feeds by mass too, */
#define ZEKTONK_FORMAT_VERSION_RUNNING 3 /* and of one whose checks are running sums besides */

/* A distance's step, Pa. */
#define ZEKTONK_STEP_PASCALS 100

/* Micromoles that a pool may hold, 2^53: up to here every count is a float. */
#define ZEKTONK_POOL_MOST 9007199254740992

/* Options that suit most questions. */
#define ZEKTONK_DEFAULT_MAX_ITERATIONS 500
#define ZEKTONK_DEFAULT_TOLERANCE 1e-13
#define ZEKTONK_DEFAULT_MAX_TEMPERATURE_ITERATIONS 200
#define ZEKTONK_DEFAULT_ENERGY_TOLERANCE 1e-10
#define ZEKTONK_DEFAULT_TM_THRESHOLD (-1e-8)
#define ZEKTONK_DEFAULT_LOW 273.16 /* K */
#define ZEKTONK_DEFAULT_HIGH 450.0 /* K */

/* Kinds, word 0 of a block. */
enum zektonk_kind {
    ZEKTONK_KIND_BOOK = 1, /* block 0 of a book */
    ZEKTONK_KIND_SOLVENT = 2,
    ZEKTONK_KIND_PAIR = 3,
    ZEKTONK_KIND_QUESTION = 8,
    ZEKTONK_KIND_ANSWER = 9,
    ZEKTONK_KIND_TRIAL = 10
};

/* Words of every block. */
enum zektonk_any_word { ZEKTONK_WORD_KIND = 0, ZEKTONK_WORD_CHECK = 63 };

/* Words of block 0 of a book. */
enum zektonk_book_word {
    ZEKTONK_BOOK_WORD_VERSION = 1,
    ZEKTONK_BOOK_WORD_SOLVENTS = 2,
    ZEKTONK_BOOK_WORD_MODEL = 3 /* of the activity coefficients, for all pairs */
};

/* Models, word 3 of block 0; Wilson's from version 2 on. */
enum zektonk_model { ZEKTONK_MODEL_NRTL = 0, ZEKTONK_MODEL_WILSON = 1 };

/* Words of a solvent: its vapor pressure and its liquid density, of which only the range is used. */
enum zektonk_solvent_word {
    ZEKTONK_SOLVENT_WORD_INDEX = 1,
    ZEKTONK_SOLVENT_WORD_CAS = 2,
    ZEKTONK_SOLVENT_WORD_VAPOR_T_R = 3,
    ZEKTONK_SOLVENT_WORD_VAPOR_REDUCING = 4,
    ZEKTONK_SOLVENT_WORD_VAPOR_LOW = 5,
    ZEKTONK_SOLVENT_WORD_VAPOR_HIGH = 6,
    ZEKTONK_SOLVENT_WORD_VAPOR_TERMS = 7,
    ZEKTONK_SOLVENT_WORD_VAPOR_N = 8,         /* 8 words */
    ZEKTONK_SOLVENT_WORD_VAPOR_EXPONENT = 16, /* 8 words */
    ZEKTONK_SOLVENT_WORD_DENSITY_T_R = 24,
    ZEKTONK_SOLVENT_WORD_DENSITY_REDUCING = 25,
    ZEKTONK_SOLVENT_WORD_DENSITY_LOW = 26,
    ZEKTONK_SOLVENT_WORD_DENSITY_HIGH = 27,
    ZEKTONK_SOLVENT_WORD_DENSITY_TERMS = 28,
    ZEKTONK_SOLVENT_WORD_DENSITY_N = 29,        /* 8 words */
    ZEKTONK_SOLVENT_WORD_DENSITY_EXPONENT = 37, /* 8 words */
    ZEKTONK_SOLVENT_WORD_MOLAR_MASS = 45        /* kg/mol; versions 2 and 3 */
};

/* Words of a pair. */
enum zektonk_pair_word {
    ZEKTONK_PAIR_WORD_I = 1,
    ZEKTONK_PAIR_WORD_J = 2,
    ZEKTONK_PAIR_WORD_TAU_IJ = 3,    /* 4 words: t0 to t3 */
    ZEKTONK_PAIR_WORD_TAU_JI = 7,    /* 4 words */
    ZEKTONK_PAIR_WORD_ALPHA_IJ = 11, /* 2 words: a0, a1 */
    ZEKTONK_PAIR_WORD_ALPHA_JI = 13, /* 2 words */
    ZEKTONK_PAIR_WORD_INTERVAL = 15,
    ZEKTONK_PAIR_WORD_LOW = 16,
    ZEKTONK_PAIR_WORD_HIGH = 17,
    ZEKTONK_PAIR_WORD_INFERRED = 18
};

/* Words of a pair of a Wilson book in place of tau and alpha: Lambda = exp(a + b/T), b in K. Words 7 to 14 are not read
 * there, the others are those above. */
enum zektonk_wilson_word {
    ZEKTONK_WILSON_WORD_A_IJ = 3,
    ZEKTONK_WILSON_WORD_B_IJ = 4,
    ZEKTONK_WILSON_WORD_A_JI = 5,
    ZEKTONK_WILSON_WORD_B_JI = 6
};

/* Words of a question. */
enum zektonk_question_word {
    ZEKTONK_QUESTION_WORD_TASK = 1,
    ZEKTONK_QUESTION_WORD_TEMPERATURE = 2, /* K */
    ZEKTONK_QUESTION_WORD_PRESSURE = 3,    /* Pa */
    ZEKTONK_QUESTION_WORD_FRACTIONS = 4,   /* 8 words */
    ZEKTONK_QUESTION_WORD_MAX_ITERATIONS = 12,
    ZEKTONK_QUESTION_WORD_TOLERANCE = 13,
    ZEKTONK_QUESTION_WORD_MAX_TEMPERATURE_ITERATIONS = 14,
    ZEKTONK_QUESTION_WORD_ENERGY_TOLERANCE = 15,
    ZEKTONK_QUESTION_WORD_TM_THRESHOLD = 16,
    ZEKTONK_QUESTION_WORD_LOW = 17,      /* K */
    ZEKTONK_QUESTION_WORD_HIGH = 18,     /* K */
    ZEKTONK_QUESTION_WORD_K_VALUES = 19, /* 8 words */
    ZEKTONK_QUESTION_WORD_FEED = 27      /* what the fractions are of */
};

/* Feeds, word 27 of a question: the fractions in words 4 to 11 are of moles, or of mass (books of version 2 or 3). */
enum zektonk_feed { ZEKTONK_FEED_MOLES = 0, ZEKTONK_FEED_MASS = 1 };

/* Words of an answer. docs/FORMAT.md has which of them a task fills; the others are 0. */
enum zektonk_answer_word {
    ZEKTONK_ANSWER_WORD_TASK = 1,
    ZEKTONK_ANSWER_WORD_REFUSAL = 2, /* 0, but in the one block of a refused feed or queued question, or of `still` */
    ZEKTONK_ANSWER_WORD_OUTCOME = 3,
    ZEKTONK_ANSWER_WORD_TEMPERATURE = 4, /* K */
    ZEKTONK_ANSWER_WORD_PRESSURE = 5,    /* Pa */
    ZEKTONK_ANSWER_WORD_BUBBLE = 6,      /* Pa */
    ZEKTONK_ANSWER_WORD_DEW = 7,         /* Pa */
    ZEKTONK_ANSWER_WORD_ITERATIONS = 8,
    ZEKTONK_ANSWER_WORD_RESIDUAL = 9,
    ZEKTONK_ANSWER_WORD_BALANCE = 10,
    ZEKTONK_ANSWER_WORD_VAPOR_FRACTION = 11,
    ZEKTONK_ANSWER_WORD_TRIALS = 12, /* how many trial blocks follow */
    ZEKTONK_ANSWER_WORD_NOTES = 13,
    ZEKTONK_ANSWER_WORD_LIQUID = 14,        /* 8 words */
    ZEKTONK_ANSWER_WORD_LN_GAMMA = 14,      /* the same of task 1 */
    ZEKTONK_ANSWER_WORD_VAPOR = 22,         /* 8 words */
    ZEKTONK_ANSWER_WORD_SLOPES = 22,        /* the same of task 1: d ln gamma/dT, 1/K */
    ZEKTONK_ANSWER_WORD_REDUCED_GIBBS = 30, /* g^E/(R T) */
    ZEKTONK_ANSWER_WORD_GIBBS = 31,         /* J/mol */
    ZEKTONK_ANSWER_WORD_ENTHALPY = 32,      /* J/mol */
    ZEKTONK_ANSWER_WORD_ENTROPY = 33,       /* J/(mol K) */
    ZEKTONK_ANSWER_WORD_HEAT_CAPACITY = 34, /* J/(mol K) */
    ZEKTONK_ANSWER_WORD_VALIDITY = 35,
    ZEKTONK_ANSWER_WORD_INFERRED = 36,
    ZEKTONK_ANSWER_WORD_STABLE = 37,
    ZEKTONK_ANSWER_WORD_EVALUATIONS = 38 /* activity evaluations begun, of a flash */
};

/* Words of a trial. */
enum zektonk_trial_word {
    ZEKTONK_TRIAL_WORD_COMPONENT = 1,
    ZEKTONK_TRIAL_WORD_DISTANCE = 2,
    ZEKTONK_TRIAL_WORD_ITERATIONS = 3,
    ZEKTONK_TRIAL_WORD_TRIVIAL = 4,
    ZEKTONK_TRIAL_WORD_FRACTIONS = 5 /* 8 words */
};

/* The words that zektonk_distance gives. */
enum zektonk_distance_word {
    ZEKTONK_DISTANCE_WORD_FOUND = 0,   /* 1; 0 where no step has another outcome, then the next two are 0 too */
    ZEKTONK_DISTANCE_WORD_STEPS = 1,   /* s, in two's complement (zektonk_signed_of) */
    ZEKTONK_DISTANCE_WORD_OUTCOME = 2, /* there, an enum zektonk_outcome */
    ZEKTONK_DISTANCE_WORD_REFUSED = 3  /* steps before it that are refused, or of all */
};

/* The words that zektonk_floor gives: words 1 to 5, 11 and 14 to 29 of an answer; of task 1 all behind PRESSURE are 0. */
enum zektonk_floor_word {
    ZEKTONK_FLOOR_WORD_TASK = 0,
    ZEKTONK_FLOOR_WORD_REFUSAL = 1,
    ZEKTONK_FLOOR_WORD_OUTCOME = 2,
    ZEKTONK_FLOOR_WORD_TEMPERATURE = 3, /* K */
    ZEKTONK_FLOOR_WORD_PRESSURE = 4,    /* Pa */
    ZEKTONK_FLOOR_WORD_VAPOR_FRACTION = 5,
    ZEKTONK_FLOOR_WORD_LIQUID = 6, /* 8 words */
    ZEKTONK_FLOOR_WORD_VAPOR = 14  /* 8 words */
};

/* The words of a place; those that its kind doesn't have are 0. */
enum zektonk_place_word {
    ZEKTONK_PLACE_WORD_KIND = 0,  /* an enum zektonk_place_kind */
    ZEKTONK_PLACE_WORD_BLOCK = 1, /* which block of the book, counted from 0 */
    ZEKTONK_PLACE_WORD_I = 1,     /* of a pair the two solvents, i < j, counted from 0 */
    ZEKTONK_PLACE_WORD_J = 2
};

/* Kinds of a place. */
enum zektonk_place_kind {
    ZEKTONK_PLACE_NOWHERE = 0, /* no place: of an answer, and of a number that names none */
    ZEKTONK_PLACE_BLOCK = 1,   /* the lowest block of the book that says no: 2, 4, 5, 7, 8 and 9 */
    ZEKTONK_PLACE_PAIR = 2,    /* the first pair of solvents with one CAS number, in the order of the pair blocks: 6 */
    ZEKTONK_PLACE_OFFERED = 3  /* the block that zektonk_preview_placed was offered: 1, 2, 7, 8 and 9 */
};

/* Tasks, word 1 of a question and of its answer. */
enum zektonk_task {
    ZEKTONK_EXCESS_AT = 1,
    ZEKTONK_BUBBLE_PRESSURE = 2,
    ZEKTONK_DEW_PRESSURE = 3,
    ZEKTONK_BUBBLE_TEMPERATURE = 4,
    ZEKTONK_DEW_TEMPERATURE = 5,
    ZEKTONK_LIQUID_STABILITY = 6,
    ZEKTONK_TP_FLASH = 7,
    ZEKTONK_RACHFORD_RICE = 8,
    ZEKTONK_RACHFORD_RICE_NEGATIVE = 9
};

/* Outcomes, word 3 of an answer to tasks 7 to 9; 0 for the others. The last is of a queued question that wasn't run. */
enum zektonk_outcome { ZEKTONK_LIQUID = 1, ZEKTONK_VAPOR = 2, ZEKTONK_LIQUID_AND_VAPOR = 3, ZEKTONK_PUT_OFF = 4 };

/* Notes, bits of word 13 of a flash. */
enum zektonk_note {
    ZEKTONK_NOTE_GAMMA_PHI = 1,
    ZEKTONK_NOTE_SPLIT_AT_SATURATION_BOUNDARY = 2,
    ZEKTONK_NOTE_LIQUID_TPD_FINITE_TRIALS = 4
};

/* Validity, word 35 of an answer to task 1: T against the regression intervals of the pairs that are present. */
enum zektonk_validity { ZEKTONK_UNASSESSED = 0, ZEKTONK_WITHIN = 1, ZEKTONK_EXTRAPOLATED = 2 };

/*
 * The first question that was answered no: 1 to 21 in this order, with 38 between 1 and 2, 37 after 3, 35 after 5, 36
 * after 12 and, of a feed by mass, 34 after 18; the others, and 15 to 18 and 34 once more, where the calculation puts
 * them. 31 and 32 are zektonk_pooled's alone, after 12 and ahead of 36; 33 is zektonk_feeds's alone, after 9 and ahead
 * of 10. There zektonk_preview puts 1, 2, 7, 8 and 9 to the offered block too. 39 is zektonk_queue's alone, in the place
 * of 33. zektonk_distance doesn't put 10, zektonk_floor and zektonk_sentence give 1 and 10 alone.
 *
 * Beside each its matter, in the words of zektonk_sentence; docs/FORMAT.md has all that a number is put to.
 */
enum zektonk_refusal {
    ZEKTONK_ANSWERED = 0,
    ZEKTONK_BOOK_LENGTH = 1,             /* there are no whole blocks of 512 bytes where a book, one offered block or
                                            an answer is due */
    ZEKTONK_BOOK_CHECK = 2,              /* a check word is wrong: words were changed or, in a book of version 3,
                                            exchanged */
    ZEKTONK_BOOK_HEAD = 3,               /* the head of the book is wrong: kind 1, 1 to 8 solvents, and as many
                                            blocks as these need */
    ZEKTONK_SOLVENT_BLOCK = 4,           /* a solvent's kind, place, CAS number or count of terms is wrong */
    ZEKTONK_SOLVENT_NUMBER = 5,          /* a solvent's correlation is not finite, not 0 < low <= high < t_r, or has
                                            a reducing value not above 0 */
    ZEKTONK_SOLVENT_TWICE = 6,           /* two solvents of the book have one CAS number */
    ZEKTONK_PAIR_BLOCK = 7,              /* a pair's kind, its two places or a flag is wrong */
    ZEKTONK_PAIR_NUMBER = 8,             /* a pair has a number that is not finite */
    ZEKTONK_PAIR_ALPHAS = 9,             /* a pair's two alphas are not equal */
    ZEKTONK_ANSWER_SHORT = 10,           /* too little room is lent: 4,608 bytes for each answer, 22 words for the
                                            floor, 160 bytes for a sentence */
    ZEKTONK_QUESTION_BLOCK = 11,         /* the question is not one block of 512 bytes with kind 8 and the right
                                            check word */
    ZEKTONK_TASK = 12,                   /* the task is not one that this call answers */
    ZEKTONK_TEMPERATURE = 13,            /* the temperature is not finite and positive */
    ZEKTONK_PRESSURE = 14,               /* the pressure is not finite and positive */
    ZEKTONK_NOT_FINITE = 15,             /* a fraction or a K value is not finite */
    ZEKTONK_FRACTION_NEGATIVE = 16,      /* a fraction is negative */
    ZEKTONK_K_NOT_POSITIVE = 17,         /* a K value is not positive */
    ZEKTONK_FRACTION_SUM = 18,           /* the fractions don't sum to 1 within 1e-10 */
    ZEKTONK_OPTIONS = 19,                /* a tolerance, the trial threshold or the temperature bracket is out of its
                                            range */
    ZEKTONK_LIMIT_ZERO = 20,             /* an iteration limit is 0 */
    ZEKTONK_LIMIT_HIGH = 21,             /* an iteration limit is above 1,000,000 */
    ZEKTONK_TEMPERATURE_OUTSIDE = 22,    /* a temperature lies outside 273.16 to 450 K or the range of a solvent of
                                            the book, in the drum or not */
    ZEKTONK_PRESSURE_OUTSIDE = 23,       /* a pressure, given or found, lies outside 100 to 500,000 Pa */
    ZEKTONK_ALPHA_NOT_POSITIVE = 24,     /* an NRTL alpha is not positive at this temperature */
    ZEKTONK_RESULT_NOT_FINITE = 25,      /* a result is not finite, or not positive where it must be */
    ZEKTONK_NOT_BRACKETED = 26,          /* the bracket holds no root: the point lies outside it */
    ZEKTONK_NOT_CONVERGED = 27,          /* not converged within the iteration limit, or the bracket collapsed */
    ZEKTONK_K_ONE_SIDED = 28,            /* the K values of the solvents present lie on one side of 1 */
    ZEKTONK_LIQUID_UNSTABLE = 29,        /* the liquid didn't pass its trials: it splits in two liquids, which this
                                            core doesn't calculate */
    ZEKTONK_VAPOR_FRACTION_OUTSIDE = 30, /* the split's vapor fraction lies outside (0, 1) */
    ZEKTONK_DRUMS_LENGTH = 31,           /* there are not 1 to 64 whole drums to pool */
    ZEKTONK_DRUMS_TOTAL = 32,            /* the drums hold nothing at all, or more than 2^53 micromoles */
    ZEKTONK_FEEDS_LENGTH = 33,           /* there are not 1 to 64 whole feeds in one call */
    ZEKTONK_NOT_NORMALIZABLE = 34,       /* a composition inside the calculation, or a drum by mass, can't be brought
                                            to fractions that sum to 1 */
    ZEKTONK_MOLAR_MASS = 35,             /* a solvent's molar mass is not finite and positive */
    ZEKTONK_FEED_KIND = 36,              /* the fractions are by neither moles nor mass, or by mass with no molar
                                            masses in the book or with drums pooled */
    ZEKTONK_BOOK_MODEL = 37,             /* the book's model is neither NRTL nor, from version 2 on, Wilson */
    ZEKTONK_BOOK_VERSION = 38,           /* the book's version is none of 1 to 3 */
    ZEKTONK_QUEUE_QUESTIONS = 39         /* there are not 1 to 64 whole questions in the queue, or one of them is not
                                            a flash */
};

/*
 * Answers `question` from `book`. Gives 0, with the answer block and as many trial blocks as its word 12 says at the
 * front of `answer` and the bytes behind them as they were; or an enum zektonk_refusal, with every byte of `answer` as
 * it was.
 *
 * - Each pointer and its length are one slice of bytes, of any alignment and any length. No byte outside it is read or
 *   written; those of `book` and `question` are only read.
 * - `answer` overlaps neither `book` nor `question`: the proof is of slices that are apart.
 * - A slice of length 0 is never followed, and NULL with length 0 gives the same number (1, 11 or 10) as any other
 *   pointer. The toolchain's documents don't promise that to callers; who wants to lean on nothing but them passes the
 *   address of any byte. NULL with another length is not allowed.
 * - No state is kept, no memory is allocated, nothing is called but memcpy and memset (zektonk_sentence: memmove too).
 *   Threads may call at one time, each with its own `answer`; what is lent doesn't change until the call is back.
 * - Floats are in the default environment of C: rounding to nearest, subnormals kept. A program that was linked with
 *   -ffast-math, or that changes the rounding or the flush-to-zero bits, puts the default back before the call. Nothing
 *   proved holds of a call made otherwise, and nothing tells it from a right one: with another rounding its floats
 *   differ from about the 13th digit on, and it may be refused where a right call is answered.
 * - Every call ends. How long it takes is bounded by the limits in the question (words 12 and 14, 1,000,000 at most
 *   each). It takes about 27 KB of stack, which was measured and is not proved.
 */
uint64_t zektonk_answer(const uint8_t *book, size_t book_len, const uint8_t *question, size_t question_len,
                        uint8_t *answer, size_t answer_len);

/*
 * The same with the pool of 1 to 64 drums as the feed, for every task. A drum is ZEKTONK_DRUM_BYTES bytes: the counts
 * of micromoles of eight solvents (zektonk_put_word writes one), of which as many are read as the book has solvents.
 * The pool's count of a solvent is the sum over the drums, and its fraction that count over the total, rounded once.
 * Words 4 to 11 of the question are not read, but are under its check, and its word 27 says moles.
 *
 * - All that holds of zektonk_answer holds of this call, of `drums` what holds of `book` and `question`: it is only
 *   read, any alignment and length will do, and `answer` doesn't overlap it. Not 1 to 64 whole drums is number 31.
 * - No sum of counts wraps: a total past 2^53 is 32, whatever the counts. Up to there all sums are exact, so that the
 *   order of the drums doesn't matter, and a solvent is absent just where every drum has 0 of it.
 * - Where 11, 12, 31, 32 and 36 pass, the call answers, byte for byte, as zektonk_answer does on the question with the
 *   pool's fractions in words 4 to 11.
 */
uint64_t zektonk_pooled(const uint8_t *book, size_t book_len, const uint8_t *question, size_t question_len,
                        const uint8_t *drums, size_t drums_len, uint8_t *answer, size_t answer_len);

/*
 * One question put to each of 1 to 64 feeds, for tasks 1, 2, 3, 6 and 7. A feed is ZEKTONK_FEED_BYTES bytes: eight
 * floats that stand in place of words 4 to 11 of the question (zektonk_put_floats writes them), of which as many are
 * read as the book has solvents. Word 27 of the question says whether all of them are of moles or of mass. The tables
 * of the temperature are worked out once.
 *
 * Gives 0, and feed k has its own ZEKTONK_ANSWER_ROOM bytes of `answers`, from ZEKTONK_ANSWER_ROOM * k on
 * (zektonk_feed_answer): at their front the blocks of its answer, or one block with the number that refuses it in
 * ZEKTONK_ANSWER_WORD_REFUSAL, as the program `still` writes it; the bytes behind these stay as they were. Or gives a
 * number put ahead of 11, which ends the whole call, with every byte of `answers` as it was: one of the book's, 33 for
 * the feeds, or 10, `answers` being shorter than ZEKTONK_ANSWER_ROOM bytes for each of them.
 *
 * - What a feed gets is what zektonk_answer says to the question with these fractions in words 4 to 11 and its check
 *   right, answer or number. A refused feed doesn't stop the others.
 * - 11 is put to the question as it is sent, its own words 4 to 11 under its check; where it fails 11, or 12, every feed
 *   has that number.
 * - All that holds of zektonk_answer holds of this call, of `feeds` what holds of `book` and `question`: it is only
 *   read, any alignment and length will do, and `answers` overlaps none of them.
 */
uint64_t zektonk_feeds(const uint8_t *book, size_t book_len, const uint8_t *question, size_t question_len,
                       const uint8_t *feeds, size_t feeds_len, uint8_t *answers, size_t answers_len);

/*
 * What zektonk_answer would say of a copy of `book` that holds the block `offered` in place of the pair with the same i
 * and j: a newly fitted pair is tried before it is entered. No byte of `book` changes.
 *
 * The book is put its own questions first, its pair that is to be replaced too. Then the offered block is: 1 where it
 * isn't one whole block of ZEKTONK_BLOCK bytes, 2 where its check is wrong by the book's version (zektonk_seal_by), 7
 * where it isn't a pair of solvents i < j of the book with flags of 0 or 1, 8 and 9 as the book's model has them. Whether
 * such a number is of the book or of the offered block is said by zektonk_preview_placed, below.
 *
 * - All that holds of zektonk_answer holds of this call, of `offered` what holds of `book` and `question`: it is only
 *   read, any alignment and length will do, and `answer` doesn't overlap it.
 * - Offering the book's own pair, byte for byte, changes nothing.
 */
uint64_t zektonk_preview(const uint8_t *book, size_t book_len, const uint8_t *offered, size_t offered_len,
                         const uint8_t *question, size_t question_len, uint8_t *answer, size_t answer_len);

/*
 * A shift's flash questions under one allowance of activity evaluations, all ln gamma at one composition: what a flash
 * spends its time on. ZEKTONK_ANSWER_WORD_EVALUATIONS of its answer says how many it began. With m positive mole
 * fractions in its feed and M its word 12 they are never more than (m + 2) M + 4 (zektonk_most_evaluations), of a flash
 * that is refused too.
 *
 * `questions` has 1 to 64 of them, ZEKTONK_QUESTION bytes each, one behind the other, all of task 7. They are taken in
 * order. One whose (m + 2) M + 4 is no more than what is left of `allowance` is run, and what it really began is taken
 * off, answered or refused. Any other is put off with nothing taken off, and the next is tried. One that is refused
 * ahead of its first evaluation (11, 36, 13 to 23, 34 of a feed by mass, 25 of a vapor pressure) gets its number
 * whatever is left, and takes nothing.
 *
 * Gives 0, and question k has its own ZEKTONK_ANSWER_ROOM bytes of `answers`, from ZEKTONK_ANSWER_ROOM * k on
 * (zektonk_queue_answer): at their front the blocks of its answer; or one block with the number that refuses it in
 * ZEKTONK_ANSWER_WORD_REFUSAL, as the program `still` writes it; or, put off, one block with task 7, ZEKTONK_PUT_OFF in
 * ZEKTONK_ANSWER_WORD_OUTCOME and 0 in all else but kind and check. The bytes behind these stay as they were. Or gives
 * a number put ahead of 11, which ends the whole call, with every byte of `answers` as it was: one of the book's, 39
 * for the questions, or 10, `answers` being shorter than ZEKTONK_ANSWER_ROOM bytes for each of them.
 *
 * - What a question that is run gets is what zektonk_answer says to it, answer or number, byte for byte.
 * - A question that fails 11 isn't asked for its task: its block has 11, and the call goes on.
 * - No more evaluations are begun than `allowance` says, which may be any number: what a question may begin is never
 *   more than 10,000,004.
 * - All that holds of zektonk_answer holds of this call, of `questions` what holds of `book`: it is only read, any
 *   alignment and length will do, and `answers` overlaps neither.
 */
uint64_t zektonk_queue(const uint8_t *book, size_t book_len, const uint8_t *questions, size_t questions_len,
                       uint64_t allowance, uint8_t *answers, size_t answers_len);

/*
 * How far to the next phase change: from the pressure P of a flash question, task 7, steps of ZEKTONK_STEP_PASCALS are
 * tried, P + 100 s pascals for s = 1, -1, 2, -2 and on to 1000, -1000, each one rounded addition. The first step whose
 * flash is accepted with another outcome than at P is the answer.
 *
 * Gives 0 and the words of enum zektonk_distance_word at the front of `result`, those behind them as they were: 1, s,
 * that outcome and the count of refused steps before it; or 0, 0, 0 and the count of all refused ones, where no step of
 * the 2000 is such. Or gives a number, with every word as it was: the book's, 11, 12 where the task is another, then
 * what refuses the flash at P. `result_len` counts words. A slice of fewer than ZEKTONK_DISTANCE_WORDS stays as it was,
 * the number being the same: 10 isn't put.
 *
 * - The flash of a step is what zektonk_answer says to the question with that pressure in word 3 and its check right.
 *   One that is refused, by whatever number, is passed over and counted: a pressure of 0 or below is 14 there, one
 *   outside 100 to 500,000 Pa is 23.
 * - An outcome that holds between two steps alone isn't seen. Close to an azeotrope liquid and vapor are both there for
 *   less than 100 Pa, and the answer can be from all liquid to all vapor.
 * - All that holds of zektonk_answer holds of this call. `result` is aligned as uint64_t is, and overlaps neither
 *   `book` nor `question`. Tables, vapor pressures, bubble and dew point and the trials of the feed are worked out once:
 *   a step with one phase costs next to nothing, another one a split.
 */
uint64_t zektonk_distance(const uint8_t *book, size_t book_len, const uint8_t *question, size_t question_len,
                          uint64_t *result, size_t result_len);

/* The whole number that a word holds in two's complement, as zektonk_distance gives s. */
static inline int64_t zektonk_signed_of(uint64_t word)
{
    int64_t value;
    memcpy(&value, &word, sizeof value);
    return value;
}

/*
 * What the floor is shown of an answer, and what the lab is: readers of what one of the calls above, or the program
 * `still`, wrote to the front of a slice, of a feed or a queued question to the front of its own part. Operators need the
 * outcome and not the residuals; the lab gets all of it.
 *
 * Both give number 1 where the slice doesn't begin with a block of kind 9 and as many whole blocks of kind 10 as its word
 * 12 says, at most ZEKTONK_TRIALS_MOST. Checks are not tested, since the slice doesn't say its book's version, and what
 * stands behind these blocks is not read. A refusal's block, and that of a question put off, is read as any other. What
 * an accepted call wrote is always read, and the lab's bytes are exactly those that it wrote.
 *
 * zektonk_floor gives 0 and the words of enum zektonk_floor_word at the front of `words`, those behind them as they were;
 * or 1, then 10 where `words_len`, which counts words, is below ZEKTONK_FLOOR_WORDS, and every word as it was. Two
 * answers that are read give equal words exactly where they agree in words 1 to 5 and, outside task 1, in 11 and 14 to
 * 29, however their trials and counts differ.
 *
 * zektonk_lab gives how many bytes at the front of `answer` are the answer's block and its trials; 0 says number 1.
 *
 * - `answer` is only read; any alignment and length will do, and NULL with length 0, as of zektonk_answer. `words` is
 *   aligned as uint64_t is, and doesn't overlap it.
 * - No state is kept, no memory is allocated. Both end within a microsecond.
 */
uint64_t zektonk_floor(const uint8_t *answer, size_t answer_len, uint64_t *words, size_t words_len);
size_t zektonk_lab(const uint8_t *answer, size_t answer_len);

/*
 * The six calls with the place beside the number: all that is said of a call above holds of the one with _placed behind
 * its name, and it gives the same number and bytes. At the end three words more are lent, `place`, whose length counts
 * words: they get the words of enum zektonk_place_word, those behind them as they were; of an answer too, 0, 0 and 0. A
 * slice of fewer than ZEKTONK_PLACE_WORDS stays as it was, the number being the same.
 *
 * - 2 has the lowest block of all that are there whose check is wrong, 4 and 5 the lowest solvent's block, 1 + i, and 7, 8
 *   and 9 the lowest pair's; 6 has the first pair of (0, 1), (0, 2) and on with one CAS number. Others name no block, and
 *   in zektonk_feeds_placed and zektonk_queue_placed the blocks of a refused feed or question have no place.
 * - In zektonk_preview_placed the numbers 1, 2, 7, 8 and 9 of the block that is offered have ZEKTONK_PLACE_OFFERED: whether
 *   the book or that block said no needs no second call. The book's own have its blocks.
 * - Where the call answers this costs three words; where the book is refused, that question is put to its blocks again.
 * - `place` is aligned as uint64_t is, and overlaps nothing else that is lent.
 */
uint64_t zektonk_answer_placed(const uint8_t *book, size_t book_len, const uint8_t *question, size_t question_len,
                               uint8_t *answer, size_t answer_len, uint64_t *place, size_t place_len);
uint64_t zektonk_pooled_placed(const uint8_t *book, size_t book_len, const uint8_t *question, size_t question_len,
                               const uint8_t *drums, size_t drums_len, uint8_t *answer, size_t answer_len,
                               uint64_t *place, size_t place_len);
uint64_t zektonk_feeds_placed(const uint8_t *book, size_t book_len, const uint8_t *question, size_t question_len,
                              const uint8_t *feeds, size_t feeds_len, uint8_t *answers, size_t answers_len,
                              uint64_t *place, size_t place_len);
uint64_t zektonk_preview_placed(const uint8_t *book, size_t book_len, const uint8_t *offered, size_t offered_len,
                                const uint8_t *question, size_t question_len, uint8_t *answer, size_t answer_len,
                                uint64_t *place, size_t place_len);
uint64_t zektonk_queue_placed(const uint8_t *book, size_t book_len, const uint8_t *questions, size_t questions_len,
                              uint64_t allowance, uint8_t *answers, size_t answers_len, uint64_t *place,
                              size_t place_len);
uint64_t zektonk_distance_placed(const uint8_t *book, size_t book_len, const uint8_t *question, size_t question_len,
                                 uint64_t *result, size_t result_len, uint64_t *place, size_t place_len);

/*
 * A refusal in words, for who is rung up: "7: a pair's kind, its two places or a flag is wrong (block 5)." The number in
 * decimal digits, its matter, in round brackets the place, and an end mark; printable ASCII, and no 0 behind it.
 *
 * Gives 0, the sentence at the front of `text`, the bytes behind it as they were, and in *length how many bytes it has,
 * never more than ZEKTONK_SENTENCE_ROOM. Or gives 1 where `number` is none of 1 to 39, then 10 where `text_len` is below
 * ZEKTONK_SENTENCE_ROOM, and `text` and *length stay as they were.
 *
 * - `place` is what a call gave beside its number. Fewer than ZEKTONK_PLACE_WORDS words, and another kind than 1 to 3, are
 *   no place, so that NULL with length 0 will do. A place that the number can't have is left out.
 * - Two refusals that differ in number or place have different sentences, and none is the beginning of another.
 * - The refusals in the blocks of feeds, queued questions and the program `still` have sentences too, by their number.
 * - `place` is only read, and is aligned as uint64_t is; `length` is the address of a word, never NULL. None of the three
 *   overlaps another. No state is kept, no memory is allocated.
 */
uint64_t zektonk_sentence(uint64_t number, const uint64_t *place, size_t place_len, uint8_t *text, size_t text_len,
                          uint64_t *length);

/* The float whose bits a word holds, as those of zektonk_floor do. */
static inline double zektonk_float_of(uint64_t word)
{
    double value;
    memcpy(&value, &word, sizeof value);
    return value;
}

/* Word `at` of a block, 0 to 63, copied: x86-64 has the lowest byte first, as blocks have. */
static inline uint64_t zektonk_get_word(const uint8_t *block, size_t at)
{
    uint64_t value;
    memcpy(&value, block + 8 * at, sizeof value);
    return value;
}

static inline double zektonk_get_float(const uint8_t *block, size_t at)
{
    double value;
    memcpy(&value, block + 8 * at, sizeof value);
    return value;
}

static inline void zektonk_put_word(uint8_t *block, size_t at, uint64_t value)
{
    memcpy(block + 8 * at, &value, sizeof value);
}

static inline void zektonk_put_float(uint8_t *block, size_t at, double value)
{
    memcpy(block + 8 * at, &value, sizeof value);
}

/* `count` floats from word `at` on. */
static inline void zektonk_put_floats(uint8_t *block, size_t at, const double *values, size_t count)
{
    for (size_t k = 0; k < count; k++)
        zektonk_put_float(block, at + k, values[k]);
}

/* The check of a block's words 0 to 62, in a call with a book of this version; unsigned sums are modulo 2^64. */
static inline uint64_t zektonk_check(const uint8_t *block, uint64_t version)
{
    uint64_t sum = 0, running = 0;
    for (size_t at = 0; at < ZEKTONK_WORD_CHECK; at++) {
        sum += zektonk_get_word(block, at);
        running += sum;
    }
    return version == ZEKTONK_FORMAT_VERSION_RUNNING ? running : sum;
}

/* Puts the check of a block, once its words are there: of a book of this version, or of a question to it. */
static inline void zektonk_seal_by(uint8_t *block, uint64_t version)
{
    zektonk_put_word(block, ZEKTONK_WORD_CHECK, zektonk_check(block, version));
}

/* The same for books of version 1 and 2. */
static inline void zektonk_seal(uint8_t *block)
{
    zektonk_seal_by(block, ZEKTONK_FORMAT_VERSION);
}

/* The bytes of feed k in the answers of zektonk_feeds. */
static inline const uint8_t *zektonk_feed_answer(const uint8_t *answers, size_t k)
{
    return answers + ZEKTONK_ANSWER_ROOM * k;
}

/* The bytes of question k in the answers of zektonk_queue. */
static inline const uint8_t *zektonk_queue_answer(const uint8_t *answers, size_t k)
{
    return answers + ZEKTONK_ANSWER_ROOM * k;
}

/* What a flash may begin at most and asks for in a queue: `present` mole fractions of its feed are positive. */
static inline uint64_t zektonk_most_evaluations(uint64_t present, uint64_t max_iterations)
{
    return (present + 2) * max_iterations + 4;
}

/* How many blocks a book of n solvents has. */
static inline size_t zektonk_book_blocks(size_t n)
{
    return 1 + n + n * (n - 1) / 2;
}

/* Which block of a book of n solvents is the pair of i and j, i < j < n. */
static inline size_t zektonk_pair_block(size_t n, size_t i, size_t j)
{
    return 1 + n + i * (2 * n - i - 1) / 2 + (j - i - 1);
}

#ifdef __cplusplus
}
#endif

#endif
