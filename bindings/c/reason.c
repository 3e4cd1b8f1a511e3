/*
 * usage: reason BOOK QUESTION   damages the book in several ways, asks it, and says in words why it is refused, and where.
 */
#include <inttypes.h>
#include <stdio.h>

#include "zektonk.h"

/* A word that is put into a block of the book, whose check is made right again or stays as it was. */
struct damage {
    size_t block, word;
    uint64_t value;
    int sealed;
};

static const struct damage damages[] = {
    {0, ZEKTONK_WORD_KIND, ZEKTONK_KIND_BOOK, 1},                   /* none */
    {2, ZEKTONK_SOLVENT_WORD_CAS, 64175, 0},                        /* not sealed again */
    {0, ZEKTONK_BOOK_WORD_SOLVENTS, 3, 1},                          /* more solvents than it has blocks for */
    {2, ZEKTONK_SOLVENT_WORD_INDEX, 2, 1},                          /* another's place */
    {1, ZEKTONK_SOLVENT_WORD_VAPOR_LOW, 0, 1},                      /* a range from 0 K on */
    {2, ZEKTONK_SOLVENT_WORD_CAS, 64175, 1},                        /* as the first one's */
    {3, ZEKTONK_PAIR_WORD_INTERVAL, 2, 1},                          /* a flag of neither 0 nor 1 */
    {3, ZEKTONK_PAIR_WORD_TAU_IJ, UINT64_C(0x7ff0000000000000), 1}, /* infinity */
};

/* 0 where the file isn't read. */
static size_t read_file(const char *name, uint8_t *bytes, size_t most)
{
    FILE *file = fopen(name, "rb");
    size_t length = file == NULL ? 0 : fread(bytes, 1, most, file);
    if (file == NULL || fclose(file) != 0)
        perror(name);
    return length;
}

/* The sentence of a number, and what stands in its place in a book of ethanol and water. */
static void say(uint64_t number, const uint64_t *place)
{
    static const char *const blocks[] = {"the head", "ethanol", "water", "their pair"};
    uint8_t text[ZEKTONK_SENTENCE_ROOM];
    uint64_t length = 0;
    if (zektonk_sentence(number, place, ZEKTONK_PLACE_WORDS, text, sizeof text, &length) == 0)
        printf("%.*s\n", (int)length, (const char *)text);
    if (place[ZEKTONK_PLACE_WORD_KIND] == ZEKTONK_PLACE_BLOCK)
        printf("    look at %s\n", blocks[place[ZEKTONK_PLACE_WORD_BLOCK] & 3]);
    if (place[ZEKTONK_PLACE_WORD_KIND] == ZEKTONK_PLACE_PAIR)
        printf("    look at %s and %s\n", blocks[1 + (place[ZEKTONK_PLACE_WORD_I] & 1)],
               blocks[1 + (place[ZEKTONK_PLACE_WORD_J] & 1)]);
}

int main(int argc, char **argv)
{
    static uint8_t book[ZEKTONK_BOOK_MOST], question[ZEKTONK_QUESTION], answer[ZEKTONK_ANSWER_ROOM];
    uint64_t place[ZEKTONK_PLACE_WORDS];
    size_t book_len = 0;
    if (argc != 3 || read_file(argv[2], question, sizeof question) != sizeof question) {
        fprintf(stderr, "usage: reason BOOK QUESTION\n");
        return 2;
    }
    for (size_t k = 0; k < sizeof damages / sizeof damages[0]; k++) {
        const struct damage *damage = &damages[k];
        uint8_t *block = book + ZEKTONK_BLOCK * damage->block;
        book_len = read_file(argv[1], book, sizeof book);
        zektonk_put_word(block, damage->word, damage->value);
        if (damage->sealed)
            zektonk_seal_by(block, zektonk_get_word(book, ZEKTONK_BOOK_WORD_VERSION));
        uint64_t number = zektonk_answer_placed(book, book_len, question, sizeof question, answer, sizeof answer, place,
                                                ZEKTONK_PLACE_WORDS);
        if (number == ZEKTONK_ANSWERED)
            printf("answered\n");
        else
            say(number, place);
    }

    /* Its own head is offered to the book as a pair. */
    book_len = read_file(argv[1], book, sizeof book);
    uint64_t number = zektonk_preview_placed(book, book_len, book, ZEKTONK_BLOCK, question, sizeof question, answer,
                                             sizeof answer, place, ZEKTONK_PLACE_WORDS);
    say(number, place);
    return 0;
}
