/* Every function of mintshuttle.h, called once or more, its results checked: sheets of two cards, a refusal, the library entries.
 *
 *   cc -Wall -Wextra -Werror -I include examples/c/example.c crates/exports/out/libexports.a -o example && ./example
 *
 * bindings/check does the same. Exits 1 if a result is not the expected one. */
#include "mintshuttle.h"

#include <inttypes.h>
#include <stdio.h>
#include <string.h>

/* The slices that are lent to every call. */
static uint64_t result[MINTSHUTTLE_RESULT_WORDS];
static double work[MINTSHUTTLE_WORK_NUMBERS];
static uint64_t answer[MINTSHUTTLE_ANSWER_WORDS];

static int failures;

static void check(int good, const char *what) {
    if (!good) {
        printf("NOT AS EXPECTED: %s\n", what);
        failures++;
    }
}

static uint64_t word_of(double x) {
    uint64_t w;
    memcpy(&w, &x, sizeof w);
    return w;
}

static double number_of(uint64_t w) {
    double x;
    memcpy(&x, &w, sizeof x);
    return x;
}

/* A card is bytes, the highest of each word first, whatever the machine's own order. */
struct card {
    uint8_t bytes[8 * 8192];
    size_t len;
};

static void put(struct card *card, uint64_t word) {
    for (int shift = 56; shift >= 0; shift -= 8)
        card->bytes[card->len++] = (uint8_t)(word >> shift);
}

static void put_number(struct card *card, double x) { put(card, word_of(x)); }

static uint64_t sheet_of(const struct card *card) {
    return mintshuttle_sheet(card->bytes, card->len, result, MINTSHUTTLE_RESULT_WORDS, work, MINTSHUTTLE_WORK_NUMBERS, answer, MINTSHUTTLE_ANSWER_WORDS);
}

static void print_pairs(size_t entries) {
    for (size_t i = 0; i < entries; i++)
        printf("%016" PRIx64 " %016" PRIx64 "\n", result[2 * i], result[2 * i + 1]);
}

static void print_words(size_t count) {
    for (size_t i = 0; i < count; i++)
        printf("%016" PRIx64 "\n", result[i]);
}

/* The sheet of the last call as the program `sheet` prints it. `model` is how many words the card's model has. */
static void print_sheet(size_t model) {
    switch (answer[0]) {
    case 0:
        printf("refused %" PRIu64 " %016" PRIx64 " %016" PRIx64 "\n", answer[1], answer[2], answer[3]);
        break;
    case 1:
    case 2:
        printf("%s %" PRIu64 "\n", answer[0] == 1 ? "density" : "projected", answer[1]);
        print_pairs(answer[1] * answer[1]);
        break;
    case 3:
        printf("process %" PRIu64 "\n", answer[1]);
        print_words(answer[1] * answer[1]);
        break;
    case 4:
        printf("physical %" PRIu64 " %" PRIu64 " %" PRIu64 "\n", answer[1], answer[2], answer[3]);
        break;
    case 5:
        printf("fit %" PRIu64 " %" PRIu64 " %" PRIu64 " %" PRIu64 "\n", answer[1], answer[2], answer[3], answer[4]);
        print_words(6 + model);
        break;
    case 6:
        printf("model %" PRIu64 "\n", answer[1]);
        print_words(answer[1]);
        break;
    case 7:
        printf("diagnostics\n");
        print_words(2);
        break;
    }
}

/* Linear inversion: one qubit in the state |0><0|. */
static void density(void) {
    static struct card card;
    put(&card, UINT64_C(0x1100000000000000)); /* kind 1, n = 1 */
    put_number(&card, 1e-6);                  /* tolerance */
    put_number(&card, 1.0);                   /* I */
    put_number(&card, 0.0);                   /* X */
    put_number(&card, 0.0);                   /* Y */
    put_number(&card, 1.0);                   /* Z */
    check(mintshuttle_read(card.bytes, card.len, answer, MINTSHUTTLE_ANSWER_WORDS) == 0 && answer[0] == 1, "the reader accepts the card");
    result[8] = 77;
    work[0] = 5.0;
    check(sheet_of(&card) == 0, "the density sheet is made");
    check(answer[0] == 1 && answer[1] == 2 && answer[2] == 0 && answer[3] == 0 && answer[4] == 0, "its header is density 2");
    check(number_of(result[0]) == 1.0, "its first entry is 1");
    for (int i = 1; i < 8; i++)
        check(result[i] == 0, "its other parts are +0");
    check(result[8] == 77, "no other result word is written");
    check(word_of(work[0]) == 0, "the work slice is cleared");
    print_sheet(0);

    /* A word too few: wanted 6, found 5. */
    card.len -= 8;
    result[0] = 77;
    check(sheet_of(&card) == 2 && answer[0] == 0 && answer[1] == 2 && answer[2] == 6 && answer[3] == 5, "a short card is refusal 2");
    check(result[0] == 77, "a refusal writes no result word");
    check(mintshuttle_read(card.bytes, card.len, answer, MINTSHUTTLE_ANSWER_WORDS) == 2, "the reader refuses it too");
    print_sheet(0);

    /* Slices that are too short. */
    check(mintshuttle_sheet(card.bytes, card.len, result, 4095, work, MINTSHUTTLE_WORK_NUMBERS, answer, 5) == 16 && answer[1] == 16, "a short result");
    answer[0] = 77;
    check(mintshuttle_sheet(card.bytes, card.len, result, MINTSHUTTLE_RESULT_WORDS, work, MINTSHUTTLE_WORK_NUMBERS, answer, 4) == 16, "a short answer");
    check(answer[0] == 77, "which is not written");
}

/* The worked fit card of docs/CARD.md: one number of the state of a model with one gate, two iterations. */
static void fit(void) {
    static struct card card;
    put(&card, UINT64_C(0x5002020100010100)); /* kind 5, d = 2, 2 effects, 1 gate, 1 record, 1 coordinate */
    put(&card, 2);                            /* max_iterations */
    put_number(&card, 0.1);                   /* initial_step */
    put_number(&card, 1e-5);                  /* finite_difference_step */
    put_number(&card, 1e-8);                  /* gradient_tolerance */
    put_number(&card, 1e-12);                 /* objective_tolerance */
    put_number(&card, 1e-9);                  /* probability_tolerance */
    put(&card, 24);                           /* max_backtracks */
    put_number(&card, 0.0);                   /* anchor_strength */
    const double state_and_effects[] = {1.0, 0.0, 0.5, 0.5, 0.5, -0.5};
    for (int i = 0; i < 6; i++)
        put_number(&card, state_and_effects[i]);
    put(&card, UINT64_C(0x4700000000000000)); /* the gate's name, "G" */
    const double gate[] = {1.0, 0.0, 0.0, 0.5};
    for (int i = 0; i < 4; i++)
        put_number(&card, gate[i]);
    put(&card, UINT64_C(0x0100000000000000)); /* a sequence of one gate: */
    for (int i = 0; i < 4; i++)
        put(&card, 0); /* gate 0, and unused places */
    put(&card, 3); /* counts */
    put(&card, 1);
    put(&card, UINT64_C(0x1000000000000001)); /* coordinate: the state's number 1 */
    const size_t model = 2 + 2 * 2 + 1 * (1 + 2 * 2);
    check(mintshuttle_read(card.bytes, card.len, answer, MINTSHUTTLE_ANSWER_WORDS) == 0 && answer[0] == 5, "the reader accepts the fit card");
    check(sheet_of(&card) == 0 && answer[0] == 5, "the fit sheet is made");
    check(answer[1] == 3 && answer[2] == 2 && answer[3] == 9 && answer[4] == 0, "its header is fit 3 2 9 0");
    check(result[4] == UINT64_C(0x4004ccb8ad9d54da), "the objective");
    check(result[6] == word_of(1.0) && result[7] == UINT64_C(0x3fc8594fafefea00), "the state");
    check(result[12] == UINT64_C(0x4700000000000000), "the gate's name");
    print_sheet(model);
}

static void library_entries(void) {
    check(mintshuttle_probes(1, result, MINTSHUTTLE_RESULT_WORDS, work, MINTSHUTTLE_WORK_NUMBERS, answer, MINTSHUTTLE_ANSWER_WORDS) == 0, "probes");
    check(answer[0] == 8 && answer[1] == 4, "four probes of one qubit");
    for (int i = 0; i < 4; i++)
        check(number_of(result[4 * i]) == 1.0, "each with 1 for the identity");
    check(mintshuttle_probes(4, result, MINTSHUTTLE_RESULT_WORDS, work, MINTSHUTTLE_WORK_NUMBERS, answer, MINTSHUTTLE_ANSWER_WORDS) == 1, "n = 4");

    check(mintshuttle_setting(2, 5, result, MINTSHUTTLE_RESULT_WORDS, work, MINTSHUTTLE_WORK_NUMBERS, answer, MINTSHUTTLE_ANSWER_WORDS) == 0, "setting");
    check(answer[0] == 9 && answer[1] == 2 && result[0] == 2 && result[1] == 3, "setting 5 of two qubits is Y Z");
    check(mintshuttle_setting(2, 9, result, MINTSHUTTLE_RESULT_WORDS, work, MINTSHUTTLE_WORK_NUMBERS, answer, MINTSHUTTLE_ANSWER_WORDS) == 15 &&
              answer[2] == 9,
          "there is no setting 9");

    /* A quarter turn about X takes Z to -Y. */
    const double turn[16] = {1, 0, 0, 0, 0, 1, 0, 0, 0, 0, 0, -1, 0, 0, 1, 0};
    const double up[4] = {1, 0, 0, 1};
    check(mintshuttle_apply(1, turn, 16, up, 4, result, MINTSHUTTLE_RESULT_WORDS, work, MINTSHUTTLE_WORK_NUMBERS, answer, MINTSHUTTLE_ANSWER_WORDS) == 0,
          "apply");
    check(answer[0] == 10 && answer[1] == 4, "four expectations");
    check(number_of(result[0]) == 1.0 && number_of(result[1]) == 0.0 && number_of(result[2]) == -1.0 && number_of(result[3]) == 0.0, "-Y");

    check(mintshuttle_choi(1, turn, 16, result, MINTSHUTTLE_RESULT_WORDS, work, MINTSHUTTLE_WORK_NUMBERS, answer, MINTSHUTTLE_ANSWER_WORDS) == 0, "choi");
    check(answer[0] == 11 && answer[1] == 4, "a matrix of four rows");
    check(number_of(result[0]) + number_of(result[10]) + number_of(result[20]) + number_of(result[30]) == 1.0, "its trace is 1");
    check(mintshuttle_choi(1, turn, 15, result, MINTSHUTTLE_RESULT_WORDS, work, MINTSHUTTLE_WORK_NUMBERS, answer, MINTSHUTTLE_ANSWER_WORDS) == 2 &&
              answer[2] == 16 && answer[3] == 15,
          "15 values are refusal 2");

    /* A model with that turn as its only gate: after one turn both outcomes are as likely, after two it is the other one. */
    const uint64_t names[1] = {UINT64_C(0x4778000000000000)}; /* "Gx" */
    double numbers[4 + 2 * 4 + 16] = {1, 0, 0, 1, 0.5, 0, 0, 0.5, 0.5, 0, 0, -0.5};
    memcpy(numbers + 12, turn, sizeof turn);
    const uint64_t sequence[3] = {0, 0, 3};
    check(mintshuttle_probabilities(4, 2, names, 1, numbers, 28, sequence, 1, result, MINTSHUTTLE_RESULT_WORDS, work, MINTSHUTTLE_WORK_NUMBERS, answer,
                                    MINTSHUTTLE_ANSWER_WORDS) == 0,
          "probabilities");
    check(answer[0] == 12 && answer[1] == 2 && number_of(result[0]) == 0.5 && number_of(result[1]) == 0.5, "one half each");
    check(mintshuttle_probabilities(4, 2, names, 1, numbers, 28, sequence, 2, result, MINTSHUTTLE_RESULT_WORDS, work, MINTSHUTTLE_WORK_NUMBERS, answer,
                                    MINTSHUTTLE_ANSWER_WORDS) == 0 &&
              number_of(result[0]) == 0.0 && number_of(result[1]) == 1.0,
          "after two turns the second outcome");
    check(mintshuttle_probabilities(4, 2, names, 1, numbers, 28, sequence, 3, result, MINTSHUTTLE_RESULT_WORDS, work, MINTSHUTTLE_WORK_NUMBERS, answer,
                                    MINTSHUTTLE_ANSWER_WORDS) == 7 &&
              answer[2] == 3,
          "gate 3 does not exist");

    const double x[3] = {4.0, 2.25, 1.0};
    double out[2] = {0, 0};
    check(mintshuttle_sqrt_all(x, 3, out, 2) == 2 && out[0] == 2.0 && out[1] == 1.5, "roots, as far as both slices go");
    out[1] = 77.0;
    check(mintshuttle_ln_all(x + 2, 1, out, 2) == 1 && out[0] == 0.0 && out[1] == 77.0, "the logarithm of 1");
}

int main(void) {
    density();
    fit();
    library_entries();
    if (failures == 0)
        printf("all as expected\n");
    return failures != 0;
}
