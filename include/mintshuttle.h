/* Mintshuttle for C: link crates/exports/out/libexports.a, which `rt lib` writes in crates/exports (x86-64, no other library).
 *
 * A slice is a pointer and a length in elements. The pointer is aligned for its element (8 bytes for uint64_t and double) and valid for so many of them;
 * of an empty slice it may be any aligned pointer that is not null. A slice that is written (result, work, answer, out) must not overlap another slice of
 * the call, and no other thread may use it during the call; one that is only read must not be written by others meanwhile. Calls on different slices may
 * run at the same time: there is no other state. No function keeps a pointer, allocates, or fails in any other way than it says.
 *
 * A number in a word is its bits: memcpy takes it to a double. */
#ifndef MINTSHUTTLE_H
#define MINTSHUTTLE_H

#include <stddef.h>
#include <stdint.h>

#ifdef __cplusplus
extern "C" {
#endif

/* What the slices of a call have to hold at least; less is refusal 16. */
#define MINTSHUTTLE_RESULT_WORDS 4096
#define MINTSHUTTLE_WORK_NUMBERS 8192
#define MINTSHUTTLE_ANSWER_WORDS 5

/* The sheet of a card. docs/CARD.md has the format of cards and sheets, and the table of refusals.
 *
 * Returns 0 where a sheet was made, and the refusal's number N, 1 to 16, otherwise.
 * card: bytes of any number and content. It is only read, and needs no alignment.
 * answer: its first five words are written, whatever the outcome; words beyond the fifth keep their values. With fewer than five words nothing is written
 *   there and 16 is returned. Of a refusal they are 0, N, A, B, 0; of a sheet:
 *
 *     first five words   sheet                                                            words of result
 *     1, D, 0, 0, 0      density matrix of D rows                                         2 D^2: real and imaginary part of each entry, by rows
 *     2, D, 0, 0, 0      density matrix of D rows, projected                              2 D^2, as above
 *     3, P, 0, 0, 0      transfer matrix of P rows                                        P^2, by rows
 *     4, T, U, C, 0      keeps the trace, keeps the identity, is completely positive,     none
 *                        each 0 or 1
 *     5, R, S, E, V      a fit: R why it stopped (gradient 1, objective 2,                6 + M: log-likelihood and deviance of the card's model, the same
 *                        iterations 3, stalled 4), S steps, E evaluations, V whether      two of the fitted one, objective, gradient norm, then the M
 *                        it converged (0 or 1)                                            words of the fitted model
 *     6, M, 0, 0, 0      a model of M words                                               M: the state, each effect, then each gate's name and numbers
 *     7, 0, 0, 0, 0      diagnostics                                                      2: log-likelihood and deviance
 *
 *   M is that of the card: d + e d + g (1 + d^2) for dimension d, e effects, g gates.
 * result: a sheet writes its words from word 0, in the order in which they are printed, and no other word; a refusal writes none.
 * work: every number of it is +0 after either outcome, refusal 16 too. What it held before does not matter. */
uint64_t mintshuttle_sheet(const uint8_t *card, size_t card_len, uint64_t *result, size_t result_len, double *work, size_t work_len, uint64_t *answer,
                           size_t answer_len);

/* What the reader says of a card of any kind, which is whether it would be refused by its layout alone (15, 1 or 2): 0, and the answer is the card's kind
 * and four zeros; or N, and the answer is 0, N, A, B, 0. With fewer than five answer words it returns 16 and writes nothing. */
uint64_t mintshuttle_read(const uint8_t *card, size_t card_len, uint64_t *answer, size_t answer_len);

/* Library entries. They return 0, or the number N of a refusal; result, work and answer are written as by mintshuttle_sheet, 16 being tested first. */

/* The probe design of n qubits, 1 to 3: result gets 4^n rows of 4^n expectations (numbers as words); the answer is 8, 4^n, 0, 0, 0.
 * N: 16; 1 where n is 0 or above 3. */
uint64_t mintshuttle_probes(uint64_t n, uint64_t *result, size_t result_len, double *work, size_t work_len, uint64_t *answer, size_t answer_len);

/* Measurement setting `index` of the 3^n of n qubits, n 1 to 3: result gets the n axes, X 1, Y 2, Z 3; the answer is 9, n, 0, 0, 0.
 * N: 16; 1 where n is 0 or above 3; 15 with A the index where it is 3^n or more. */
uint64_t mintshuttle_setting(uint64_t n, uint64_t index, uint64_t *result, size_t result_len, double *work, size_t work_len, uint64_t *answer,
                             size_t answer_len);

/* A transfer matrix of 4^n by 4^n values, by rows, applied to 4^n expectations, n 1 or 2: result gets the 4^n expectations afterwards (numbers as words),
 * which are not tested (a NaN is 7ff8000000000000); the answer is 10, 4^n, 0, 0, 0.
 * N: 16; 1 where n is 0 or above 2; 2 with A the wanted and B the given length, or 3 where a number is not finite, of the values and then of the input. */
uint64_t mintshuttle_apply(uint64_t n, const double *values, size_t values_len, const double *input, size_t input_len, uint64_t *result,
                           size_t result_len, double *work, size_t work_len, uint64_t *answer, size_t answer_len);

/* The normalized Choi matrix of a transfer matrix of 4^n by 4^n values, by rows, n 1 or 2: result gets the real and the imaginary part of each of the
 * 4^n by 4^n entries, by rows (numbers as words); the answer is 11, 4^n, 0, 0, 0.
 * N: 16; 1 where n is 0 or above 2; 2 with A the wanted and B the given length; 3 where a value is not finite; 6 where a part of the matrix is not. */
uint64_t mintshuttle_choi(uint64_t n, const double *values, size_t values_len, uint64_t *result, size_t result_len, double *work, size_t work_len,
                          uint64_t *answer, size_t answer_len);

/* The probabilities of a gate sequence under a gate-set model: result gets one number for each effect (as words), which are not tested (a NaN is
 * 7ff8000000000000); the answer is 12, effects, 0, 0, 0.
 * d, effects: the model's dimension and how many effects it has, each at most 16.
 * names: a word for each gate, so that their number is the number of gates, at most 8.
 * numbers: d state numbers, the d numbers of each effect, the d*d numbers of each gate by rows: d + effects d + names_len d^2 in all.
 * sequence: indices into names, at most 64; the gate that stands first is applied first.
 * N, in this order: 16; 15 with A 0 where one of these limits is passed; 2 with A the wanted and B the given count of numbers; 3 where d is 0 or a state
 * number is not finite; 2 with A = d and B = 0 where there are no effects; 3 where an effect's or a gate's number is not finite; 13 with A 6 where a name is
 * zero or that of an earlier gate; 7 with A the first index of the sequence that names no gate. */
uint64_t mintshuttle_probabilities(uint64_t d, uint64_t effects, const uint64_t *names, size_t names_len, const double *numbers, size_t numbers_len,
                                   const uint64_t *sequence, size_t sequence_len, uint64_t *result, size_t result_len, double *work, size_t work_len,
                                   uint64_t *answer, size_t answer_len);

/* The number leaves, on many numbers: out[i] = f(x[i]) for every i below the smaller length, which is returned; the rest of out keeps its values. The root
 * is IEEE 754's nearest; the logarithm's error is below 2^-40, and below 2^-48 for x from 1/2 to 2 (docs/PROMISES.md says against what). */
size_t mintshuttle_sqrt_all(const double *x, size_t x_len, double *out, size_t out_len);
size_t mintshuttle_ln_all(const double *x, size_t x_len, double *out, size_t out_len);

#ifdef __cplusplus
}
#endif

#endif
