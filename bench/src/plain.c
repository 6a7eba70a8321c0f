/* Kinds 3 and 6 at rows of 16 in plain C, as a yardstick: the pivot's row in a local array, products by rows, sums from -0.
 * Good cards only: the tests of the Rust's functions are made, but a failed one gives 0 and no number of a refusal. */
#include <stdint.h>
#include <string.h>

enum { N = 16, WIDE = 2 * N, SQUARE = N * N };

static double size_of(double x) { return x < 0.0 ? -x : x; }

static int all_finite(const double *x, size_t count) {
    int all = 1;
    for (size_t i = 0; i < count; i++) all &= x[i] * 0.0 == 0.0;
    return all;
}

static void row_mat(const double *x, const double *a, double *out) {
    double sums[N];
    for (int j = 0; j < N; j++) sums[j] = -0.0;
    for (int k = 0; k < N; k++)
        for (int j = 0; j < N; j++) sums[j] += x[k] * a[k * N + j];
    for (int j = 0; j < N; j++) out[j] = sums[j];
}

static void mat_mul(const double *a, const double *b, double *out) {
    for (int i = 0; i < N; i++) row_mat(a + i * N, b, out + i * N);
}

static void transpose(const double *a, double *out) {
    for (int i = 0; i < N; i++)
        for (int j = 0; j < N; j++) out[i * N + j] = a[j * N + i];
}

static int clear_column(double *rows, int k, double limit) {
    int p = k;
    for (int i = k + 1; i < N; i++)
        if (size_of(rows[i * WIDE + k]) >= size_of(rows[p * WIDE + k])) p = i;
    double d = rows[p * WIDE + k], pivot[WIDE];
    if (size_of(d) <= limit) return 0;
    for (int j = 0; j < WIDE; j++) pivot[j] = rows[p * WIDE + j] / d;
    for (int j = 0; j < WIDE; j++) rows[p * WIDE + j] = rows[k * WIDE + j];
    for (int j = 0; j < WIDE; j++) rows[k * WIDE + j] = pivot[j];
    for (int i = 0; i < N; i++) {
        if (i == k) continue;
        double f = rows[i * WIDE + k];
        for (int j = 0; j < WIDE; j++) rows[i * WIDE + j] -= f * pivot[j];
    }
    return 1;
}

static int invert(const double *a, double threshold, double *out) {
    double rows[N * WIDE], scale = 0.0;
    for (int i = 0; i < SQUARE; i++) scale = scale < size_of(a[i]) ? size_of(a[i]) : scale;
    if (scale == 0.0 || !all_finite(&scale, 1)) return 0;
    for (int i = 0; i < N; i++)
        for (int j = 0; j < N; j++) {
            rows[i * WIDE + j] = a[i * N + j];
            rows[i * WIDE + N + j] = i == j;
        }
    for (int k = 0; k < N; k++)
        if (!clear_column(rows, k, threshold * scale)) return 0;
    for (int i = 0; i < N; i++) memcpy(out + i * N, rows + i * WIDE + N, N * sizeof(double));
    return 1;
}

/* 32 vectors, inputs and then outputs, to the transfer matrix. */
int plain_process(const double *vectors, double tolerance, double *transfer) {
    double inputs[SQUARE], outputs[SQUARE], inverse[SQUARE];
    for (int k = 0; k < 2 * N; k++) {
        if (!all_finite(vectors + k * N, N)) return 0;
        if (size_of(vectors[k * N] - 1.0) > tolerance) return 0;
    }
    transpose(vectors, inputs);
    transpose(vectors + SQUARE, outputs);
    if (!invert(inputs, tolerance, inverse)) return 0;
    mat_mul(outputs, inverse, transfer);
    return all_finite(transfer, SQUARE);
}

/* The model's numbers, state, effects and gates, to those of the new model. */
int plain_gauge(const double *model, size_t effects, size_t gates, const double *transform, double *out) {
    double inverse[SQUARE], left[SQUARE];
    if (!all_finite(transform, SQUARE)) return 0;
    if (!invert(transform, 64.0 * 2.220446049250313e-16 * N, inverse)) return 0;
    for (int i = 0; i < N; i++) {
        out[i] = -0.0;
        for (int j = 0; j < N; j++) out[i] += transform[i * N + j] * model[j];
    }
    for (size_t k = 1; k <= effects; k++) row_mat(model + k * N, inverse, out + k * N);
    size_t vectors = (1 + effects) * N;
    for (size_t g = 0; g < gates; g++) {
        mat_mul(transform, model + vectors + g * SQUARE, left);
        mat_mul(left, inverse, out + vectors + g * SQUARE);
    }
    return all_finite(out, vectors + gates * SQUARE);
}

static void load(const uint8_t *card, size_t from, size_t count, double *out) {
    for (size_t i = 0; i < count; i++) {
        uint64_t word;
        memcpy(&word, card + (from + i) * 8, 8);
        word = __builtin_bswap64(word);
        memcpy(out + i, &word, 8);
    }
}

/* The same from the card's bytes to the result's words, with the work slice cleared. */
int plain_process_card(const uint8_t *card, uint64_t *result, double *work) {
    double vectors[1 + 2 * SQUARE];
    load(card, 1, 1 + 2 * SQUARE, vectors);
    int good = plain_process(vectors + 1, vectors[0], work);
    if (good) memcpy(result, work, SQUARE * 8);
    memset(work, 0, 8192 * 8);
    return good;
}

int plain_gauge_card(const uint8_t *card, size_t effects, size_t gates, uint64_t *result, double *work) {
    double model[17 * N + 8 * SQUARE], transform[SQUARE];
    size_t vectors = (1 + effects) * N;
    load(card, 1, vectors, model);
    for (size_t g = 0; g < gates; g++) load(card, 1 + vectors + g * (1 + SQUARE) + 1, SQUARE, model + vectors + g * SQUARE);
    load(card, 1 + vectors + gates * (1 + SQUARE), SQUARE, transform);
    int good = all_finite(model, vectors + gates * SQUARE) && plain_gauge(model, effects, gates, transform, work);
    if (good) {
        memcpy(result, work, vectors * 8);
        for (size_t g = 0; g < gates; g++) {
            uint64_t *gate = result + vectors + g * (1 + SQUARE);
            memcpy(gate, card + (1 + vectors + g * (1 + SQUARE)) * 8, 8);
            gate[0] = __builtin_bswap64(gate[0]);
            memcpy(gate + 1, work + vectors + g * SQUARE, SQUARE * 8);
        }
    }
    memset(work, 0, 8192 * 8);
    return good;
}
