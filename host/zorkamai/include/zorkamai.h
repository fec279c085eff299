/* Sage's retention time alignment, its models and its ridge solver, proved to the bit: the functions of
 * libzorkamai.a, which `.ci/staticlib zorkamai` writes to target/staticlib.
 *
 * A slice is a pointer and the number of elements after it. The pointer is never NULL, also where the
 * number is 0, and a slice that is written overlaps no other. A flag that is handed in is 0 or 1, as C's bool
 * is. Beyond that a function takes whatever it is handed: it answers a number of this table, and a refused
 * call (1 to 7) changes no slice.
 *
 *   0  accepted
 *   1  columns that belong together, or a solver's sides against n * n and n * c, differ in length
 *   2  a limit is passed: files 1 to 4,096; rows and peptides to 1,048,576; peptides * files to
 *      16,777,216; a solver's order 1 to 100 and right columns 1 to 8
 *   3  work room or an output too short
 *   4  a file number not below the number of files
 *   5  a peptide number not below the number of peptides
 *   6  a letter outside A to Z
 *   7  offsets malformed, or a peptide over 255 letters
 *   8  no row trains
 *   9  no ridge solves the system
 *
 * Room and outputs may be longer than needed: the rest is left as it was. Once the checks have passed the
 * needed work room ends as +0.0, also with 8 and 9; then no output is written. A NaN that is written or
 * returned is 7FC00000 or 7FF8000000000000.
 *
 * A call takes at most 256 KiB of its thread's stack.
 *
 * A float is exact if it equals the double that it was narrowed from. NaN equals nothing. */
#ifndef ZORKAMAI_H
#define ZORKAMAI_H

#include <stdbool.h>
#include <stddef.h>
#include <stdint.h>

#ifdef __cplusplus
extern "C" {
#endif

/* A file's record: its longest time, the line that aligns its times, the number of kept peptides of the file,
 * whose times carry the line, and whether each of the three floats is exact. Without kept peptides used is 0,
 * slope 1 and intercept 0. A peptide that training rows have is kept if the mean of its times, as shares of the
 * files' longest, is a normal number. A longest time is not exact where a time is 2^32 or longer: it is then
 * 4,294,967,295. */
typedef struct {
    float max_rt;
    float slope;
    float intercept;
    uint32_t used;
    bool max_rt_exact;
    bool slope_exact;
    bool intercept_exact;
} zorkamai_alignment;

/* The answer of the solver, of a fit or of a prediction: its number and, if that is 0, the ridge; of a fit and
 * of a prediction r2 and the number of training rows; of a prediction the number of rows whose prediction is
 * not exact, NaN among them. inexact is 0 with any number but 0, and for the solver and a fit alone. */
typedef struct {
    uint8_t status;
    double ridge;
    double r2;
    uint32_t n;
    uint32_t inexact;
} zorkamai_answer;

/* The answer of a run: its number, and the answer of each model's prediction. */
typedef struct {
    uint8_t status;
    zorkamai_answer retention;
    zorkamai_answer mobility;
} zorkamai_run_report;

/* The answer of a lookup: its number and, if that is 0, the record. */
typedef struct {
    uint8_t status;
    float max_rt;
    float slope;
    float intercept;
    uint32_t used;
    bool max_rt_exact;
    bool slope_exact;
    bool intercept_exact;
} zorkamai_record_answer;

/* A row's aligned time, if the number is 0. */
typedef struct {
    uint8_t status;
    float aligned;
} zorkamai_time_answer;

/* A cell of a column, where there is one, and the row below it. */
typedef struct {
    bool found;
    double value;
    uint32_t row;
} zorkamai_cell_answer;

/* Solves left * x = right, left n rows of n cells and right n rows of c. Needs n * n + n * c cells of
 * workspace and n * c of solution. */
zorkamai_answer zorkamai_solve(
    const double *left, size_t left_len, const double *right, size_t right_len, size_t n, size_t c,
    double *workspace, size_t workspace_len, double *solution, size_t solution_len);

/* Aligns the rows' times: a row has a file, a peptide, a label, a q and a time. Needs peptides * files
 * cells of workspace, a cell for each file of the seven columns from max_rt to intercept_exact, the fields of
 * the files' records, and one for each row of aligned. The order of the rows moves no record and no row's
 * aligned time. */
uint8_t zorkamai_align(
    const uint32_t *file, size_t file_len, const uint32_t *peptide, size_t peptide_len,
    const int32_t *label, size_t label_len, const float *q, size_t q_len,
    const float *rt, size_t rt_len, size_t files, size_t peptides,
    double *workspace, size_t workspace_len, float *max_rt, size_t max_rt_len,
    float *slope, size_t slope_len, float *intercept, size_t intercept_len,
    uint32_t *used, size_t used_len, bool *max_rt_exact, size_t max_rt_exact_len,
    bool *slope_exact, size_t slope_exact_len, bool *intercept_exact, size_t intercept_exact_len,
    float *aligned, size_t aligned_len);

/* Fits the retention model to the aligned times of the training rows: those with label 1 and a q of at most
 * 0.01. Peptide i has the letters from offsets[i] to offsets[i + 1], a mass, and the log ln(1 + mass). Needs
 * 7,314 cells of workspace and 69 of beta, the coefficients. */
zorkamai_answer zorkamai_retention_fit(
    const uint32_t *peptide, size_t peptide_len, const int32_t *label, size_t label_len,
    const float *q, size_t q_len, const float *aligned, size_t aligned_len,
    const uint8_t *letters, size_t letters_len, const uint32_t *offsets, size_t offsets_len,
    const float *masses, size_t masses_len, const double *logs, size_t logs_len,
    double *workspace, size_t workspace_len, double *beta, size_t beta_len);

/* Fits as zorkamai_retention_fit does and, if that is solved, writes each row's prediction and its distance
 * from the aligned time. Needs a cell for each row of predicted and of error. */
zorkamai_answer zorkamai_retention_predict(
    const uint32_t *peptide, size_t peptide_len, const int32_t *label, size_t label_len,
    const float *q, size_t q_len, const float *aligned, size_t aligned_len,
    const uint8_t *letters, size_t letters_len, const uint32_t *offsets, size_t offsets_len,
    const float *masses, size_t masses_len, const double *logs, size_t logs_len,
    double *workspace, size_t workspace_len, double *beta, size_t beta_len,
    float *predicted, size_t predicted_len, float *error, size_t error_len);

/* Fits the mobility model to the mobilities of the training rows. Needs 15,250 cells of workspace and 100 of
 * beta, the coefficients. */
zorkamai_answer zorkamai_mobility_fit(
    const uint32_t *peptide, size_t peptide_len, const int32_t *label, size_t label_len,
    const float *q, size_t q_len, const uint8_t *charge, size_t charge_len,
    const float *mobility, size_t mobility_len, const uint8_t *letters, size_t letters_len,
    const uint32_t *offsets, size_t offsets_len, const float *masses, size_t masses_len,
    double *workspace, size_t workspace_len, double *beta, size_t beta_len);

/* Fits as zorkamai_mobility_fit does and, if that is solved, writes each row's prediction and its distance
 * from the mobility. Needs a cell for each row of predicted and of error. */
zorkamai_answer zorkamai_mobility_predict(
    const uint32_t *peptide, size_t peptide_len, const int32_t *label, size_t label_len,
    const float *q, size_t q_len, const uint8_t *charge, size_t charge_len,
    const float *mobility, size_t mobility_len, const uint8_t *letters, size_t letters_len,
    const uint32_t *offsets, size_t offsets_len, const float *masses, size_t masses_len,
    double *workspace, size_t workspace_len, double *beta, size_t beta_len,
    float *predicted, size_t predicted_len, float *error, size_t error_len);

/* The alignment, both fits on it, and the predictions and errors of each model that fits. Needs of workspace the
 * larger of peptides * files and 15,250 cells, a cell for each file of the seven columns from max_rt to
 * intercept_exact, 69 and 100 of the coefficients, and one for each row of the others. */
zorkamai_run_report zorkamai_run(
    const uint32_t *file, size_t file_len, const uint32_t *peptide, size_t peptide_len,
    const int32_t *label, size_t label_len, const float *q, size_t q_len,
    const float *rt, size_t rt_len, const uint8_t *charge, size_t charge_len,
    const float *mobility, size_t mobility_len, size_t files,
    const uint8_t *letters, size_t letters_len, const uint32_t *offsets, size_t offsets_len,
    const float *masses, size_t masses_len, const double *logs, size_t logs_len,
    double *workspace, size_t workspace_len, float *max_rt, size_t max_rt_len,
    float *slope, size_t slope_len, float *intercept, size_t intercept_len,
    uint32_t *used, size_t used_len, bool *max_rt_exact, size_t max_rt_exact_len,
    bool *slope_exact, size_t slope_exact_len, bool *intercept_exact, size_t intercept_exact_len,
    float *aligned, size_t aligned_len, double *retention_beta, size_t retention_beta_len,
    float *retention_predicted, size_t retention_predicted_len, float *retention_error, size_t retention_error_len,
    double *mobility_beta, size_t mobility_beta_len, float *mobility_predicted, size_t mobility_predicted_len,
    float *mobility_error, size_t mobility_error_len);

/* The record of a file in a list of records; 4 where the list ends before it. */
zorkamai_record_answer zorkamai_record_of(
    const zorkamai_alignment *records, size_t records_len, uint32_t file);

/* A time by the record of its file in a list of records; 4 where the list ends before it. */
zorkamai_time_answer zorkamai_aligned_time(
    const zorkamai_alignment *records, size_t records_len, uint32_t file, float rt);

/* The cell in a row of a column of a matrix of rows * cols cells, row by row. */
zorkamai_cell_answer zorkamai_column_step(
    const double *cells, size_t cells_len, uint32_t rows, uint32_t cols, uint32_t row, uint32_t col);

#ifdef __cplusplus
}
#endif

#endif
