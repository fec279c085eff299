/* Aligns six rows of two files, looks records up, fits both models, runs a batch, walks down a column and solves a
 * system.
 *
 *   .ci/staticlib zorkamai
 *   cc -I host/zorkamai/include host/zorkamai/examples/host.c target/staticlib/libzorkamai.a -lm -o target/host
 *   target/host
 */
#include "zorkamai.h"

#include <math.h>
#include <stdio.h>
#include <string.h>

#define LEN(a) (sizeof(a) / sizeof((a)[0]))

static int failures = 0;

static void expect(int held, const char *what) {
    if (!held) {
        failures++;
        printf("NOT SO: %s\n", what);
    }
}

static uint32_t bits(float x) {
    uint32_t b;
    memcpy(&b, &x, sizeof b);
    return b;
}

static void alignment(void) {
    const uint32_t file[] = {0, 0, 0, 1, 1, 1};
    const uint32_t peptide[] = {0, 1, 2, 0, 1, 2};
    const int32_t label[] = {1, 1, 1, 1, 1, -1};
    const float q[] = {0.001f, 0.001f, 0.001f, 0.001f, 0.001f, 0.001f};
    const float rt[] = {5.0f, 10.0f, 2.0f, 10.0f, 20.0f, 4.0f};
    double workspace[6];
    float max_rt[2], slope[2], intercept[2], aligned[6];
    uint32_t used[2];
    bool max_rt_exact[2], slope_exact[2], intercept_exact[2];

    uint8_t status = zorkamai_align(
        file, 6, peptide, 6, label, 6, q, 6, rt, 6, 2, 3, workspace, 6, max_rt, 2, slope, 2, intercept, 2, used, 2,
        max_rt_exact, 2, slope_exact, 2, intercept_exact, 2, aligned, 6);
    expect(status == 0, "the alignment is accepted");
    expect(max_rt[0] == 10.0f && max_rt[1] == 20.0f, "the longest times are 10 and 20");
    expect(max_rt_exact[0] && max_rt_exact[1], "and lost nothing where they were narrowed");
    expect(!slope_exact[1] && !intercept_exact[1], "the line of file 1 did");
    expect(used[0] == 3 && used[1] == 2, "three peptides carry the line of file 0, two that of file 1");
    expect(workspace[5] == 0.0, "the work room ends as 0");
    for (size_t i = 0; i < LEN(used); i++) {
        printf("file %zu: longest %g, y = %gx + %g by %u peptides\n", i, max_rt[i], slope[i], intercept[i], used[i]);
        printf("file %zu: max_rt_exact %d, slope_exact %d, intercept_exact %d\n",
               i, max_rt_exact[i], slope_exact[i], intercept_exact[i]);
    }
    for (size_t i = 0; i < LEN(aligned); i++) {
        printf("file %u peptide %u: %g -> %g\n", file[i], peptide[i], rt[i], aligned[i]);
    }

    const zorkamai_alignment records[] = {
        {max_rt[0], slope[0], intercept[0], used[0], max_rt_exact[0], slope_exact[0], intercept_exact[0]},
        {max_rt[1], slope[1], intercept[1], used[1], max_rt_exact[1], slope_exact[1], intercept_exact[1]}};
    zorkamai_record_answer record = zorkamai_record_of(records, LEN(records), 1);
    expect(record.status == 0 && record.max_rt == 20.0f, "file 1 has a record");
    expect(bits(record.slope) == bits(slope[1]), "with its slope");
    expect(bits(record.intercept) == bits(intercept[1]), "and its intercept");
    expect(record.used == 2, "and its number of peptides");
    expect(record.max_rt_exact && !record.slope_exact && !record.intercept_exact, "and its flags");
    expect(zorkamai_record_of(records, LEN(records), 2).status == 4, "file 2 has none");
    zorkamai_time_answer time = zorkamai_aligned_time(records, LEN(records), 1, 4.0f);
    expect(time.status == 0 && bits(time.aligned) == bits(aligned[5]), "a row's time by the list");
    expect(zorkamai_aligned_time(records, LEN(records), 7, 4.0f).status == 4, "no time without one");

    aligned[0] = -1.0f;
    used[0] = 77;
    max_rt_exact[0] = false;
    status = zorkamai_align(
        file, 6, peptide, 6, label, 6, q, 6, rt, 6, 1, 3, workspace, 6, max_rt, 2, slope, 2, intercept, 2, used, 2,
        max_rt_exact, 2, slope_exact, 2, intercept_exact, 2, aligned, 6);
    expect(status == 4, "file 1 of 1 is refused");
    expect(aligned[0] == -1.0f && used[0] == 77 && !max_rt_exact[0], "and changes nothing");
}

static void models(void) {
    const uint8_t letters[] = "ACDKLVVR";
    const uint32_t offsets[] = {0, 4, 8};
    const float masses[] = {435.18f, 485.33f};
    const double logs[] = {log1p(435.18f), log1p(485.33f)};
    const uint32_t peptide[] = {0, 1, 1};
    const int32_t label[] = {1, 1, -1};
    const float q[] = {0.001f, 0.01f, 0.001f};
    const float aligned[] = {0.25f, 0.75f, 0.5f};
    const uint8_t charge[] = {2, 2, 3};
    const float mobility[] = {0.75f, 0.875f, 1.0f};
    static double workspace[15250];
    double beta[100];
    float predicted[3], error[3];

    zorkamai_answer a = zorkamai_retention_predict(
        peptide, 3, label, 3, q, 3, aligned, 3, letters, 8, offsets, 3, masses, 2, logs, 2,
        workspace, 7314, beta, 69, predicted, 3, error, 3);
    expect(a.status == 0 && a.n == 2, "retention is fitted to the two rows that train");
    expect(error[0] < 0.01f && error[1] < 0.01f, "and predicts them");
    printf("retention: ridge %g, r2 %g, off by %g for the row outside, inexact %u of 3\n",
           a.ridge, a.r2, error[2], a.inexact);
    a = zorkamai_mobility_predict(
        peptide, 3, label, 3, q, 3, charge, 3, mobility, 3, letters, 8, offsets, 3, masses, 2,
        workspace, 15250, beta, 100, predicted, 3, error, 3);
    expect(a.status == 0 && a.n == 2 && error[0] < 0.01f, "and so is mobility");
    printf("mobility: ridge %g, r2 %g, inexact %u of 3\n", a.ridge, a.r2, a.inexact);
    a = zorkamai_retention_fit(
        peptide, 3, label, 3, q, 3, aligned, 3, letters, 7, offsets, 3, masses, 2, logs, 2,
        workspace, 7314, beta, 69);
    expect(a.status == 7, "offsets past the letters are refused");
    a = zorkamai_mobility_fit(
        peptide, 1, label + 2, 1, q, 1, charge, 1, mobility, 1, letters, 8, offsets, 3, masses, 2,
        workspace, 15250, beta, 100);
    expect(a.status == 8 && a.inexact == 0, "no row trains");
}

static void whole_run(void) {
    const uint32_t file[] = {0}, peptide[] = {0}, offsets[] = {0, 4};
    const int32_t label[] = {1};
    const float q[] = {0.001f}, rt[] = {10.0f}, mobility[] = {0.75f}, masses[] = {435.18f};
    const uint8_t charge[] = {2}, letters[] = "ACDK";
    const double logs[] = {log1p(435.18f)};
    static double workspace[15250];
    double retention_beta[69], mobility_beta[100];
    float max_rt[1], slope[1], intercept[1], aligned[1], time[1], time_error[1], ims[1], ims_error[1];
    uint32_t used[1];
    bool max_rt_exact[1], slope_exact[1], intercept_exact[1];

    zorkamai_run_report r = zorkamai_run(
        file, 1, peptide, 1, label, 1, q, 1, rt, 1, charge, 1, mobility, 1, 1, letters, 4, offsets, 2,
        masses, 1, logs, 1, workspace, 15250, max_rt, 1, slope, 1, intercept, 1, used, 1,
        max_rt_exact, 1, slope_exact, 1, intercept_exact, 1, aligned, 1,
        retention_beta, 69, time, 1, time_error, 1, mobility_beta, 100, ims, 1, ims_error, 1);
    expect(r.status == 0 && r.retention.status == 0 && r.mobility.status == 0, "both models fit");
    expect(r.retention.n == 1 && r.mobility.n == 1, "to the one row");
    expect(max_rt[0] == 10.0f && aligned[0] == 1.0f, "whose time is the longest");
    expect(used[0] == 1, "and whose peptide carries the file's line");
    expect(time_error[0] < 0.01f && ims_error[0] < 0.01f, "and predict it");
    expect(max_rt_exact[0] && slope_exact[0] && intercept_exact[0], "longest 10, slope 0 and intercept 1 are exact");
    r = zorkamai_run(
        file, 1, peptide, 1, label, 1, q, 1, rt, 1, charge, 1, mobility, 1, 1, letters, 4, offsets, 2,
        masses, 1, logs, 1, workspace, 15249, max_rt, 1, slope, 1, intercept, 1, used, 1,
        max_rt_exact, 1, slope_exact, 1, intercept_exact, 1, aligned, 1,
        retention_beta, 69, time, 1, time_error, 1, mobility_beta, 100, ims, 1, ims_error, 1);
    expect(r.status == 3 && r.retention.status == 3, "15,249 cells of work room are too few");
    expect(r.retention.inexact == 0 && r.mobility.inexact == 0, "and nothing is counted");
}

static void column(void) {
    const double cells[] = {1, 2, 3, 4, 5, 6};
    double sum = 0.0;
    zorkamai_cell_answer step = zorkamai_column_step(cells, LEN(cells), 3, 2, 0, 1);
    while (step.found) {
        sum += step.value;
        step = zorkamai_column_step(cells, LEN(cells), 3, 2, step.row, 1);
    }
    expect(sum == 12.0, "column 1 holds 2, 4 and 6");
}

static void solver(void) {
    const double left[] = {-1E-8}, right[] = {5.0};
    double workspace[2], solution[1];
    zorkamai_answer a = zorkamai_solve(left, 1, right, 1, 1, 1, workspace, 2, solution, 1);
    expect(a.status == 0 && a.ridge == 1E-8 && solution[0] == 5.0, "left -1E-8, right 5 is solved");
    const double negative[] = {-1.0, 0.0, 0.0, 1.0}, ones[] = {1.0, 1.0};
    double room[6], pair[2];
    a = zorkamai_solve(negative, 4, ones, 2, 2, 1, room, 6, pair, 2);
    expect(a.status == 9, "the diagonal -1, 1 is not");
    expect(zorkamai_solve(left, 1, right, 1, 0, 1, room, 6, pair, 2).status == 1, "n * n is not 1");
}

int main(void) {
    alignment();
    models();
    whole_run();
    column();
    solver();
    printf(failures ? "%d NOT SO\n" : "all as expected\n", failures);
    return failures != 0;
}
