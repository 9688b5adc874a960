/* Calls every function of include/pensummer.h from C, on small plant 3 of paper 01, without serials and with them, and prints what each gives
 * and leaves. tests/office/run compares the lines. */
#include "../../include/pensummer.h"

#include <stdio.h>

#define LEN(a) (sizeof(a) / sizeof(a)[0])
#define PLANT table, LEN(table), recorded, LEN(recorded), found, LEN(found)

static const uint8_t table[] = {0xB1, 4, 2, 1, 0xB1, 5, 5, 0, 0, 0, 0xFE, 0xFF, 0xFF, 0xFF, 0xB1, 5, 0xFE, 0xFF, 0xFF, 0xFF, 3, 0, 0, 0, 0xB1, 6, 1, 0, 0, 0};
static const uint8_t recorded[] = {0xB1, 1, 2, 0xB1, 2, 0, 0xB1, 2, 1, 0xB1, 3, 0, 1, 0};
static const uint8_t found[] = {0xB1, 1, 2, 0xB1, 2, 1, 0xB1, 2, 0, 0xB1, 3, 0, 1, 0};

/* The same with serials, 7 and 8, 9 and 7, which leave vertex 0 on 1 as the only pair; and a tree in which one stands twice. */
static const uint8_t serials[] = {0xB1, 1, 2, 0xB1, 7, 0, 7, 0, 0, 0, 0xB1, 7, 1, 8, 0, 0, 0, 0xB1, 3, 0, 1, 0};
static const uint8_t others[] = {0xB1, 1, 2, 0xB1, 7, 1, 9, 0, 0, 0, 0xB1, 7, 0, 7, 0, 0, 0, 0xB1, 3, 0, 1, 0};
static const uint8_t twice[] = {0xB1, 1, 2, 0xB1, 7, 0, 7, 0, 0, 0, 0xB1, 7, 1, 7, 0, 0, 0, 0xB1, 3, 0, 1, 0};

static int32_t work[9];
static uint8_t mapping[3], certificate[200];

static void clear(void) {
    for (size_t i = 0; i < LEN(work); i++) work[i] = 77;
    for (size_t i = 0; i < LEN(mapping); i++) mapping[i] = 88;
}

static void show_work(void) {
    printf("work");
    for (size_t i = 0; i < LEN(work); i++) printf(" %d", (int)work[i]);
    printf("\n");
}

static void show_match(const char *call, struct pensummer_match_result r) {
    printf("%s %u %d mapping %u %u %u\n", call, (unsigned)r.refusal, (int)r.weight, mapping[0], mapping[1], mapping[2]);
}

static void show_job(const char *call, unsigned refusal, const struct pensummer_job *j) {
    printf("%s %u job %u %u %u %u %u\n", call, refusal, (unsigned)j->idle, (unsigned)j->n, (unsigned)j->m, (unsigned)j->position, (unsigned)j->total);
}

static void show_sizes(struct pensummer_sizes_result s) {
    printf("sizes %u %u %u %u\n", (unsigned)s.refusal, (unsigned)s.subproblems, (unsigned)s.work, (unsigned)s.certificate);
}

/* What every call gives for a recorded and a found tree with serials. The job's record says that all is solved. */
static void all_calls(const uint8_t *first, size_t first_len, const uint8_t *second, size_t second_len) {
    struct pensummer_job job = {0, 2, 2, 8, 40};
    show_sizes(pensummer_sizes(table, LEN(table), first, first_len, second, second_len));
    show_match("match", pensummer_match(table, LEN(table), first, first_len, second, second_len, work, LEN(work), mapping, LEN(mapping)));
    show_work();
    struct pensummer_advance_result a = pensummer_advance(&job, table, LEN(table), first, first_len, second, second_len, 9, work, LEN(work));
    show_job("advance", a.refusal, &job);
    show_match("finish", pensummer_finish(&job, table, LEN(table), first, first_len, second, second_len, work, LEN(work), mapping, LEN(mapping)));
    struct pensummer_write_result w = pensummer_write(table, LEN(table), first, first_len, second, second_len, work, LEN(work), certificate, LEN(certificate));
    printf("write %u %u\n", (unsigned)w.refusal, (unsigned)w.length);
    printf("check %u\n", (unsigned)pensummer_check(table, LEN(table), first, first_len, second, second_len, certificate, w.length));
    show_job("start", pensummer_start(&job, table, LEN(table), first, first_len, second, second_len, work, LEN(work)), &job);
}

int main(void) {
    printf("structs %zu %zu %zu %zu %zu\n", sizeof(struct pensummer_job), sizeof(struct pensummer_match_result), sizeof(struct pensummer_advance_result),
           sizeof(struct pensummer_write_result), sizeof(struct pensummer_sizes_result));

    struct pensummer_sizes_result sizes = pensummer_sizes(PLANT);
    show_sizes(sizes);
    show_sizes(pensummer_sizes(table, LEN(table) - 1, recorded, LEN(recorded), found, LEN(found)));
    show_sizes(pensummer_sizes(table, LEN(table), recorded, LEN(recorded), table, LEN(table)));

    clear();
    show_match("match", pensummer_match(PLANT, work, LEN(work), mapping, LEN(mapping)));
    show_work();
    clear();
    show_match("match", pensummer_match(PLANT, work, sizes.work - 1, mapping, LEN(mapping)));
    show_match("match", pensummer_match(PLANT, work, LEN(work), mapping, 1));
    show_work();

    struct pensummer_job job = pensummer_fresh();
    show_job("fresh", 0, &job);
    struct pensummer_advance_result a = pensummer_advance(&job, PLANT, 5, work, LEN(work));
    show_job("advance", a.refusal, &job);
    job.total = 4294967290u;
    show_job("start", pensummer_start(&job, PLANT, work, sizes.work - 1), &job);
    show_job("start", pensummer_start(&job, PLANT, work, LEN(work)), &job);
    a = pensummer_advance(&job, PLANT, 5, work, LEN(work));
    printf("count %u\n", (unsigned)a.count);
    show_job("advance", a.refusal, &job);
    show_work();
    show_match("finish", pensummer_finish(&job, PLANT, work, LEN(work), mapping, LEN(mapping)));
    a = pensummer_advance(&job, PLANT, 4294967295u, work, LEN(work));
    printf("count %u\n", (unsigned)a.count);
    show_job("advance", a.refusal, &job);
    show_work();
    show_match("finish", pensummer_finish(&job, PLANT, work, LEN(work), mapping, LEN(mapping)));

    clear();
    struct pensummer_write_result w = pensummer_write(PLANT, work, LEN(work), certificate, sizes.certificate - 1);
    printf("write %u %u\n", (unsigned)w.refusal, (unsigned)w.length);
    show_work();
    certificate[sizes.certificate] = 99;
    w = pensummer_write(PLANT, work, LEN(work), certificate, LEN(certificate));
    printf("write %u %u tail %u\n", (unsigned)w.refusal, (unsigned)w.length, certificate[sizes.certificate]);
    show_work();
    printf("check %u %u\n", (unsigned)pensummer_check(PLANT, certificate, w.length), (unsigned)pensummer_check(PLANT, certificate, LEN(certificate)));

    clear();
    all_calls(twice, LEN(twice), found, LEN(found));
    all_calls(recorded, LEN(recorded), twice, LEN(twice));
    all_calls(twice, LEN(twice), twice, LEN(twice));
    all_calls(twice, LEN(twice), serials, LEN(serials) - 1);
    all_calls(serials, LEN(serials), others, LEN(others));
    return 0;
}
