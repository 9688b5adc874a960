/* The C interface of Pensummer: matching two trees under a weight table, in one call or as a job in slices, writing and
 * checking a certificate of optimality, and how much memory to lend for it. Link with libpensummer.a, which
 * `tools/archive` makes. docs/FORMAT.md has the bytes of a table, a tree and a certificate, with an example of each, and
 * what each refusal means.
 *
 * Every buffer is a pointer and a count of elements. No pointer is null, not even for a count of 0, and each is aligned
 * for its type; the same holds for a job's record. All of it is initialised, and no one else writes to it during a
 * call. What a call writes overlaps nothing else that it is lent; what it only reads may be the same twice. `table`,
 * `recorded` and `found` are bytes in the formats of paper 01, and of paper 02, [3], for trees with serials: a weight
 * table, the tree recorded at commissioning (n vertices) and the one found (m vertices). No function asks anything of
 * their content, keeps a pointer, allocates, or reads or writes past an end.
 *
 * A refusal number is 0 where the call was carried out, else the number of the first item that applies among those that
 * the call tests, in its order: items 1 to 24 are those of paper 01, "Why a call is turned down", 25 and 26 those of
 * paper 02, [3]. A call that tests 7 tests 25 next, and one that tests 12 tests 26 next. A call that is refused changes
 * nothing that it was lent.
 *
 * A recorded and a found vertex whose serials are both known (not 0) and differ are a forbidden pair, whatever the
 * table says.
 *
 * An edge with label PENSUMMER_DIRECTED_FROM or greater is directed (paper 02, [6]): it runs from the end that is
 * written first, upstream, to the other. It pairs only with a directed edge, upstream end with upstream end; any other
 * pair of a directed edge is forbidden, whatever the table says. Which end of any other edge is written first carries
 * no meaning.
 *
 * Work numbers, and the mapping or certificate that a call writes, may have more room than needed: what lies behind is
 * left as it was. A table, a tree, and a certificate that is checked are refused if their count is not exactly their
 * length: to check what was written, pass the length that was given back.
 *
 * The calls need stack: measured on x86-64, the most was 35,288 bytes, for two equal paths of 64 vertices
 * (README.md, "For firmware", has each call's). That is no proved limit: leave room.
 *
 * There are n(3m - 2) subproblems, never more than 12,160. */
#ifndef PENSUMMER_H
#define PENSUMMER_H

#include <stddef.h>
#include <stdint.h>

#ifdef __cplusplus
extern "C" {
#endif

/* ---- limits; rust/pensummer/tests/header.rs holds these and the items against the Rust crate */

/* A tree has no more vertices, so that no mapping is longer. */
#define PENSUMMER_VERTICES_MOST 64
/* A vertex has no more edges. */
#define PENSUMMER_DEGREE_MOST 8
/* A table has no more vertex labels (K). */
#define PENSUMMER_VERTEX_LABELS_MOST 32
/* A table has no more edge labels (L). */
#define PENSUMMER_EDGE_LABELS_MOST 8
/* An edge with this label or a greater one is directed. */
#define PENSUMMER_DIRECTED_FROM 4
/* A weight is no greater, and no less than its negative, unless it is the forbidden number. */
#define PENSUMMER_WEIGHT_MOST 16000000
/* No value is greater and no mapping is heavier: the greatest weight for every vertex and edge of a tree. */
#define PENSUMMER_VALUE_MOST ((2 * PENSUMMER_VERTICES_MOST - 1) * PENSUMMER_WEIGHT_MOST)
/* The forbidden number, -2,147,483,648: the weight of a pair that no mapping may have, and its subproblems' value. It
 * is INT32_MIN, in a form that every C and C++ takes, in an #if too. */
#define PENSUMMER_FORBIDDEN (-2147483647 - 1)
/* The partner of a vertex without one. */
#define PENSUMMER_NONE 255
/* A table is never longer, in bytes: 4 + K(2 + 4K) + L(2 + 4L). */
#define PENSUMMER_TABLE_MOST                                                                                           \
    (4 + PENSUMMER_VERTEX_LABELS_MOST * (2 + 4 * PENSUMMER_VERTEX_LABELS_MOST) +                                       \
     PENSUMMER_EDGE_LABELS_MOST * (2 + 4 * PENSUMMER_EDGE_LABELS_MOST))
/* A tree is never longer, in bytes: 12n - 2, with serials; without them it has 8n - 2. */
#define PENSUMMER_TREE_MOST (12 * PENSUMMER_VERTICES_MOST - 2)
/* There are never more work numbers to lend: n(3m - 2). */
#define PENSUMMER_WORK_MOST (PENSUMMER_VERTICES_MOST * (3 * PENSUMMER_VERTICES_MOST - 2))
/* A certificate is never longer, in bytes. docs/FORMAT.md says how this follows from the limits above. */
#define PENSUMMER_CERTIFICATE_MOST 278736

/* ---- refusals: the items in the order in which they are tested, but for the last two. 0 says that the call was
 * carried out. */

/* The table's length, a mark, or its number of labels is wrong. */
#define PENSUMMER_TABLE_FORM 1
/* A weight of the table is out of range and not the forbidden number. */
#define PENSUMMER_TABLE_WEIGHT 2
/* The recorded tree's length, a mark, or its number of vertices is wrong. */
#define PENSUMMER_RECORDED_FORM 3
/* A vertex or edge label of the recorded tree is not in the table. */
#define PENSUMMER_RECORDED_LABEL 4
/* An edge of the recorded tree names a vertex that is not there. */
#define PENSUMMER_RECORDED_END 5
/* An edge of the recorded tree closes a loop. */
#define PENSUMMER_RECORDED_LOOP 6
/* A vertex of the recorded tree has more than 8 edges. */
#define PENSUMMER_RECORDED_DEGREE 7
/* The found tree's length, a mark, or its number of vertices is wrong. */
#define PENSUMMER_FOUND_FORM 8
/* A vertex or edge label of the found tree is not in the table. */
#define PENSUMMER_FOUND_LABEL 9
/* An edge of the found tree names a vertex that is not there. */
#define PENSUMMER_FOUND_END 10
/* An edge of the found tree closes a loop. */
#define PENSUMMER_FOUND_LOOP 11
/* A vertex of the found tree has more than 8 edges. */
#define PENSUMMER_FOUND_DEGREE 12
/* Fewer than n(3m - 2) work numbers are lent. */
#define PENSUMMER_WORK_SHORT 13
/* The job's record is idle, or its numbers are out of range. */
#define PENSUMMER_JOB_RECORD 14
/* The job's record is of trees of other sizes. */
#define PENSUMMER_JOB_TREES 15
/* A work number before the position is none that a job stores. */
#define PENSUMMER_WORK_NUMBER 16
/* The job has subproblems left. */
#define PENSUMMER_JOB_UNFINISHED 17
/* The mapping buffer is shorter than n bytes. */
#define PENSUMMER_MAPPING_SHORT 18
/* The certificate buffer is shorter than the certificate. */
#define PENSUMMER_CERTIFICATE_SHORT 19
/* The certificate's length, a mark, or a number of vertices is wrong. */
#define PENSUMMER_CERTIFICATE_FORM 20
/* The certificate's mapping breaks a rule. */
#define PENSUMMER_CERTIFICATE_MAPPING 21
/* The certificate's weight is not its mapping's. */
#define PENSUMMER_CERTIFICATE_WEIGHT 22
/* A subproblem record of the certificate breaks a rule. */
#define PENSUMMER_CERTIFICATE_RECORD 23
/* The certificate's weight is not the greater of 0 and its largest value with s = v. */
#define PENSUMMER_CERTIFICATE_ANSWER 24
/* A known serial stands twice in the recorded tree. Tested after 7. */
#define PENSUMMER_RECORDED_SERIAL 25
/* A known serial stands twice in the found tree. Tested after 12. */
#define PENSUMMER_FOUND_SERIAL 26

/* ---- answers and the job's record */

/* refusal: as above; weight: the mapping's, 0 where the call was refused. A match gives none below 0; a finish over
 * altered work numbers may. */
struct pensummer_match_result {
    uint32_t refusal;
    int32_t weight;
};

/* A job's state. It belongs to the caller, who lends it to each call. Any bytes may stand in it: 0 in `idle` says that
 * the record is not idle, any other number that it is. */
struct pensummer_job {
    uint32_t idle, n, m, position, total;
};

/* count: the subproblems that this call solved, 0 where it was refused. */
struct pensummer_advance_result {
    uint32_t refusal;
    uint32_t count;
};

/* length: the certificate's, in bytes, 0 where the call was refused. */
struct pensummer_write_result {
    uint32_t refusal;
    uint32_t length;
};

/* How much to lend: how many subproblems there are, how many work numbers are wanted, and a certificate's length in
 * bytes; 0 each where the call was refused. */
struct pensummer_sizes_result {
    uint32_t refusal;
    uint32_t subproblems;
    uint32_t work;
    uint32_t certificate;
};

/* ---- calls */

/* How much to lend for this table and these trees, so that memory can be set aside first. Tests 1 to 12, 25 and 26.
 * Solves nothing, and is lent nothing but what it reads. Where it is not refused, of the other calls on the same table
 * and trees:
 *
 * - with `work` work numbers or more none is refused by 13, and with fewer each is that tests it;
 * - the counts of a job's advances, over memory that nothing but the job's own calls has changed since the start, add
 *   up to `subproblems` when nothing is left to solve, and to less before;
 * - with a buffer of `certificate` bytes or more no writing is refused by 19, and with fewer each is that is not refused
 *   by 13; a writing that is carried out gives back this length, and a certificate of any other is refused by 20;
 * - a mapping takes n bytes. */
struct pensummer_sizes_result pensummer_sizes(const uint8_t *table, size_t table_len,
                                              const uint8_t *recorded, size_t recorded_len,
                                              const uint8_t *found, size_t found_len);

/* The match in one call. Tests 1 to 13, 18, 25 and 26. Leaves all values in order in the first n(3m - 2) work numbers,
 * and in the first n bytes of `mapping` a heaviest mapping: for each recorded vertex its partner, or 255. The weight is
 * that mapping's, and no mapping weighs more. */
struct pensummer_match_result pensummer_match(const uint8_t *table, size_t table_len,
                                              const uint8_t *recorded, size_t recorded_len,
                                              const uint8_t *found, size_t found_len,
                                              int32_t *work, size_t work_len,
                                              uint8_t *mapping, size_t mapping_len);

/* A fresh job record: 1 in `idle`, 0 in the others. */
struct pensummer_job pensummer_fresh(void);

/* Begins a job, also over an earlier one; a caller's first record is a fresh one. Tests 1 to 13, 25 and 26; gives the
 * refusal number. Clears the idle mark, sets n and m to the trees' vertex counts and the position to 0; the total and
 * all work numbers stay. */
uint32_t pensummer_start(struct pensummer_job *job,
                         const uint8_t *table, size_t table_len,
                         const uint8_t *recorded, size_t recorded_len,
                         const uint8_t *found, size_t found_len,
                         const int32_t *work, size_t work_len);

/* Solves the smaller of `budget` and what is left. Tests 1 to 16, 25 and 26. Fills exactly that many work numbers, from
 * the position on, each with its subproblem's value by the numbers before it, as lent or as this call has filled them,
 * and at most PENSUMMER_VALUE_MOST; adds the count to the position and to the total, which stops at 4,294,967,295. */
struct pensummer_advance_result pensummer_advance(struct pensummer_job *job,
                                                  const uint8_t *table, size_t table_len,
                                                  const uint8_t *recorded, size_t recorded_len,
                                                  const uint8_t *found, size_t found_len,
                                                  uint32_t budget,
                                                  int32_t *work, size_t work_len);

/* Reads the mapping of a job whose subproblems are all solved. Tests 1 to 18, 25 and 26. Leaves a mapping in the first
 * n bytes of `mapping`, and gives its exact weight; over memory that nothing but the job's own calls has changed since
 * the start, it is a heaviest one. That memory is the table, the two trees, the record and the first n(3m - 2) work
 * numbers: what lies behind them may be another in each call, and of another length. Changes no record. */
struct pensummer_match_result pensummer_finish(const struct pensummer_job *job,
                                               const uint8_t *table, size_t table_len,
                                               const uint8_t *recorded, size_t recorded_len,
                                               const uint8_t *found, size_t found_len,
                                               const int32_t *work, size_t work_len,
                                               uint8_t *mapping, size_t mapping_len);

/* Writes a certificate into the front of `certificate`. Tests 1 to 13, 19, 25 and 26. Leaves all values in order in the
 * first n(3m - 2) work numbers. The certificate holds a heaviest mapping, its weight and all values, and the check
 * accepts it. */
struct pensummer_write_result pensummer_write(const uint8_t *table, size_t table_len,
                                              const uint8_t *recorded, size_t recorded_len,
                                              const uint8_t *found, size_t found_len,
                                              int32_t *work, size_t work_len,
                                              uint8_t *certificate, size_t certificate_len);

/* Checks a certificate, whoever wrote it. Tests 1 to 12 and 20 to 26; gives the refusal number, 0 for accepted. Where
 * it is accepted, the mapping in it is a heaviest one and the weight in it is that mapping's. */
uint32_t pensummer_check(const uint8_t *table, size_t table_len,
                         const uint8_t *recorded, size_t recorded_len,
                         const uint8_t *found, size_t found_len,
                         const uint8_t *certificate, size_t certificate_len);

#ifdef __cplusplus
}
#endif

#endif
