/* What each refusal says. The sentences are those of the Rust crate; rust/pensummer/tests/header.rs compares them. */
#include "items.h"
#include "../include/pensummer.h"

#include <stddef.h>

static const char *const sentences[] = {
    [PENSUMMER_TABLE_FORM] = "the table's length, a mark, or its number of labels is wrong",
    [PENSUMMER_TABLE_WEIGHT] = "a weight of the table is out of range and not the forbidden number",
    [PENSUMMER_RECORDED_FORM] = "the recorded tree's length, a mark, or its number of vertices is wrong",
    [PENSUMMER_RECORDED_LABEL] = "a vertex or edge label of the recorded tree is not in the table",
    [PENSUMMER_RECORDED_END] = "an edge of the recorded tree names a vertex that is not there",
    [PENSUMMER_RECORDED_LOOP] = "an edge of the recorded tree closes a loop",
    [PENSUMMER_RECORDED_DEGREE] = "a vertex of the recorded tree has more than 8 edges",
    [PENSUMMER_FOUND_FORM] = "the found tree's length, a mark, or its number of vertices is wrong",
    [PENSUMMER_FOUND_LABEL] = "a vertex or edge label of the found tree is not in the table",
    [PENSUMMER_FOUND_END] = "an edge of the found tree names a vertex that is not there",
    [PENSUMMER_FOUND_LOOP] = "an edge of the found tree closes a loop",
    [PENSUMMER_FOUND_DEGREE] = "a vertex of the found tree has more than 8 edges",
    [PENSUMMER_WORK_SHORT] = "too few work numbers are lent",
    [PENSUMMER_JOB_RECORD] = "the job's record is idle, or its numbers are out of range",
    [PENSUMMER_JOB_TREES] = "the job's record is of trees of other sizes",
    [PENSUMMER_WORK_NUMBER] = "a work number before the position is none that a job stores",
    [PENSUMMER_JOB_UNFINISHED] = "the job has subproblems left",
    [PENSUMMER_MAPPING_SHORT] = "the mapping buffer is too short",
    [PENSUMMER_CERTIFICATE_SHORT] = "the certificate buffer is too short",
    [PENSUMMER_CERTIFICATE_FORM] = "the certificate's length, a mark, or a number of vertices is wrong",
    [PENSUMMER_CERTIFICATE_MAPPING] = "the certificate's mapping breaks a rule",
    [PENSUMMER_CERTIFICATE_WEIGHT] = "the certificate's weight is not its mapping's",
    [PENSUMMER_CERTIFICATE_RECORD] = "a subproblem record of the certificate breaks a rule",
    [PENSUMMER_CERTIFICATE_ANSWER] = "the certificate's weight is not the greater of 0 and its largest value with s = v",
    [PENSUMMER_RECORDED_SERIAL] = "a known serial stands twice in the recorded tree",
    [PENSUMMER_FOUND_SERIAL] = "a known serial stands twice in the found tree",
};

const char *item_sentence(uint32_t refusal) {
    int known = refusal < sizeof sentences / sizeof sentences[0] && sentences[refusal] != NULL;
    return known ? sentences[refusal] : "no item has this number";
}
