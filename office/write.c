/* write TABLE RECORDED FOUND CERTIFICATE: writes a certificate for the first three files as the fourth. One of the
 * three may be `-`, standard input, and the fourth may be `-`, standard output. Prints `written` and its length in
 * bytes, or `refused` and the item's number; then it leaves the fourth as it was and says on standard error what the
 * item says. Where the certificate goes to standard output, all of this is printed on standard error. Ends with 0 if
 * written, 1 if refused, 2 if a file cannot be read or written, if there is not enough memory, if the fourth is one of
 * the others, or if nothing can be printed. */
#include "files.h"
#include "items.h"
#include "../include/pensummer.h"

#include <stdlib.h>

static int refused(FILE *speak, uint32_t item) {
    fprintf(speak, "refused %u\n", (unsigned)item);
    said("write", speak);
    fprintf(stderr, "write: %s\n", item_sentence(item));
    return 1;
}

int main(int argc, char **argv) {
    if (argc != 5) {
        fputs("usage: write TABLE RECORDED FOUND CERTIFICATE\n", stderr);
        return 2;
    }
    keep_apart("write", argv + 1, 3, argv[4]);
    one_input("write", argv + 1, 3);
    struct plant plant = read_plant("write", argv + 1);
    FILE *speak = speech(argv[4]);
    /* what it refuses, a writing would refuse by the same item */
    struct pensummer_sizes_result sizes = pensummer_sizes(LEND(plant));
    if (sizes.refusal != 0) return refused(speak, sizes.refusal);
    int32_t *work = calloc(sizes.work, sizeof *work);
    uint8_t *certificate = calloc(sizes.certificate, 1);
    if (work == NULL || certificate == NULL) {
        fputs("write: there is not enough memory\n", stderr);
        return 2;
    }
    struct pensummer_write_result r = pensummer_write(LEND(plant), work, sizes.work, certificate, sizes.certificate);
    if (r.refusal != 0) return refused(speak, r.refusal);
    write_file("write", argv[4], certificate, r.length);
    fprintf(speak, "written %u\n", (unsigned)r.length);
    said("write", speak);
    return 0;
}
