/* check TABLE RECORDED FOUND CERTIFICATE: the office's check of a certificate, from four files; one of them may be `-`,
 * standard input. Prints `accepted`, or `refused` and the item's number, and then what the item says on standard error.
 * Ends with 0 if accepted, 1 if refused, 2 if a file cannot be read or nothing can be printed. */
#include "files.h"
#include "items.h"
#include "../include/pensummer.h"

int main(int argc, char **argv) {
    if (argc != 5) {
        fputs("usage: check TABLE RECORDED FOUND CERTIFICATE\n", stderr);
        return 2;
    }
    one_input("check", argv + 1, 4);
    struct plant plant = read_plant("check", argv + 1);
    struct pensummer_sizes_result sizes = pensummer_sizes(LEND(plant));
    struct bytes certificate = read_file("check", argv[4], sizes.certificate);
    uint32_t refusal = pensummer_check(LEND(plant), certificate.at, certificate.len);
    if (refusal == 0) {
        puts("accepted");
        said("check", stdout);
        return 0;
    }
    printf("refused %u\n", (unsigned)refusal);
    said("check", stdout);
    fprintf(stderr, "check: %s\n", item_sentence(refusal));
    return 1;
}
