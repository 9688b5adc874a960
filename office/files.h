/* Reading and writing whole files, for the office's programs. `-` is standard input or standard output. */
#ifndef OFFICE_FILES_H
#define OFFICE_FILES_H

#include <stddef.h>
#include <stdint.h>
#include <stdio.h>

struct bytes {
    uint8_t *at;
    size_t len;
};

/* The table, the recorded tree and the found tree. */
struct plant {
    struct bytes table, recorded, found;
};

/* A plant as the arguments that every call begins with. */
#define LEND(p) (p).table.at, (p).table.len, (p).recorded.at, (p).recorded.len, (p).found.at, (p).found.len

/* Ends the program with a message and status 2 if more than one of the `count` files that it reads is `-`. */
void one_input(const char *program, char **names, int count);

/* Reads a file: its bytes, but no more than one over `longest`, since a longer file is refused by its length all the
 * same. Ends the program with a message and status 2 if it cannot be read. `at` is never null. */
struct bytes read_file(const char *program, const char *name, size_t longest);

/* Reads the three files of a plant. */
struct plant read_plant(const char *program, char **names);

/* Where a program speaks that writes to `name`: standard error if that is standard output, `-` or by another name. */
FILE *speech(const char *name);

/* Ends the program with a message and status 2 if `output` is one of the files that are read. */
void keep_apart(const char *program, char **inputs, int count, const char *output);

/* Writes these bytes to `name`. A regular file, or one that is not there yet, is left whole or as it was: the bytes are
 * written beside it, brought to the disk and moved into its place. Symbolic links are followed and stay, the file's
 * mode stays, and a file that may not be written is not replaced; another name of it (a hard link) keeps the old bytes.
 * Anything else, as a device, a FIFO or a descriptor, is opened and written to. Ends the program with a message and
 * status 2 if that fails, with nothing left beside the file. */
void write_file(const char *program, const char *name, const uint8_t *at, size_t len);

/* Sends what was said on its way. Ends the program with a message and status 2 if it cannot be. */
void said(const char *program, FILE *to);

#endif
