/* Reading and writing whole files, for the office's programs. */
#define _POSIX_C_SOURCE 200809L
#include "files.h"
#include "../include/pensummer.h"

#include <errno.h>
#include <fcntl.h>
#include <signal.h>
#include <stdlib.h>
#include <string.h>
#include <sys/stat.h>
#include <unistd.h>

#define LINKS_MOST 40
#define LINK_LONGEST 4096
#define BESIDE ".pensummer.XXXXXX"

static void give_up(const char *program, const char *name) {
    fprintf(stderr, "%s: %s: %s\n", program, name, strerror(errno));
    exit(2);
}

static int is_dash(const char *name) {
    return strcmp(name, "-") == 0;
}

struct bytes read_file(const char *program, const char *name, size_t longest) {
    struct bytes b = {malloc(longest + 1), 0};
    FILE *file = b.at == NULL ? NULL : is_dash(name) ? stdin : fopen(name, "rb");
    if (file == NULL) give_up(program, name);
    b.len = fread(b.at, 1, longest + 1, file);
    if (ferror(file)) give_up(program, name);
    fclose(file);
    return b;
}

void one_input(const char *program, char **names, int count) {
    int dashes = 0;
    for (int i = 0; i < count; i++) dashes += is_dash(names[i]);
    if (dashes <= 1) return;
    fprintf(stderr, "%s: -: standard input is only one of the files\n", program);
    exit(2);
}

struct plant read_plant(const char *program, char **names) {
    struct plant p;
    p.table = read_file(program, names[0], PENSUMMER_TABLE_MOST);
    p.recorded = read_file(program, names[1], PENSUMMER_TREE_MOST);
    p.found = read_file(program, names[2], PENSUMMER_TREE_MOST);
    return p;
}

/* Whether `name` is standard output, so that what is said there would get among the bytes. On a character device, as
 * /dev/null or a terminal, it may. */
static int is_output(const char *name) {
    struct stat named, output;
    if (is_dash(name)) return 1;
    return stat(name, &named) == 0 && fstat(STDOUT_FILENO, &output) == 0 && !S_ISCHR(named.st_mode) &&
           named.st_dev == output.st_dev && named.st_ino == output.st_ino;
}

FILE *speech(const char *name) {
    return is_output(name) ? stderr : stdout;
}

/* Writes all bytes; 0 if that fails. */
static int put(int to, const uint8_t *at, size_t len) {
    while (len > 0) {
        ssize_t done = write(to, at, len);
        if (done < 0 && errno == EINTR) continue;
        if (done < 0) return 0;
        at += done;
        len -= (size_t)done;
    }
    return 1;
}

/* Writes all bytes to an open file and closes it. */
static void put_and_close(const char *program, const char *name, int to, const uint8_t *at, size_t len) {
    if (to < 0 || !put(to, at, len) || close(to) != 0) give_up(program, name);
}

/* The folder part of `path`, with its last slash if it has one, and then `last`, as new memory. */
static char *beside(const char *program, const char *path, const char *last) {
    const char *slash = strrchr(path, '/');
    size_t folder = slash == NULL ? 0 : (size_t)(slash - path) + 1;
    char *both = malloc(folder + strlen(last) + 1);
    if (both == NULL) give_up(program, path);
    memcpy(both, path, folder);
    strcpy(both + folder, last);
    return both;
}

/* Whether `path` names an open file of a process, which no other file can take the place of. */
static int is_descriptor(const char *path) {
    return (strncmp(path, "/proc/", 6) == 0 && strstr(path, "/fd/") != NULL) || strncmp(path, "/dev/fd/", 8) == 0;
}

/* Where the symbolic links that begin at `name` end: a path that is no link, there or not, or a descriptor's. */
static char *followed(const char *program, const char *name) {
    char *path = beside(program, "", name);
    for (int links = 0; !is_descriptor(path); links++) {
        char target[LINK_LONGEST];
        ssize_t length = readlink(path, target, sizeof target);
        if (length < 0) return path;
        if (links == LINKS_MOST || length == (ssize_t)sizeof target) {
            errno = links == LINKS_MOST ? ELOOP : ENAMETOOLONG;
            give_up(program, name);
        }
        target[length] = '\0';
        char *next = beside(program, target[0] == '/' ? "" : path, target);
        free(path);
        path = next;
    }
    return path;
}

/* Gives the open file `to` the mode of `old`, and its owner and group where that is allowed; the mode of a new file if
 * `old` is null. */
static int dress(int to, const struct stat *old) {
    if (old == NULL) {
        mode_t mask = umask(0);
        umask(mask);
        return fchmod(to, 0666 & ~mask) == 0;
    }
    if (fchown(to, old->st_uid, old->st_gid) != 0 && fchown(to, (uid_t)-1, old->st_gid) != 0) errno = 0;
    return fchmod(to, old->st_mode & 07777) == 0;
}

/* Puts a file of these bytes in the place of `path`. Signals that would end the program wait meanwhile, so that nothing
 * is left beside it. */
static void replace(const char *program, const char *name, const char *path, const struct stat *old,
                    const uint8_t *at, size_t len) {
    sigset_t stops, before;
    sigemptyset(&stops);
    sigaddset(&stops, SIGHUP);
    sigaddset(&stops, SIGINT);
    sigaddset(&stops, SIGQUIT);
    sigaddset(&stops, SIGTERM);
    sigprocmask(SIG_BLOCK, &stops, &before);
    char *made = beside(program, path, BESIDE);
    int to = mkstemp(made);
    if (to < 0) give_up(program, name);
    int whole = dress(to, old) && put(to, at, len) && fsync(to) == 0;
    int why = errno;
    if (close(to) != 0 && whole) {
        whole = 0;
        why = errno;
    }
    if (whole && rename(made, path) != 0) {
        whole = 0;
        why = errno;
    }
    if (!whole) {
        unlink(made);
        errno = why;
        give_up(program, name);
    }
    free(made);
    sigprocmask(SIG_SETMASK, &before, NULL);
}

void keep_apart(const char *program, char **inputs, int count, const char *output) {
    struct stat read, written;
    if (stat(output, &written) != 0 || !S_ISREG(written.st_mode)) return;
    for (int i = 0; i < count; i++) {
        int there = is_dash(inputs[i]) ? fstat(STDIN_FILENO, &read) : stat(inputs[i], &read);
        if (there == 0 && read.st_dev == written.st_dev && read.st_ino == written.st_ino) {
            fprintf(stderr, "%s: %s: this file is read and would be written over\n", program, output);
            exit(2);
        }
    }
}

void write_file(const char *program, const char *name, const uint8_t *at, size_t len) {
    /* a reader that has gone and a limit on file sizes are errors of a write, not the program's end */
    signal(SIGPIPE, SIG_IGN);
    signal(SIGXFSZ, SIG_IGN);
    if (is_output(name)) {
        put_and_close(program, name, dup(STDOUT_FILENO), at, len);
        return;
    }
    struct stat old;
    int there = stat(name, &old) == 0;
    if (!there && errno != ENOENT) give_up(program, name);
    if ((there && S_ISDIR(old.st_mode)) || (!there && name[0] != '\0' && name[strlen(name) - 1] == '/')) {
        errno = EISDIR;
        give_up(program, name);
    }
    char *path = followed(program, name);
    if (there && (!S_ISREG(old.st_mode) || is_descriptor(path))) {
        /* an open regular file is not overwritten from its start: the bytes go behind what its owner wrote */
        int how = S_ISREG(old.st_mode) ? O_APPEND : 0;
        put_and_close(program, name, open(name, O_WRONLY | O_NOCTTY | how), at, len);
    } else {
        if (name[0] == '\0' || (there && access(name, W_OK) != 0)) give_up(program, name);
        replace(program, name, path, there ? &old : NULL, at, len);
    }
    free(path);
}

void said(const char *program, FILE *to) {
    if (fflush(to) != 0 || ferror(to)) give_up(program, to == stdout ? "standard output" : "standard error");
}
