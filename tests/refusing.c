/* Makes each allocation of a program fail, in one run of it: loaded before the C library, it forks the program at each call of
 * malloc and realloc, or, after the first calls, at a sample of them, of which EVERY in the environment says how large it is.
 * In one child this call fails, in another this call and all after it. What each child wrote, its status, and
 * what became of the file OUT is appended to the file LOG, as "CALL LATER STATUS OUT ERR FILE\n" and then the bytes of its
 * output, of its errors and of the file, whose numbers these are. Afterwards all is as it was, and the program goes on. Its output,
 * its errors and its input must be files. */
#define _GNU_SOURCE
#include <dlfcn.h>
#include <errno.h>
#include <fcntl.h>
#include <stdio.h>
#include <stdlib.h>
#include <string.h>
#include <sys/mman.h>
#include <sys/wait.h>
#include <unistd.h>

enum { MOST_FILES = 64, MOST_BYTES = 1 << 20, FIRST = 20 };
static enum { LATER, DRIVER, ONE, ALL } role;
static int log_file;
static unsigned long calls, every = 1;
static const char *out_path;

__attribute__((constructor)) static void begin(void) {
    const char *path = getenv("LOG");
    out_path = getenv("OUT");
    if (getenv("EVERY")) every = strtoul(getenv("EVERY"), 0, 10);
    if (!path) return;
    log_file = fcntl(open(path, O_WRONLY | O_CREAT | O_APPEND, 0600), F_DUPFD, MOST_FILES);
    role = DRIVER;
}

/* a copy of what was written to a file so far, for a child to write on */
static int copy_of(int file) {
    static char bytes[MOST_BYTES];
    int copy = memfd_create("copy", 0);
    ssize_t size = pread(file, bytes, lseek(file, 0, SEEK_CUR), 0);
    if (size > 0 && write(copy, bytes, size) != size) abort();
    return copy;
}

/* reads a whole file; returns how many bytes it has */
static ssize_t read_out(char *bytes) {
    int file = out_path ? open(out_path, O_RDONLY) : -1;
    ssize_t size = file < 0 ? 0 : pread(file, bytes, MOST_BYTES, 0);
    if (file >= 0) close(file);
    return size;
}

static void restore_out(const char *bytes, ssize_t size) {
    int file = open(out_path, O_WRONLY | O_TRUNC);
    if (file < 0 || write(file, bytes, size) != size) abort();
    close(file);
}

static void append(int file) {
    static char bytes[MOST_BYTES];
    ssize_t size = pread(file, bytes, MOST_BYTES, 0);
    if (write(log_file, bytes, size) != size) abort();
    close(file);
}

/* forks; returns 1 in the child, and 0 once it has ended */
static int forks(int later) {
    static char before[MOST_BYTES], after[MOST_BYTES];
    off_t places[MOST_FILES];
    for (int file = 0; file < MOST_FILES; file++) places[file] = lseek(file, 0, SEEK_CUR);
    ssize_t size = read_out(before);
    int out = copy_of(1), err = copy_of(2), status;
    pid_t child = fork();
    if (!child) {
        role = later ? ALL : ONE;
        alarm(60);
        dup2(out, 1);
        dup2(err, 2);
        close(out);
        close(err);
        return 1;
    }
    waitpid(child, &status, 0);
    for (int file = 0; file < MOST_FILES; file++)
        if (places[file] >= 0) lseek(file, places[file], SEEK_SET);
    ssize_t size_after = read_out(after);
    dprintf(log_file, "%lu %d %d %ld %ld %zd\n", calls, later, WIFEXITED(status) ? WEXITSTATUS(status) : -WTERMSIG(status),
            (long)lseek(out, 0, SEEK_END), (long)lseek(err, 0, SEEK_END), size_after);
    append(out);
    append(err);
    if (write(log_file, after, size_after) != size_after) abort();
    if (out_path && (size != size_after || memcmp(before, after, size))) restore_out(before, size);
    return 0;
}

static int is_refused(void) {
    if (role == ALL) return 1;
    if (role != DRIVER) return 0;
    int before = errno;
    /* one in `every`, in no order that a loop of the program has */
    if (++calls > FIRST && (calls * 2654435761u >> 7) % every) return 0;
    role = LATER;
    if (forks(0) || forks(1)) return 1;
    role = DRIVER;
    errno = before;
    return 0;
}

void *malloc(size_t size) {
    static void *(*real)(size_t);
    if (!real) real = dlsym(RTLD_NEXT, "malloc");
    if (is_refused()) { errno = ENOMEM; return 0; }
    return real(size);
}

void *realloc(void *block, size_t size) {
    static void *(*real)(void *, size_t);
    if (!real) real = dlsym(RTLD_NEXT, "realloc");
    if (is_refused()) { errno = ENOMEM; return 0; }
    return real(block, size);
}
