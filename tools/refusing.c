// Loaded before a program by tools/refuse-memory. It runs the program again and again, each run in a process forked off before `main`: once as
// it is; then for each call of malloc and realloc of that run, by turns of REFUSE_EVERY from REFUSE_FROM on, once with that call refused, and
// once with it and all later ones. What standard input has is given to each run through a pipe of its own. Of each run a line goes to the file
// REFUSE_TO: the first call that was refused and the last (0 and 0 of the run as it is), the status as the shell has it, the bytes on standard
// output and on standard error; these bytes follow.
#define _GNU_SOURCE
#include <stdio.h>
#include <stdlib.h>
#include <sys/mman.h>
#include <sys/sendfile.h>
#include <sys/wait.h>
#include <unistd.h>

extern void *__libc_malloc(size_t);
extern void *__libc_realloc(void *, size_t);

// A run that has not ended after so many seconds is ended.
#define MOST_SECONDS 60
// The most bytes of standard input: a pipe takes as many before they are read.
#define MOST_INPUT 65536

// Which calls a run refuses, counted from 1, and how many it has made; shared with the process that forked it off.
struct run {
    unsigned long first;
    unsigned long last;
    unsigned long calls;
};

static struct run *run;
// (what is told is told without malloc, which is counted)
static char buffer[BUFSIZ];
static char input[MOST_INPUT + 1];
static size_t input_size;

static int refuses(void) {
    return run && ++run->calls >= run->first && run->calls <= run->last;
}

void *malloc(size_t size) {
    return refuses() ? NULL : __libc_malloc(size);
}

void *realloc(void *from, size_t size) {
    return refuses() ? NULL : __libc_realloc(from, size);
}

static unsigned long number(const char *name) {
    const char *word = getenv(name);
    return word ? strtoul(word, NULL, 10) : 0;
}

static int must(int is_well, const char *what) {
    if (!is_well) {
        perror(what);
        _exit(99);
    }
    return is_well;
}

static void copy(FILE *to, int from, off_t size) {
    off_t at = 0;
    while (at < size) {
        must(sendfile(fileno(to), from, &at, size - at) > 0, "sendfile");
    }
}

// Forks a run off, and returns in it with 1; in the process that waited for it, with 0, once it has told of it.
static int fork_off(FILE *told, int output, int errors, unsigned long first, unsigned long last) {
    *run = (struct run){.first = first, .last = last};
    must(lseek(output, 0, SEEK_SET) == 0 && lseek(errors, 0, SEEK_SET) == 0, "lseek");
    must(ftruncate(output, 0) == 0 && ftruncate(errors, 0) == 0, "ftruncate");
    int given[2], status = 0;
    must(pipe(given) == 0 && write(given[1], input, input_size) == (ssize_t)input_size && close(given[1]) == 0, "pipe");
    pid_t child = fork();
    if (child == 0) {
        must(dup2(given[0], 0) == 0 && close(given[0]) == 0 && dup2(output, 1) == 1 && dup2(errors, 2) == 2, "dup2");
        alarm(MOST_SECONDS);
        return 1;
    }
    must(close(given[0]) == 0 && child > 0 && waitpid(child, &status, 0) == child, "fork");
    off_t written = lseek(output, 0, SEEK_END), said = lseek(errors, 0, SEEK_END);
    fprintf(told, "%lu %lu %d %ld %ld\n", first, last, WIFEXITED(status) ? WEXITSTATUS(status) : 128 + WTERMSIG(status), (long)written, (long)said);
    fflush(told);
    copy(told, output, written);
    copy(told, errors, said);
    return 0;
}

__attribute__((constructor)) static void run_all(void) {
    const char *name = getenv("REFUSE_TO");
    unsigned long every = number("REFUSE_EVERY");
    FILE *told = name ? fopen(name, "w") : NULL;
    int output = memfd_create("output", MFD_CLOEXEC), errors = memfd_create("errors", MFD_CLOEXEC);
    must(told && !setvbuf(told, buffer, _IOFBF, sizeof buffer) && every && output >= 0 && errors >= 0, "REFUSE_TO and REFUSE_EVERY");
    ssize_t got;
    while ((got = read(0, input + input_size, sizeof input - input_size)) > 0) {
        input_size += (size_t)got;
    }
    must(got == 0 && input_size <= MOST_INPUT, "standard input");
    run = mmap(NULL, sizeof *run, PROT_READ | PROT_WRITE, MAP_SHARED | MAP_ANONYMOUS, -1, 0);
    must(run != MAP_FAILED, "mmap");
    if (fork_off(told, output, errors, 0, 0)) {
        return;
    }
    unsigned long count = run->calls;
    for (unsigned long first = number("REFUSE_FROM"); first <= count; first += every) {
        if (fork_off(told, output, errors, first, first) || fork_off(told, output, errors, first, -1UL)) {
            return;
        }
    }
    _exit(0);
}
