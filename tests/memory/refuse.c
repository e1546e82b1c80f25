/* Refuses requests for memory of a program into which it is loaded (LD_PRELOAD), from the program's `main` on.

   REFUSE=N       refuses the Nth request alone.
   REFUSE=each:K  refuses each Kth request in turn: at each the process is doubled, and the copy, in which the request is refused, goes on to its
                  end in the folder `refused`, with its standard output in the file `said` there, before the process itself goes on. The
                  answer of each copy is a line of the log: the number of the request, the status (or - and a signal), what was said, and for
                  each of the files in REFUSE_FILES its size and sum, or `absent`. Threads are not started then, as a copy has one alone.
   REFUSE_LOG     the name of the log. The last line is `requests N`. */
#define _GNU_SOURCE
#include <errno.h>
#include <fcntl.h>
#include <pthread.h>
#include <stdatomic.h>
#include <stddef.h>
#include <stdio.h>
#include <stdlib.h>
#include <string.h>
#include <sys/syscall.h>
#include <sys/wait.h>
#include <unistd.h>

extern void *__libc_malloc(size_t);
extern void *__libc_calloc(size_t, size_t);
extern void *__libc_realloc(void *, size_t);
extern void *__libc_memalign(size_t, size_t);

static atomic_ulong requests;
static unsigned long refused, each;
static int counting, log_file = -1;
static char files[4096];

static void leave(int status) {
    for (;;) syscall(SYS_exit_group, status);
}

/* Adds a text to the log. */
static void note(const char *text) {
    if (write(log_file, text, strlen(text)) < 0) leave(99);
}

/* Adds the size and the sum of a file of a copy, and removes it. */
static void note_file(const char *name) {
    static unsigned char piece[65536];
    char path[512], line[64];
    unsigned long long sum = 14695981039346656037u, size = 0;
    snprintf(path, sizeof path, "refused/%s", name);
    int file = open(path, O_RDONLY);
    if (file < 0) {
        note(" absent");
        return;
    }
    for (ssize_t count; (count = read(file, piece, sizeof piece)) > 0; size += count)
        for (ssize_t k = 0; k < count; k++) sum = (sum ^ piece[k]) * 1099511628211u;
    close(file);
    unlink(path);
    snprintf(line, sizeof line, " %llu:%016llx", size, sum);
    note(line);
}

/* Adds what a copy has said, with a stroke for the end of a line. */
static void note_said(void) {
    char said[256];
    int file = open("refused/said", O_RDONLY);
    ssize_t count = file < 0 ? 0 : read(file, said, sizeof said - 1);
    if (file >= 0) close(file);
    said[count < 0 ? 0 : count] = 0;
    for (char *at = said; *at; at++)
        if (*at == '\n') *at = '|';
    note("'");
    note(said);
    note("'");
}

static void note_answer(unsigned long number, int status) {
    char line[64], names[4096];
    if (WIFEXITED(status)) snprintf(line, sizeof line, "%lu %d ", number, WEXITSTATUS(status));
    else snprintf(line, sizeof line, "%lu -%d ", number, WTERMSIG(status));
    note(line);
    note_said();
    strcpy(names, files);
    for (char *rest = names, *name; (name = strsep(&rest, " "));)
        if (*name) note_file(name);
    note("\n");
}

/* In a copy of the process, which goes on in a folder of its own: true. In the process itself, when the copy has ended: false. */
static int copied(unsigned long number) {
    int status = 0;
    pid_t copy = fork();
    if (copy == 0) {
        counting = 0;
        int said = chdir("refused") ? -1 : open("said", O_CREAT | O_TRUNC | O_WRONLY, 0644);
        if (said < 0 || dup2(said, 1) < 0) leave(99);
        close(said);
        return 1;
    }
    if (copy < 0 || waitpid(copy, &status, 0) < 0) leave(99);
    note_answer(number, status);
    return 0;
}

/* Whether this request is refused. */
static int refuses(void) {
    if (!counting) return 0;
    unsigned long number = atomic_fetch_add(&requests, 1) + 1;
    if (number != refused && !(each && number % each == 0 && copied(number))) return 0;
    errno = ENOMEM;
    return 1;
}

void *malloc(size_t size) { return refuses() ? NULL : __libc_malloc(size); }
void *calloc(size_t count, size_t size) { return refuses() ? NULL : __libc_calloc(count, size); }
void *realloc(void *old, size_t size) { return refuses() ? NULL : __libc_realloc(old, size); }
void *aligned_alloc(size_t align, size_t size) { return refuses() ? NULL : __libc_memalign(align, size); }
int posix_memalign(void **result, size_t align, size_t size) {
    void *made = refuses() ? NULL : __libc_memalign(align, size);
    if (made) *result = made;
    return made ? 0 : ENOMEM;
}

int pthread_create(pthread_t *thread, const pthread_attr_t *with, void *(*call)(void *), void *argument) {
    static int (*create)(pthread_t *, const pthread_attr_t *, void *(*)(void *), void *);
    if (each) return EAGAIN;
    if (!create) {
        extern void *dlsym(void *, const char *);
        create = (int (*)(pthread_t *, const pthread_attr_t *, void *(*)(void *), void *))dlsym((void *)-1l, "pthread_create");
    }
    return create(thread, with, call, argument);
}

__attribute__((constructor)) static void begin(void) {
    const char *which = getenv("REFUSE"), *log = getenv("REFUSE_LOG"), *names = getenv("REFUSE_FILES");
    if (!which || !log) return;
    log_file = open(log, O_CREAT | O_TRUNC | O_WRONLY, 0644);
    if (log_file < 0 || (names && strlen(names) >= sizeof files)) leave(99);
    if (names) strcpy(files, names);
    if (strncmp(which, "each:", 5) == 0) each = strtoul(which + 5, NULL, 10);
    else refused = strtoul(which, NULL, 10);
    counting = 1;
}

/* The program's end. */
void _exit(int status) {
    char line[64];
    if (counting) {
        counting = 0;
        snprintf(line, sizeof line, "requests %lu\n", atomic_load(&requests));
        note(line);
    }
    leave(status);
    __builtin_unreachable();
}
