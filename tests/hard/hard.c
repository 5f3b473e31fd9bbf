/*
 * Hard use of the exported function, built with AddressSanitizer: hard [TITLE] < CASES.
 *
 * A case is a line of seven numbers (number, place, lengths of the job, glue, package, report and log) and a name, then the job and the four texts; the number
 * 999999 stands for an answer that is not known. Each job is answered with several lengths of what is lent. Every slice lies between two pages that cannot be
 * touched, at the one or at the other, with marked bytes on its open side; all that is lent is full of 0xFF. The job's page cannot be written during the call.
 * Looked at are the answer, every lent byte, the marks, the processor time of each call and the depth of the stack. With TITLE each case has one call, in a process of
 * its own that is stopped after 20 seconds of the processor, and a line with its time.
 */
#define _GNU_SOURCE
#include <pthread.h>
#include <sanitizer/asan_interface.h>
#include <signal.h>
#include <stdio.h>
#include <stdlib.h>
#include <string.h>
#include <sys/mman.h>
#include <sys/resource.h>
#include <sys/wait.h>
#include <time.h>
#include <unistd.h>

#include "upf.h"

enum { PAGE = 4096, MARKS = 512, SECONDS = 20, UNKNOWN = 999999, SLICES = 8, JOB = 0, FILES, AREA, NUMS, GLUE, PACKAGE, REPORT, LOG };
static const size_t ROOM = (size_t)1 << 20;
static const size_t STACK = (size_t)64 << 20;
static const unsigned char MARK = 0xA5;

typedef struct {
    unsigned char *base; /* ROOM bytes between two pages that cannot be touched */
    unsigned char *at;
    size_t len; /* in bytes */
    unsigned char *marks;
    size_t marked;
} slice;

typedef struct {
    size_t number, place, job, text[4];
    char name[256];
    unsigned char *bytes; /* the job, then the four texts */
} test;

/* What the calls have come to; shared with the processes of the calls. */
typedef struct {
    unsigned long calls, wrong;
    double slowest;
    char slow[256];
    size_t depth;
} tally;

static slice s[SLICES];
static int title;
static unsigned char *stack;
static tally *sum;

static void fail(const char *why) {
    fprintf(stderr, "hard: %s\n", why);
    exit(2);
}

static void map(slice *x) {
    unsigned char *p = mmap(NULL, ROOM + 2 * PAGE, PROT_NONE, MAP_PRIVATE | MAP_ANONYMOUS, -1, 0);
    if (p == MAP_FAILED || mprotect(p + PAGE, ROOM, PROT_READ | PROT_WRITE) != 0) fail("no memory");
    x->base = p + PAGE;
}

/* Lays a slice of `len` bytes at the upper or the lower of its two pages, and marks what lies open. */
static void lay(slice *x, size_t len, int upper) {
    size_t open = ROOM - len;
    x->len = len;
    x->at = upper ? x->base + open : x->base;
    x->marked = open < MARKS ? open : MARKS;
    x->marks = upper ? x->at - x->marked : x->at + len;
    memset(x->marks, MARK, x->marked);
    memset(x->at, 0xFF, len);
}

static int all(const unsigned char *p, size_t n, unsigned char b) {
    return n == 0 || (p[0] == b && memcmp(p, p + 1, n - 1) == 0);
}

static void differs(const test *t, const char *what, const size_t len[SLICES]) {
    sum->wrong++;
    if (sum->wrong <= 10)
        printf("%s: %s (lent %zu %zu %zu, %zu %zu %zu %zu)\n", t->name, what, len[FILES], len[AREA], len[NUMS] / 4, len[GLUE],
               len[PACKAGE], len[REPORT], len[LOG]);
}

/* One call with these lengths (in bytes), slice k at its upper page where bit k is set. */
static void call(const test *t, const size_t len[SLICES], unsigned upper) {
    upf_answer a;
    struct timespec from, to;
    size_t number = t->number, place = t->place;
    int k;
    for (k = 0; k < SLICES; k++) lay(&s[k], len[k], upper >> k & 1);
    memcpy(s[JOB].at, t->bytes, t->job);
    memset(&a, 0xFF, sizeof a);
    for (k = 0; k < SLICES; k++) ASAN_POISON_MEMORY_REGION(s[k].marks, s[k].marked);
    mprotect(s[JOB].base, ROOM, PROT_READ);
    clock_gettime(CLOCK_THREAD_CPUTIME_ID, &from);
    a.number = upf_run(s[JOB].at, s[JOB].len, s[FILES].at, s[FILES].len, s[AREA].at, s[AREA].len, (uint32_t *)(void *)s[NUMS].at,
                       s[NUMS].len / 4, s[GLUE].at, s[GLUE].len, s[PACKAGE].at, s[PACKAGE].len, s[REPORT].at, s[REPORT].len, s[LOG].at,
                       s[LOG].len, &a.place, &a.glue, &a.package, &a.report, &a.log);
    clock_gettime(CLOCK_THREAD_CPUTIME_ID, &to);
    mprotect(s[JOB].base, ROOM, PROT_READ | PROT_WRITE);
    for (k = 0; k < SLICES; k++) ASAN_UNPOISON_MEMORY_REGION(s[k].marks, s[k].marked);
    sum->calls++;

    double ms = (double)(to.tv_sec - from.tv_sec) * 1e3 + (double)(to.tv_nsec - from.tv_nsec) / 1e6;
    if (ms > sum->slowest) {
        sum->slowest = ms;
        strcpy(sum->slow, t->name);
    }
    if (title) printf("%8.1f ms  %5zu bytes  %2zu %4zu  %s\n", ms, t->job, a.number, a.place, t->name);

    for (k = 0; k < SLICES; k++)
        if (!all(s[k].marks, s[k].marked, MARK)) differs(t, "a byte beside a slice is changed", len);
    if (memcmp(s[JOB].at, t->bytes, t->job) != 0) differs(t, "the job is changed", len);
    for (k = FILES; k <= NUMS; k++)
        if (!all(s[k].at, s[k].len, 0)) differs(t, "a work area is not zero", len);

    if (len[FILES] < UPF_FILES || len[AREA] < UPF_AREA || len[NUMS] < 4 * UPF_NUMS) {
        number = UPF_AREA_SHORT;
        place = 0;
    } else if (number == UNKNOWN) {
        return;
    } else if (number == UPF_ACCEPTED) {
        for (k = 0; k < 4; k++)
            if (len[GLUE + k] < t->text[k]) number = UPF_TEXT_LONG;
    }
    size_t text[4] = {a.glue, a.package, a.report, a.log};
    const unsigned char *due = t->bytes + t->job;
    if (a.number != number || a.place != place) {
        differs(t, "another answer", len);
        return;
    }
    for (k = 0; k < 4; k++) {
        size_t n = number == UPF_ACCEPTED ? t->text[k] : 0;
        if (text[k] != n || memcmp(s[GLUE + k].at, due, n) != 0) differs(t, "another text", len);
        else if (!all(s[GLUE + k].at + n, s[GLUE + k].len - n, 0)) differs(t, "behind a text it is not zero", len);
        due += t->text[k];
    }
}

static size_t chosen(size_t n) {
    static unsigned long state = 1;
    state = state * 6364136223846793005ul + 1442695040888963407ul;
    return (state >> 33) % n;
}

/* How deep the stack has been. */
static void sound(void) {
    size_t free_bytes = 0;
    while (free_bytes < STACK && stack[free_bytes] == 0) free_bytes++;
    if (STACK - free_bytes > sum->depth) sum->depth = STACK - free_bytes;
}

/* One call in a process of its own, with buffers of ROOM bytes. */
static void apart(const test *t) {
    size_t len[SLICES] = {t->job, UPF_FILES, UPF_AREA, 4 * UPF_NUMS, ROOM, ROOM, ROOM, ROOM};
    int status;
    pid_t pid = fork();
    if (pid < 0) fail("no process");
    if (pid == 0) {
        struct rlimit most = {SECONDS, SECONDS + 1};
        setrlimit(RLIMIT_CPU, &most);
        call(t, len, 0xFF);
        sound();
        fflush(stdout);
        _exit(0);
    }
    if (waitpid(pid, &status, 0) != pid) fail("no process");
    if (WIFSIGNALED(status)) {
        sum->wrong++;
        printf("%s  %5zu bytes           %s\n", WTERMSIG(status) == SIGXCPU ? "over 20000 ms" : "signalled", t->job, t->name);
    } else if (status != 0) {
        sum->wrong++;
        printf("a report of the sanitizer: %s\n", t->name);
    }
}

/* The case with its own lengths exactly, with 65,536 each, and with odd ones. */
static void answer(const test *t) {
    size_t len[SLICES] = {t->job, UPF_FILES, UPF_AREA, 4 * UPF_NUMS, t->text[0], t->text[1], t->text[2], t->text[3]};
    size_t odd[SLICES];
    int k;
    if (title) {
        apart(t);
        return;
    }
    if (t->number == UNKNOWN)
        for (k = GLUE; k <= LOG; k++) len[k] = ROOM;
    call(t, len, (unsigned)chosen(256));
    /* one buffer one short */
    memcpy(odd, len, sizeof odd);
    k = GLUE + (int)chosen(4);
    if (odd[k] > 0) {
        odd[k]--;
        call(t, odd, (unsigned)chosen(256));
    }
    /* odd buffers */
    memcpy(odd, len, sizeof odd);
    for (k = GLUE; k <= LOG; k++) switch (chosen(6)) {
        case 0: odd[k] = 0; break;
        case 1: odd[k] = 1; break;
        case 2: odd[k] = len[k] + 1; break;
        case 3: odd[k] = len[k] + chosen(5000); break;
        default: break;
        }
    for (k = FILES; k <= AREA; k++) odd[k] += chosen(3) * chosen(100);
    odd[NUMS] += 4 * chosen(3);
    call(t, odd, (unsigned)chosen(256));
    /* a work area that is too short, or the programs' own sizes */
    memcpy(odd, len, sizeof odd);
    for (k = GLUE; k <= LOG; k++) odd[k] = UPF_TEXT;
    k = FILES + (int)chosen(3);
    switch (chosen(8)) {
    case 0: odd[k] -= k == NUMS ? 4 : 1; break;
    case 1: odd[k] = 0; break;
    case 2: odd[k] = k == NUMS ? 4 : 1; break;
    default: break;
    }
    call(t, odd, (unsigned)chosen(256));
}

static void *work(void *unused) {
    test t;
    unsigned long cases = 0;
    (void)unused;
    t.bytes = malloc(5 * ROOM);
    if (t.bytes == NULL) fail("no memory");
    while (scanf("%zu %zu %zu %zu %zu %zu %zu %255[^\n]", &t.number, &t.place, &t.job, &t.text[0], &t.text[1], &t.text[2], &t.text[3],
                 t.name) == 8) {
        size_t n = t.job + t.text[0] + t.text[1] + t.text[2] + t.text[3];
        if (getchar() != '\n' || n > 5 * ROOM || fread(t.bytes, 1, n, stdin) != n) fail("a case is cut off");
        answer(&t);
        cases++;
    }
    if (!feof(stdin)) fail("a case has another form");
    free(t.bytes);
    printf("hard: %lu jobs, %lu calls, %lu differences, slowest call %.1f ms (%s)\n", cases, sum->calls, sum->wrong, sum->slowest, sum->slow);
    return NULL;
}

static void *shared(size_t bytes, int flags) {
    void *p = mmap(NULL, bytes, PROT_READ | PROT_WRITE, MAP_ANONYMOUS | flags, -1, 0);
    if (p == MAP_FAILED) fail("no memory");
    return p;
}

int main(int argc, char **argv) {
    pthread_attr_t attr;
    pthread_t thread;
    int k;
    (void)argv;
    title = argc > 1;
    setvbuf(stdout, NULL, _IOLBF, 0);
    sum = shared(sizeof *sum, MAP_SHARED);
    stack = shared(STACK, MAP_PRIVATE | MAP_NORESERVE);
    for (k = 0; k < SLICES; k++) map(&s[k]);
    pthread_attr_init(&attr);
    if (pthread_attr_setstack(&attr, stack, STACK) != 0 || pthread_create(&thread, &attr, work, NULL) != 0) fail("no thread");
    pthread_join(thread, NULL);
    sound();
    printf("hard: at most %zu bytes of stack, %u promised\n", sum->depth, UPF_STACK);
    return sum->wrong > 0 || sum->depth > UPF_STACK || sum->slowest > 2000;
}
