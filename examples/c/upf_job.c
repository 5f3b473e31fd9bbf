/*
 * upf_job JOB [DIR]: reads the job file and writes glue.txt, package.txt, report.txt and log.txt into DIR (the current folder where none is given); or says which
 * refusal it is and which line or command is at fault, in words, and writes nothing.
 * upf_job --refusals: the rows of docs/REFUSALS.md.
 *
 * Status: 0 the texts are written, 1 the job is refused, 2 a file cannot be read or written.
 */
#include <errno.h>
#include <stdint.h>
#include <stdio.h>
#include <stdlib.h>
#include <string.h>

#include "upf.h"
#include "words.h"

/* Lent for each text at first, and at most: where 14 is answered the buffers are made longer. */
enum { LEAST = 65536, MOST = 64 << 20 };

static const char *const NAMES[4] = {"glue.txt", "package.txt", "report.txt", "log.txt"};

static void fail(const char *path) {
    fprintf(stderr, "upf_job: %s: %s\n", path, strerror(errno));
    exit(2);
}

static void *lend(size_t bytes) {
    void *p = malloc(bytes);
    if (p == NULL) fail("memory");
    return p;
}

/* The whole file. A job of more than 65,536 bytes is refused, so one byte more than these is enough to hand over. */
static uint8_t *read_job(const char *path, size_t *len) {
    uint8_t *job = lend(UPF_JOB_BYTES + 1);
    FILE *f = fopen(path, "rb");
    if (f == NULL) fail(path);
    *len = fread(job, 1, UPF_JOB_BYTES + 1, f);
    if (ferror(f)) fail(path);
    fclose(f);
    return job;
}

static void write_text(const char *dir, const char *name, const uint8_t *text, size_t len) {
    size_t room = strlen(dir) + strlen(name) + 2;
    char *path = lend(room);
    snprintf(path, room, "%s/%s", dir, name);
    FILE *f = fopen(path, "wb");
    if (f == NULL || fwrite(text, 1, len, f) != len || fclose(f) != 0) fail(path);
    free(path);
}

/* Prints a line of the job by its number. Bodies of files, and the LF behind each, are no lines. */
static void show_line(const uint8_t *job, size_t len, size_t number) {
    size_t at = 0;
    for (size_t line = 1; at < len; line++) {
        const uint8_t *lf = memchr(job + at, '\n', len - at);
        size_t end = lf == NULL ? len : (size_t)(lf - job);
        if (line == number) {
            fprintf(stderr, "  the line: %.*s\n", (int)(end - at < 200 ? end - at : 200), (const char *)job + at);
            return;
        }
        size_t body = 0;
        if (end - at > 6 && memcmp(job + at, "bytes=", 6) == 0) {
            for (size_t k = at + 6; k < end && body < len; k++) body = 10 * body + (size_t)(job[k] - '0');
            body++;
        }
        at = end + 1 < len && body < len - end - 1 ? end + 1 + body : len;
    }
    fprintf(stderr, "  the job ends before this line\n");
}

static void explain(const char *path, const uint8_t *job, size_t len, upf_answer a) {
    if (a.number > UPF_TEXT_LONG) {
        fprintf(stderr, "%s: refused %zu\n", path, a.number);
        return;
    }
    const upf_words *w = &UPF_WORDS_OF[a.number];
    fprintf(stderr, "%s: refused %zu", path, a.number);
    if (strcmp(w->place, "line") == 0) fprintf(stderr, ", line %zu", a.place);
    if (strcmp(w->place, "command") == 0) fprintf(stderr, ", command %zu (counted through all files as they are carried out)", a.place);
    fprintf(stderr, ": %s\n", w->says);
    if (strcmp(w->place, "line") == 0) show_line(job, len, a.place);
    fprintf(stderr, "  typical cause: %s\n  what to do: %s\n", w->cause, w->todo);
}

/* The answer with buffers of this many bytes for each text; the texts stand one behind the other's room. */
static upf_answer answer(const uint8_t *job, size_t len, uint8_t *texts, size_t room) {
    uint8_t *files = lend(UPF_FILES), *area = lend(UPF_AREA);
    uint32_t *nums = lend(UPF_NUMS * sizeof *nums);
    upf_answer a;
    a.number = upf_run(job, len, files, UPF_FILES, area, UPF_AREA, nums, UPF_NUMS, texts, room, texts + room, room, texts + 2 * room, room,
                       texts + 3 * room, room, &a.place, &a.glue, &a.package, &a.report, &a.log);
    free(files);
    free(area);
    free(nums);
    return a;
}

static void list_refusals(void) {
    for (unsigned n = 0; n <= UPF_TEXT_LONG; n++) {
        const upf_words *w = &UPF_WORDS_OF[n];
        printf("| %u | %s | %s |%s%s | %s |\n", n, w->place, w->says, *w->cause ? " " : "", w->cause, w->todo);
    }
}

int main(int argc, char **argv) {
    if (argc == 2 && strcmp(argv[1], "--refusals") == 0) {
        list_refusals();
        return 0;
    }
    if (argc < 2 || argc > 3) {
        fprintf(stderr, "usage: upf_job JOB [DIR]\n");
        return 2;
    }
    size_t len, room = LEAST;
    uint8_t *job = read_job(argv[1], &len);
    uint8_t *texts = lend(4 * room);
    upf_answer a = answer(job, len, texts, room);
    while (a.number == UPF_TEXT_LONG && room < MOST) {
        room *= 4;
        free(texts);
        texts = lend(4 * room);
        a = answer(job, len, texts, room);
    }
    if (a.number == UPF_ACCEPTED) {
        size_t lens[4] = {a.glue, a.package, a.report, a.log};
        for (size_t k = 0; k < 4; k++) write_text(argc == 3 ? argv[2] : ".", NAMES[k], texts + k * room, lens[k]);
    } else {
        explain(argv[1], job, len, a);
    }
    free(texts);
    free(job);
    return a.number != UPF_ACCEPTED;
}
