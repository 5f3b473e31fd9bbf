/*
 * The power reader: a job in, four texts or a numbered refusal out.
 *
 * Link target/staticlib/libupf.a (made by `tools/build upf`; x86-64, Linux, the System V calling convention). The library calls nothing
 * but memcpy, memmove, memset and memcmp: it allocates nothing, opens nothing, keeps nothing between calls and has no state of its own. So it may be called from
 * several threads at a time, each lending its own memory.
 */
#ifndef UPF_H
#define UPF_H

#include <stddef.h>
#include <stdint.h>

#ifdef __cplusplus
extern "C" {
#endif

/*
 * The answer: a number (0: accepted; else the refusal), a place, and the lengths of the four texts (all 0 for a refusal). The library does not know this struct; a
 * caller may keep the answer in it:
 *
 *     a.number = upf_run(.., &a.place, &a.glue, &a.package, &a.report, &a.log);
 */
typedef struct {
    size_t number;
    size_t place;
    size_t glue;
    size_t package;
    size_t report;
    size_t log;
} upf_answer;

/*
 * The numbers, in the order of the checks: the first check that fails answers. docs/REFUSALS.md has for each a typical cause and what to do.
 * The place is a line of the job (from 1; the lines of a UPF body, and the LF behind it, are not counted) for 4 to 6, the number of a command (from 1, through all
 * files as they are carried out; a load_upf before the commands that it loads) for 8 to 10, and 0 for all others.
 */
enum {
    UPF_ACCEPTED = 0,
    UPF_AREA_SHORT = 1,    /* a work area is too short */
    UPF_JOB_LONG = 2,      /* the job is longer than 65,536 bytes */
    UPF_NOT_ASCII = 3,     /* a byte of 128 or more */
    UPF_LINE_FORM = 4,     /* the line is not well formed, or not due here */
    UPF_LINE_LIMIT = 5,    /* the line is one past a limit */
    UPF_LINE_AGAIN = 6,    /* a path, a module, or an instance of this module is named a second time */
    UPF_NOT_LISTED = 7,    /* `start` or `top` is not listed */
    UPF_LOAD_DEPTH = 8,    /* `load_upf` would go deeper than 16 files */
    UPF_LOAD_ABSENT = 9,   /* `load_upf` names a file that the job does not list */
    UPF_READ_LIMIT = 10,   /* the command is past a reading limit */
    UPF_NO_INSTANCE = 11,  /* no instance of the design top's type is found */
    UPF_NO_SCOPE = 12,     /* the scope path does not exist */
    UPF_MAKE_LIMIT = 13,   /* past a generation limit */
    UPF_TEXT_LONG = 14     /* a text does not fit its buffer */
};

/* The least lengths of the work areas. */
#define UPF_FILES 65536u /* bytes: the joined files */
#define UPF_AREA 65536u  /* bytes: all else */
#define UPF_NUMS 16384u  /* numbers of 32 bits */

/* The longest job. Every byte is below 128. */
#define UPF_JOB_BYTES 65536u

/* Limits of a job's lines (refusal 5). A NAME has at most 64 bytes (refusal 4). */
#define UPF_JOB_FILES 32u
#define UPF_JOB_MODULES 128u
#define UPF_MODULE_PORTS 64u
#define UPF_MODULE_DECLARATIONS 128u
#define UPF_MODULE_INSTANCES 64u
#define UPF_INSTANCE_CONNECTIONS 64u

/* Limits of reading (refusal 10; load depth: 8). */
#define UPF_LOADS 16u             /* the depth of a load; the start file has depth 0 */
#define UPF_COMMANDS 1024u        /* carried out, through all files */
#define UPF_WORDS 128u            /* of one command, its name included */
#define UPF_SUBSTITUTED 16384u    /* result bytes of all quoted words and plain words with a `$` */
#define UPF_SETS 64u              /* `set` commands that set something */
#define UPF_SCOPE 512u            /* bytes of a scope */
#define UPF_SCOPES 8192u          /* bytes of all scopes from `set_scope` and `load_upf -scope` */
#define UPF_LIST 64u              /* entries of a value that is read as a list */
#define UPF_LISTS 1024u           /* entries of all such values */
#define UPF_RECORDS 32u           /* domains; nets; supply ports; switches; isolations; retentions; shifters; port states; tables */
#define UPF_READ_WARNINGS 256u    /* warnings of reading */

/* Limits of generation (refusal 13). */
#define UPF_SEARCH 4096u          /* calls of the search for an instance of the design top */
#define UPF_WALK_DEPTH 32u        /* instances below an element; what lies deeper is not visited, and is no refusal */
#define UPF_ENTERED 4096u         /* modules entered by one domain's walk */
#define UPF_PATHS 1024u           /* paths of one domain */
#define UPF_PATH_BYTES 32768u     /* bytes of one domain's paths together */
#define UPF_ISOLATED 256u         /* isolated ports */
#define UPF_WARNINGS 512u         /* warnings altogether */

/* What the programs `report`, `glue`, `package_text` and `log` lend for each text. A text may be longer: lend more where 14 is answered. */
#define UPF_TEXT 65536u

/*
 * The stack that a call may take, in bytes; most for loads that are 16 deep. A main thread of Linux has 8 MB where nobody changed it; give another thread enough by
 * pthread_attr_setstacksize (its default may be smaller than this).
 */
#define UPF_STACK 4194304u

/*
 * Answers the job with its number; place and lengths of the texts stand behind the last five pointers. Lent for writing are three work areas (joined files, all else, numbers) and four buffers (glue, package, report, log), each as a pointer and a
 * length: bytes, for `nums` numbers. Every length is allowed, 0 too, and every content of the job and of what is lent.
 *
 * The caller sees to this:
 * - each pointer is not null, also with length 0, and its length is the caller's to read (the job) or to write (all others) during the call;
 * - `nums` is aligned as a uint32_t, and the last five pointers as a size_t;
 * - none of the memory that is written overlaps the job or another part that is lent.
 *
 * The call ends, for every job. Afterwards:
 * - the result is the number, and place and lengths are written, for a refusal too;
 * - each buffer has its text and behind it zeros to its end; for a refusal all four are zero. No text ends in a zero of its own: use the length;
 * - the three work areas are zero;
 * - the job is as it was, and no byte outside of what was lent is written.
 *
 * So there is one answer to a job and to the lengths that are lent; what the memory held before does not matter.
 */
size_t upf_run(
    const uint8_t *job, size_t job_len,
    uint8_t *files, size_t files_len,
    uint8_t *area, size_t area_len,
    uint32_t *nums, size_t nums_len,
    uint8_t *glue, size_t glue_len,
    uint8_t *package, size_t package_len,
    uint8_t *report, size_t report_len,
    uint8_t *log, size_t log_len,
    size_t *place,
    size_t *glue_used, size_t *package_used, size_t *report_used, size_t *log_used);

#ifdef __cplusplus
}
#endif

#endif
