/* The answers in words: the rows of docs/REFUSALS.md, by number. tests/interface holds the two together. */
#ifndef UPF_WORDS_H
#define UPF_WORDS_H

typedef struct {
    const char *place; /* what the place is: "line", "command", or "0" for none */
    const char *says;
    const char *cause;
    const char *todo;
} upf_words;

static const upf_words UPF_WORDS_OF[15] = {
    {"0", "the job is accepted", "", "read the texts"},
    {"0", "a work area is too short", "the caller lent less than 65,536 bytes twice and 16,384 numbers", "lend the sizes of `include/upf.h`"},
    {"0", "the job is longer than 65,536 bytes", "too many modules in one job",
     "leave out modules that no domain reaches, shorten bodies"},
    {"0", "a byte of 128 or more", "a comment with an accent, a UTF-8 byte order mark", "save the files as ASCII"},
    {"line", "the line is not well formed, or not due here",
     "a missing LF behind a body, `bytes=` that does not fit, a NAME with other bytes or more than 64, a line out of order",
     "build the job with `tools/makejob`, look at the line"},
    {"line", "the line is one past a limit",
     "the 33rd file, the 129th module, the 65th port, instance or connection, the 129th declaration",
     "split the module, or leave out lines that carry no signal of a domain"},
    {"line", "a path, a module, or an instance of this module is named a second time", "a file listed twice; two modules of one name", "drop or rename one of the two"},
    {"0", "`start` or `top` is not listed", "a path written in two ways", "name the file as its `file=` line does"},
    {"command", "`load_upf` would go deeper than 16 files", "a file that loads itself", "break the ring"},
    {"command", "`load_upf` names a file that the job does not list",
     "a path that is meant below another directory; `a/../b` is not resolved", "list the file under the path that results"},
    {"command", "the command is past a reading limit", "the 1,025th command, a list of 65 entries, the 33rd domain", "split the intent"},
    {"0", "no instance of the design top's type is found", "`set_design_top` names another module",
     "give an override, or mend the name"},
    {"0", "the scope path does not exist", "an override with a wrong instance name; a module that is not listed",
     "list the module, mend the path"},
    {"0", "past a generation limit",
     "a domain of more than 1,024 signals or 32,768 bytes of paths, 4,096 modules entered, 256 isolated ports, 512 warnings; a type search of more than 4,096 calls",
     "split the domain, name the scope by an override"},
    {"0", "a text does not fit its buffer", "buffers that are too short", "lend longer buffers"},
};

#endif
