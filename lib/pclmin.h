/* pclmin for programs: print jobs in PCL 5 shown, written again, compared and checked (docs/LIBRARY.md). */
#ifndef PCLMIN_H
#define PCLMIN_H

#include <stddef.h>

#ifdef __cplusplus
extern "C" {
#endif

/* How a call ended. Each call returns one of these, and its answer has it too. */
enum pclmin_fault {
    PCLMIN_DONE = 0,
    PCLMIN_REFUSED = 1,        /* the rules refuse a job */
    PCLMIN_NO_PAGE = 2,        /* the job is right and has fewer pages */
    PCLMIN_WRONG_ARGUMENT = 3, /* a number or a pointer that the call doesn't take */
    PCLMIN_TOO_LONG = 4,       /* an input has more than 2,147,483,647 bytes */
    PCLMIN_NO_MEMORY = 5       /* memory ran out, or a certificate has more bytes than pclmin_check takes */
};

/* Why a job is refused (docs/LANGUAGE.md). */
enum pclmin_kind {
    PCLMIN_TRUNCATED = 1,
    PCLMIN_BAD_SEQUENCE = 2,
    PCLMIN_VALUE_RANGE = 3,
    PCLMIN_UNSUPPORTED_COMMAND = 4,
    PCLMIN_UNSUPPORTED_VALUE = 5,
    PCLMIN_FONT_HEADER = 6,
    PCLMIN_CHARACTER_DATA = 7,
    PCLMIN_NO_FONT = 8,
    PCLMIN_MACRO_OPEN = 9,
    PCLMIN_MACRO_CONTROL = 10,
    PCLMIN_MACRO_DEPTH = 11,
    PCLMIN_TOO_MANY_COMMANDS = 12,
    PCLMIN_TOO_MANY_PAGES = 13,
    PCLMIN_NOT_PCL = 14
};

/* What a call answers. A call fills all of it, whatever it had; what it has after a call is freed by pclmin_free. */
typedef struct pclmin_answer {
    unsigned char *bytes;       /* what was made: images, a job or a text; NULL where length is 0 */
    size_t length;
    unsigned char *certificate; /* of pclmin_min; NULL where certificate_length is 0 */
    size_t certificate_length;
    const char *line;           /* what is said, with its line feed, ended by a zero byte; "" where nothing is */
    size_t place;               /* of a refusal: where the refused command stands, in bytes from the job's start */
    size_t pages;               /* of pclmin_page_count */
    int fault;                  /* an enum pclmin_fault */
    int kind;                   /* of a refusal: an enum pclmin_kind, else 0 */
    int job;                    /* of a refusal: 1, or 2 for the second of two jobs, else 0 */
    int resolution;             /* of a call that is done: 300 or 600 */
    int holds;                  /* of two jobs that are compared, and of a check: 1 for yes, else 0 */
} pclmin_answer;

/* Jobs and certificates are bytes and how many; a pointer may be NULL where there are none. A resolution is 300 or 600 dots per
   inch, or 0 for the first of these at which the job is accepted, 300 where it is at neither. */

/* Pages first to last, counted from 1, as PBM images, one after the other; all pages by 0 and 0. */
int pclmin_preview(const unsigned char *job, size_t length, unsigned resolution, unsigned first, unsigned last,
                   pclmin_answer *answer);

/* The same pages as PGM images (P5), one after the other: a byte for each square of scale by scale dots, the mean of these, where black
   is 0 and white 255; what the page's right or lower edge cuts off of a square is white. A page of W by H dots has W / scale by
   H / scale pixels, both rounded up. A scale is 1 to 32; with another the call ends by PCLMIN_WRONG_ARGUMENT. */
int pclmin_grey(const unsigned char *job, size_t length, unsigned resolution, unsigned first, unsigned last, unsigned scale,
                pclmin_answer *answer);

/* The job as a least raster job, with a certificate of format 1 or 2, or with none by 0. */
int pclmin_min(const unsigned char *job, size_t length, unsigned resolution, unsigned format, pclmin_answer *answer);

/* The smallest job that is found with the same pages, which asks the printer for the same; by the resolution 0 at 300 and at 600
   where the job is accepted at both. */
int pclmin_shrink(const unsigned char *job, size_t length, unsigned resolution, pclmin_answer *answer);

/* Whether two jobs have the same pages; the line says what differs first. By the resolution 0 they are compared at 300 and at 600
   where both are accepted at both, and the answer's resolution is the one at which they differ, else the last. */
int pclmin_same(const unsigned char *first, size_t first_length, const unsigned char *second, size_t second_length,
                unsigned resolution, pclmin_answer *answer);

/* The same, where the jobs have to ask the printer for the same too. */
int pclmin_same_asked(const unsigned char *first, size_t first_length, const unsigned char *second, size_t second_length,
                      unsigned resolution, pclmin_answer *answer);

/* Whether an output has an input's pages and is the shortest such job text, by a certificate; the line says which test fails. */
int pclmin_check(const unsigned char *input, size_t input_length, const unsigned char *output, size_t output_length,
                 const unsigned char *certificate, size_t certificate_length, unsigned resolution, pclmin_answer *answer);

/* The same with PBM images of the pages, one after the other, in place of the input. The resolution is the output's, and a refusal too. */
int pclmin_check_pages(const unsigned char *images, size_t images_length, const unsigned char *output, size_t output_length,
                       const unsigned char *certificate, size_t certificate_length, unsigned resolution, pclmin_answer *answer);

/* How many pages the job has. */
int pclmin_page_count(const unsigned char *job, size_t length, unsigned resolution, pclmin_answer *answer);

/* What the pages are, as the command `pages --json` writes it. */
int pclmin_pages(const unsigned char *job, size_t length, unsigned resolution, pclmin_answer *answer);

/* All that is refused in the job, and what can be done, as text. */
int pclmin_explain(const unsigned char *job, size_t length, unsigned resolution, pclmin_answer *answer);

/* The version, as the program says it: a text that nobody frees. */
const char *pclmin_version(void);

/* Frees what an answer has, by the fault that the call gave it, and empties it. An answer that is emptied may be freed again. */
void pclmin_free(pclmin_answer *answer);

#ifdef __cplusplus
}
#endif

#endif
