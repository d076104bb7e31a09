/* The C in front of the exports of crates/pcl_library: it sees to null pointers, and frees what an answer has. */
#include "pclmin.h"

#include <stdbool.h>
#include <stdint.h>

/* A `&'static [u8]` of Rattle, and `Answer` of crates/pcl_library/src/answer.rt. */
struct bytes {
    const unsigned char *at;
    size_t length;
};

struct told {
    struct bytes made, certificate, line;
    size_t place, pages;
    uint32_t outcome, resolution, kind, refused_job;
    bool holds;
};

/* The exports. A slice is a pointer, which is never null, and a length; a `Global` is nothing. */
void pcl_library_preview(const unsigned char *, size_t, uint32_t, uint32_t, uint32_t, struct told *);
void pcl_library_grey(const unsigned char *, size_t, uint32_t, uint32_t, uint32_t, uint32_t, struct told *);
void pcl_library_min(const unsigned char *, size_t, uint32_t, uint32_t, struct told *);
void pcl_library_shrink(const unsigned char *, size_t, uint32_t, struct told *);
void pcl_library_same(const unsigned char *, size_t, const unsigned char *, size_t, uint32_t, struct told *);
void pcl_library_same_asked(const unsigned char *, size_t, const unsigned char *, size_t, uint32_t, struct told *);
void pcl_library_check(const unsigned char *, size_t, const unsigned char *, size_t, const unsigned char *, size_t, uint32_t,
                       struct told *);
void pcl_library_check_pages(const unsigned char *, size_t, const unsigned char *, size_t, const unsigned char *, size_t, uint32_t,
                             struct told *);
void pcl_library_page_count(const unsigned char *, size_t, uint32_t, struct told *);
void pcl_library_pages(const unsigned char *, size_t, uint32_t, struct told *);
void pcl_library_explain(const unsigned char *, size_t, uint32_t, struct told *);

/* Frees what Rattle's allocator gave. */
void rattle_dealloc(void *);

static const unsigned char nothing[1] = {0};
static const char no_line[] = "";
static const char memory_line[] = "pclmin: out of memory\n";
static const char pointer_line[] = "pclmin: a pointer is null where there are bytes, or its length is that of no memory\n";

/* What the exports are lent: references to no bytes, which may not be null. */
static const struct told untold = {.made = {nothing, 0}, .certificate = {nothing, 0}, .line = {nothing, 0}};

static const pclmin_answer empty = {.line = no_line};

static bool is_memory(const unsigned char *at, size_t length) {
    return length == 0 || (at != NULL && length <= PTRDIFF_MAX);
}

static const unsigned char *or_nothing(const unsigned char *at) {
    return at != NULL ? at : nothing;
}

static int refuse_pointer(pclmin_answer *answer) {
    if (answer != NULL) {
        *answer = empty;
        answer->fault = PCLMIN_WRONG_ARGUMENT;
        answer->line = pointer_line;
    }
    return PCLMIN_WRONG_ARGUMENT;
}

static unsigned char *owned(struct bytes bytes) {
    return bytes.length != 0 ? (unsigned char *)bytes.at : NULL;
}

static const char *line_of(const struct told *told) {
    if (told->line.length != 0) return (const char *)told->line.at;
    return told->outcome == PCLMIN_NO_MEMORY ? memory_line : no_line;
}

/* The lines of these faults take no memory, so that they are always said: nobody frees them. */
static bool is_of_argument(int fault) {
    return fault == PCLMIN_WRONG_ARGUMENT || fault == PCLMIN_TOO_LONG;
}

static int tell(const struct told *told, pclmin_answer *answer) {
    *answer = (pclmin_answer){
        .bytes = owned(told->made),
        .length = told->made.length,
        .certificate = owned(told->certificate),
        .certificate_length = told->certificate.length,
        .line = line_of(told),
        .place = told->place,
        .pages = told->pages,
        .fault = (int)told->outcome,
        .kind = (int)told->kind,
        .job = (int)told->refused_job,
        .resolution = (int)told->resolution,
        .holds = told->holds,
    };
    return answer->fault;
}

int pclmin_preview(const unsigned char *job, size_t length, unsigned resolution, unsigned first, unsigned last,
                   pclmin_answer *answer) {
    struct told told = untold;
    if (answer == NULL || !is_memory(job, length)) return refuse_pointer(answer);
    pcl_library_preview(or_nothing(job), length, resolution, first, last, &told);
    return tell(&told, answer);
}

int pclmin_grey(const unsigned char *job, size_t length, unsigned resolution, unsigned first, unsigned last, unsigned scale,
                pclmin_answer *answer) {
    struct told told = untold;
    if (answer == NULL || !is_memory(job, length)) return refuse_pointer(answer);
    pcl_library_grey(or_nothing(job), length, resolution, first, last, scale, &told);
    return tell(&told, answer);
}

int pclmin_min(const unsigned char *job, size_t length, unsigned resolution, unsigned format, pclmin_answer *answer) {
    struct told told = untold;
    if (answer == NULL || !is_memory(job, length)) return refuse_pointer(answer);
    pcl_library_min(or_nothing(job), length, resolution, format, &told);
    return tell(&told, answer);
}

int pclmin_shrink(const unsigned char *job, size_t length, unsigned resolution, pclmin_answer *answer) {
    struct told told = untold;
    if (answer == NULL || !is_memory(job, length)) return refuse_pointer(answer);
    pcl_library_shrink(or_nothing(job), length, resolution, &told);
    return tell(&told, answer);
}

int pclmin_same(const unsigned char *first, size_t first_length, const unsigned char *second, size_t second_length,
                unsigned resolution, pclmin_answer *answer) {
    struct told told = untold;
    if (answer == NULL || !is_memory(first, first_length) || !is_memory(second, second_length)) return refuse_pointer(answer);
    pcl_library_same(or_nothing(first), first_length, or_nothing(second), second_length, resolution, &told);
    return tell(&told, answer);
}

int pclmin_same_asked(const unsigned char *first, size_t first_length, const unsigned char *second, size_t second_length,
                      unsigned resolution, pclmin_answer *answer) {
    struct told told = untold;
    if (answer == NULL || !is_memory(first, first_length) || !is_memory(second, second_length)) return refuse_pointer(answer);
    pcl_library_same_asked(or_nothing(first), first_length, or_nothing(second), second_length, resolution, &told);
    return tell(&told, answer);
}

int pclmin_check(const unsigned char *input, size_t input_length, const unsigned char *output, size_t output_length,
                 const unsigned char *certificate, size_t certificate_length, unsigned resolution, pclmin_answer *answer) {
    struct told told = untold;
    if (answer == NULL || !is_memory(input, input_length) || !is_memory(output, output_length)
        || !is_memory(certificate, certificate_length))
        return refuse_pointer(answer);
    pcl_library_check(or_nothing(input), input_length, or_nothing(output), output_length, or_nothing(certificate),
                      certificate_length, resolution, &told);
    return tell(&told, answer);
}

int pclmin_check_pages(const unsigned char *images, size_t images_length, const unsigned char *output, size_t output_length,
                       const unsigned char *certificate, size_t certificate_length, unsigned resolution, pclmin_answer *answer) {
    struct told told = untold;
    if (answer == NULL || !is_memory(images, images_length) || !is_memory(output, output_length)
        || !is_memory(certificate, certificate_length))
        return refuse_pointer(answer);
    pcl_library_check_pages(or_nothing(images), images_length, or_nothing(output), output_length, or_nothing(certificate),
                            certificate_length, resolution, &told);
    return tell(&told, answer);
}

int pclmin_page_count(const unsigned char *job, size_t length, unsigned resolution, pclmin_answer *answer) {
    struct told told = untold;
    if (answer == NULL || !is_memory(job, length)) return refuse_pointer(answer);
    pcl_library_page_count(or_nothing(job), length, resolution, &told);
    return tell(&told, answer);
}

int pclmin_pages(const unsigned char *job, size_t length, unsigned resolution, pclmin_answer *answer) {
    struct told told = untold;
    if (answer == NULL || !is_memory(job, length)) return refuse_pointer(answer);
    pcl_library_pages(or_nothing(job), length, resolution, &told);
    return tell(&told, answer);
}

int pclmin_explain(const unsigned char *job, size_t length, unsigned resolution, pclmin_answer *answer) {
    struct told told = untold;
    if (answer == NULL || !is_memory(job, length)) return refuse_pointer(answer);
    pcl_library_explain(or_nothing(job), length, resolution, &told);
    return tell(&told, answer);
}

/* lib/build.sh defines it as what the program has for one. */
const char *pclmin_version(void) {
    return PCLMIN_VERSION;
}

void pclmin_free(pclmin_answer *answer) {
    const char *line;
    if (answer == NULL) return;
    line = answer->line;
    if (answer->bytes != NULL) rattle_dealloc(answer->bytes);
    if (answer->certificate != NULL) rattle_dealloc(answer->certificate);
    if (line != NULL && line != no_line && line != memory_line && !is_of_argument(answer->fault)) rattle_dealloc((void *)line);
    *answer = empty;
}
