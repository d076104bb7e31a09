/* Calls in which memory runs out, calls of many threads with small stacks, and pointers that no call takes. Ends with 0 where all
   holds. It is linked with --wrap for malloc, realloc and calloc. */
#define _POSIX_C_SOURCE 200112L
#include "pclmin.h"

#include <limits.h>
#include <pthread.h>
#include <stdint.h>
#include <stdio.h>
#include <stdlib.h>
#include <string.h>

/* A row of dots, and a line of 6 letters' worth of rectangles. */
static const unsigned char JOB[] =
    "\033E\033*p0x0Y\033*t300R\033*r0A\033*b1W\200\033*rC\033*p300x300Y\033*c90a30b0P\033*p600x300Y\033*c90a30b0P\014\033E";
#define LENGTH (sizeof JOB - 1)

static const unsigned char REFUSED[] = "\033*p70000X";

#define TEST(holds) do { if (!(holds)) { fprintf(stderr, "line %d: %s\n", __LINE__, #holds); exit(1); } } while (0)

/* ---- memory */

void *__real_malloc(size_t);
void *__real_realloc(void *, size_t);
void *__real_calloc(size_t, size_t);

static long left = LONG_MAX;

static int fails(void) {
    return left != LONG_MAX && left-- <= 0;
}

void *__wrap_malloc(size_t size) {
    return fails() ? NULL : __real_malloc(size);
}

void *__wrap_realloc(void *at, size_t size) {
    return fails() ? NULL : __real_realloc(at, size);
}

void *__wrap_calloc(size_t count, size_t size) {
    return fails() ? NULL : __real_calloc(count, size);
}

static int do_preview(pclmin_answer *answer) {
    return pclmin_preview(JOB, LENGTH, 300, 0, 0, answer);
}

static int do_grey(pclmin_answer *answer) {
    return pclmin_grey(JOB, LENGTH, 300, 0, 0, 7, answer);
}

static int do_min(pclmin_answer *answer) {
    return pclmin_min(JOB, LENGTH, 0, 2, answer);
}

static int do_shrink(pclmin_answer *answer) {
    return pclmin_shrink(JOB, LENGTH, 300, answer);
}

static int do_shrink_at_each(pclmin_answer *answer) {
    return pclmin_shrink(JOB, LENGTH, 0, answer);
}

static int do_same(pclmin_answer *answer) {
    return pclmin_same(JOB, LENGTH, JOB, LENGTH, 0, answer);
}

static int do_same_asked(pclmin_answer *answer) {
    return pclmin_same_asked(JOB, LENGTH, JOB, LENGTH, 300, answer);
}

/* Images that the job doesn't print. */
static int do_check_pages(pclmin_answer *answer) {
    return pclmin_check_pages(JOB, 1, JOB, LENGTH, NULL, 0, 300, answer);
}

static int do_pages(pclmin_answer *answer) {
    return pclmin_pages(JOB, LENGTH, 300, answer);
}

static int do_explain(pclmin_answer *answer) {
    return pclmin_explain(REFUSED, sizeof REFUSED - 1, 300, answer);
}

static int do_refused(pclmin_answer *answer) {
    return pclmin_page_count(REFUSED, sizeof REFUSED - 1, 300, answer);
}

/* Every allocation from one number on fails, for each number in turn, until none does. */
static void run_out(const char *name, int (*call)(pclmin_answer *)) {
    pclmin_answer whole, answer;
    int wanted = call(&whole);
    long allocations = 0;
    for (;; allocations++) {
        int fault;
        left = allocations;
        fault = call(&answer);
        int failed = left < 0;
        left = LONG_MAX;
        if (fault != PCLMIN_NO_MEMORY) {
            TEST(fault == wanted);
            TEST(answer.length == whole.length);
            TEST(answer.length == 0 || memcmp(answer.bytes, whole.bytes, whole.length) == 0);
            TEST(answer.holds == whole.holds && answer.kind == whole.kind && answer.place == whole.place);
            TEST(strcmp(answer.line, whole.line) == 0);
        } else {
            TEST(answer.bytes == NULL && answer.length == 0 && answer.certificate == NULL);
            TEST(!answer.holds && answer.kind == 0 && answer.place == 0 && answer.job == 0 && answer.resolution == 0);
            TEST(strcmp(answer.line, "pclmin: out of memory\n") == 0);
        }
        pclmin_free(&answer);
        if (!failed) break;
    }
    TEST(allocations > 0);
    printf("%s: each of %ld allocations failed in turn\n", name, allocations);
    pclmin_free(&whole);
}

/* No memory is needed to say that an argument is wrong. */
static void try_arguments_without_memory(void) {
    pclmin_answer answer;
    left = 0;
    TEST(pclmin_grey(JOB, LENGTH, 300, 0, 0, 33, &answer) == PCLMIN_WRONG_ARGUMENT);
    TEST(strcmp(answer.line, "pclmin: a scale is 1 to 32\n") == 0);
    pclmin_free(&answer);
    TEST(pclmin_page_count(JOB, (size_t)INT_MAX + 1, 300, &answer) == PCLMIN_TOO_LONG);
    TEST(strcmp(answer.line, "pclmin: input too long\n") == 0);
    pclmin_free(&answer);
    TEST(left == 0);
    left = LONG_MAX;
}

/* ---- threads */

#define THREADS 8
#define STACK (256 * 1024)

static void *work(void *unused) {
    int round;
    (void)unused;
    for (round = 0; round < 3; round++) {
        pclmin_answer shrunk, again, image, grey;
        TEST(pclmin_shrink(JOB, LENGTH, 300, &shrunk) == PCLMIN_DONE);
        TEST(pclmin_same(JOB, LENGTH, shrunk.bytes, shrunk.length, 300, &again) == PCLMIN_DONE && again.holds);
        TEST(pclmin_preview(shrunk.bytes, shrunk.length, 300, 1, 1, &image) == PCLMIN_DONE && image.length > 2);
        TEST(pclmin_grey(shrunk.bytes, shrunk.length, 300, 1, 1, 8, &grey) == PCLMIN_DONE && grey.length > 2);
        pclmin_free(&shrunk);
        pclmin_free(&again);
        pclmin_free(&image);
        pclmin_free(&grey);
    }
    return NULL;
}

static void run_threads(void) {
    pthread_t threads[THREADS];
    pthread_attr_t attributes;
    int index;
    TEST(pthread_attr_init(&attributes) == 0 && pthread_attr_setstacksize(&attributes, STACK) == 0);
    for (index = 0; index < THREADS; index++) TEST(pthread_create(&threads[index], &attributes, work, NULL) == 0);
    for (index = 0; index < THREADS; index++) TEST(pthread_join(threads[index], NULL) == 0);
    pthread_attr_destroy(&attributes);
    printf("%d threads with stacks of %d KiB called at once\n", THREADS, STACK / 1024);
}

/* ---- pointers */

static void try_pointers(void) {
    pclmin_answer answer;
    TEST(pclmin_shrink(JOB, LENGTH, 300, NULL) == PCLMIN_WRONG_ARGUMENT);
    TEST(pclmin_shrink(NULL, 1, 300, &answer) == PCLMIN_WRONG_ARGUMENT && answer.bytes == NULL && answer.line[0] != 0);
    pclmin_free(&answer);
    TEST(pclmin_shrink(JOB, SIZE_MAX, 300, &answer) == PCLMIN_WRONG_ARGUMENT);
    pclmin_free(&answer);
    TEST(pclmin_check(JOB, LENGTH, JOB, LENGTH, NULL, 5, 300, &answer) == PCLMIN_WRONG_ARGUMENT);
    pclmin_free(&answer);
    TEST(pclmin_same(JOB, LENGTH, NULL, 5, 300, &answer) == PCLMIN_WRONG_ARGUMENT);
    pclmin_free(&answer);
    /* The length alone says that it is too long: no byte is read. */
    TEST(pclmin_page_count(JOB, (size_t)INT_MAX + 1, 300, &answer) == PCLMIN_TOO_LONG);
    TEST(strcmp(answer.line, "pclmin: input too long\n") == 0);
    pclmin_free(&answer);
    TEST(pclmin_same(JOB, LENGTH, JOB, (size_t)INT_MAX + 1, 300, &answer) == PCLMIN_TOO_LONG);
    pclmin_free(&answer);
    TEST(pclmin_check(JOB, LENGTH, JOB, LENGTH, JOB, (size_t)INT_MAX + 1, 0, &answer) == PCLMIN_TOO_LONG);
    pclmin_free(&answer);
    TEST(pclmin_same_asked(NULL, 5, JOB, LENGTH, 300, &answer) == PCLMIN_WRONG_ARGUMENT && answer.line[0] != 0);
    pclmin_free(&answer);
    TEST(pclmin_same_asked(JOB, LENGTH, JOB, (size_t)INT_MAX + 1, 300, &answer) == PCLMIN_TOO_LONG);
    pclmin_free(&answer);
    TEST(pclmin_same_asked(JOB, LENGTH, JOB, LENGTH, 300, NULL) == PCLMIN_WRONG_ARGUMENT);
    TEST(pclmin_check_pages(NULL, 5, JOB, LENGTH, JOB, LENGTH, 300, &answer) == PCLMIN_WRONG_ARGUMENT && answer.line[0] != 0);
    pclmin_free(&answer);
    TEST(pclmin_check_pages(JOB, LENGTH, JOB, LENGTH, NULL, 5, 300, &answer) == PCLMIN_WRONG_ARGUMENT);
    pclmin_free(&answer);
    TEST(pclmin_check_pages(JOB, (size_t)INT_MAX + 1, JOB, LENGTH, JOB, LENGTH, 300, &answer) == PCLMIN_TOO_LONG);
    pclmin_free(&answer);
    TEST(pclmin_check_pages(JOB, LENGTH, JOB, (size_t)INT_MAX + 1, JOB, LENGTH, 0, &answer) == PCLMIN_TOO_LONG);
    pclmin_free(&answer);
    TEST(pclmin_check_pages(JOB, LENGTH, JOB, LENGTH, JOB, LENGTH, 300, NULL) == PCLMIN_WRONG_ARGUMENT);
    /* A wrong number is answered whatever the job is. */
    TEST(pclmin_check_pages(JOB, (size_t)INT_MAX + 1, JOB, LENGTH, JOB, LENGTH, 301, &answer) == PCLMIN_WRONG_ARGUMENT);
    pclmin_free(&answer);
    TEST(pclmin_same_asked(JOB, (size_t)INT_MAX + 1, JOB, LENGTH, 301, &answer) == PCLMIN_WRONG_ARGUMENT);
    pclmin_free(&answer);
    TEST(pclmin_page_count(JOB, (size_t)INT_MAX + 1, 301, &answer) == PCLMIN_WRONG_ARGUMENT);
    pclmin_free(&answer);
    TEST(pclmin_min(JOB, (size_t)INT_MAX + 1, 300, 3, &answer) == PCLMIN_WRONG_ARGUMENT);
    pclmin_free(&answer);
    TEST(pclmin_preview(JOB, (size_t)INT_MAX + 1, 300, 2, 1, &answer) == PCLMIN_WRONG_ARGUMENT);
    pclmin_free(&answer);
    TEST(pclmin_grey(JOB, (size_t)INT_MAX + 1, 300, 0, 0, 33, &answer) == PCLMIN_WRONG_ARGUMENT);
    pclmin_free(&answer);
    TEST(pclmin_grey(JOB, (size_t)INT_MAX + 1, 300, 0, 0, 32, &answer) == PCLMIN_TOO_LONG);
    pclmin_free(&answer);
    TEST(pclmin_grey(NULL, 1, 300, 0, 0, 8, &answer) == PCLMIN_WRONG_ARGUMENT && answer.bytes == NULL);
    pclmin_free(&answer);
    TEST(pclmin_grey(JOB, LENGTH, 300, 0, 0, 8, NULL) == PCLMIN_WRONG_ARGUMENT);
    pclmin_free(NULL);
}

int main(void) {
    try_pointers();
    try_arguments_without_memory();
    run_out("preview", do_preview);
    run_out("grey", do_grey);
    run_out("min", do_min);
    run_out("shrink", do_shrink);
    run_out("shrink at each resolution", do_shrink_at_each);
    run_out("same", do_same);
    run_out("same_asked", do_same_asked);
    run_out("check_pages", do_check_pages);
    run_out("pages", do_pages);
    run_out("explain", do_explain);
    run_out("a refusal", do_refused);
    run_threads();
    return 0;
}
