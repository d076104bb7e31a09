/* Makes one call, and writes the whole of its answer; run.py compares what C, Rust and Python get.

   client preview RESOLUTION FIRST LAST JOB      client grey RESOLUTION FIRST LAST SCALE JOB
   client min RESOLUTION FORMAT JOB              client shrink RESOLUTION JOB
   client same | same_asked RESOLUTION FIRST SECOND
   client check | check_pages RESOLUTION INPUT OUTPUT CERTIFICATE
   client page_count | pages | explain RESOLUTION JOB
   client version

   A JOB is a file, or - for a null pointer and the length 0. What is written: a line of fault, kind, place, job, resolution, holds,
   pages, and the lengths of the line, the bytes and the certificate; and then these three. The version is a line alone. */
#include "pclmin.h"

#include <stdio.h>
#include <stdlib.h>
#include <string.h>

struct job {
    unsigned char *at;
    size_t length;
};

static struct job read_job(const char *name) {
    struct job job = {NULL, 0};
    FILE *file;
    if (strcmp(name, "-") == 0) return job;
    file = fopen(name, "rb");
    if (file == NULL || fseek(file, 0, SEEK_END) != 0) exit(9);
    job.length = (size_t)ftell(file);
    rewind(file);
    /* As many bytes as the job has, so that a read past its end is seen. */
    job.at = malloc(job.length + (job.length == 0));
    if (job.at == NULL || fread(job.at, 1, job.length, file) != job.length) exit(9);
    fclose(file);
    return job;
}

static unsigned number(const char *word) {
    return (unsigned)strtoul(word, NULL, 10);
}

static int call(char **words, struct job *jobs, pclmin_answer *answer) {
    const char *name = words[0];
    unsigned resolution = number(words[1]);
    if (strcmp(name, "preview") == 0) {
        jobs[0] = read_job(words[4]);
        return pclmin_preview(jobs[0].at, jobs[0].length, resolution, number(words[2]), number(words[3]), answer);
    }
    if (strcmp(name, "grey") == 0) {
        jobs[0] = read_job(words[5]);
        return pclmin_grey(jobs[0].at, jobs[0].length, resolution, number(words[2]), number(words[3]), number(words[4]), answer);
    }
    if (strcmp(name, "min") == 0) {
        jobs[0] = read_job(words[3]);
        return pclmin_min(jobs[0].at, jobs[0].length, resolution, number(words[2]), answer);
    }
    jobs[0] = read_job(words[2]);
    if (strcmp(name, "shrink") == 0) return pclmin_shrink(jobs[0].at, jobs[0].length, resolution, answer);
    if (strcmp(name, "page_count") == 0) return pclmin_page_count(jobs[0].at, jobs[0].length, resolution, answer);
    if (strcmp(name, "pages") == 0) return pclmin_pages(jobs[0].at, jobs[0].length, resolution, answer);
    if (strcmp(name, "explain") == 0) return pclmin_explain(jobs[0].at, jobs[0].length, resolution, answer);
    jobs[1] = read_job(words[3]);
    if (strcmp(name, "same") == 0)
        return pclmin_same(jobs[0].at, jobs[0].length, jobs[1].at, jobs[1].length, resolution, answer);
    if (strcmp(name, "same_asked") == 0)
        return pclmin_same_asked(jobs[0].at, jobs[0].length, jobs[1].at, jobs[1].length, resolution, answer);
    jobs[2] = read_job(words[4]);
    if (strcmp(name, "check") == 0)
        return pclmin_check(jobs[0].at, jobs[0].length, jobs[1].at, jobs[1].length, jobs[2].at, jobs[2].length, resolution, answer);
    if (strcmp(name, "check_pages") == 0)
        return pclmin_check_pages(jobs[0].at, jobs[0].length, jobs[1].at, jobs[1].length, jobs[2].at, jobs[2].length, resolution,
                                  answer);
    exit(9);
}

int main(int count, char **words) {
    struct job jobs[3] = {{NULL, 0}, {NULL, 0}, {NULL, 0}};
    pclmin_answer answer;
    size_t line_length;
    int index;
    if (count == 2 && strcmp(words[1], "version") == 0) return puts(pclmin_version()) < 0;
    if (count < 4) return 9;
    /* What the answer had before is of no account. */
    memset(&answer, 0x5a, sizeof answer);
    if (call(words + 1, jobs, &answer) != answer.fault) return 8;
    line_length = strlen(answer.line);
    printf("%d %d %zu %d %d %d %zu %zu %zu %zu\n", answer.fault, answer.kind, answer.place, answer.job, answer.resolution, answer.holds,
           answer.pages, line_length, answer.length, answer.certificate_length);
    fwrite(answer.line, 1, line_length, stdout);
    if (answer.length != 0) fwrite(answer.bytes, 1, answer.length, stdout);
    if (answer.certificate_length != 0) fwrite(answer.certificate, 1, answer.certificate_length, stdout);
    pclmin_free(&answer);
    pclmin_free(&answer);
    if (answer.bytes != NULL || answer.length != 0 || answer.line[0] != 0) return 7;
    for (index = 0; index < 3; index++) free(jobs[index].at);
    return 0;
}
