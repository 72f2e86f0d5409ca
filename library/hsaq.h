/* libhsaq: `hsaq audit`, `check`, `replay`, `show`, `explain`, `fix` and `trim` as calls, for runtimes, drivers and simulators in C or C++ (C99,
 * C++11).
 *
 *     cc -std=c99 -o program program.c "$(./hsaq --library)"
 *
 * A text is a pointer and a length; a call reads it and keeps nothing of it. A report is what the program of that name prints for the same
 * texts (docs/FORMATS.md). Its first `room` bytes, or all where there are fewer, go to `report`, which is the caller's; what lies behind them stays
 * as it was, and no byte is put behind the report, not even a 0. `*length` is the length of the whole report: where it is more than `room`, ask
 * again with more. No pointer may be NULL, not even with a length of 0, and `report` and `length` must not overlap the texts or each other.
 *
 * The answer is the program's exit status, one of those below. With HSAQ_STATUS_FILE nothing is said of the report, nor of `*length`: memory ran out
 * while it was put together, or a text has more than some gigabyte.
 *
 * Calls from several threads at once don't disturb each other. No call starts a thread, prints, or keeps memory beyond its end; memory comes
 * from malloc. No call may come from a signal handler. */
#ifndef HSAQ_H
#define HSAQ_H

#include <stddef.h>
#include <stdint.h>

#ifdef __cplusplus
extern "C" {
#endif

enum {
    HSAQ_STATUS_DONE = 0,                /* ordered, accepted, replayed, shown, mended, trimmed */
    HSAQ_STATUS_JOB_REFUSED = 3,         /* the text is no job: `refused line L Jn` */
    HSAQ_STATUS_CONFLICT = 4,            /* two packets race: `conflict P R KIND WHY` */
    HSAQ_STATUS_STUCK = 5,               /* packets that can never complete: `stuck N N ..` */
    HSAQ_STATUS_CERTIFICATE_REFUSED = 6, /* `refused line L Kn`, or `refused Vn ..` */
    HSAQ_STATUS_TIMELINE_REFUSED = 7,    /* `refused line L En`, or `refused event N` */
    HSAQ_STATUS_MEMORY = 8,              /* `out of memory` */
    HSAQ_STATUS_FILE = 9                 /* nothing is said of the report, nor of its length */
};

/* Whether the job's packets are ordered: a certificate, or why not. */
uint32_t hsaq_audit(const void *job, size_t job_length, void *report, size_t room, size_t *length);

/* Whether a certificate holds for a job. Code of its own checks it, on the caller's thread alone. */
uint32_t hsaq_check(const void *job, size_t job_length, const void *certificate, size_t certificate_length, void *report, size_t room, size_t *length);

/* The job's buffers as the events of a timeline leave them. */
uint32_t hsaq_replay(const void *job, size_t job_length, const void *timeline, size_t timeline_length, void *report, size_t room, size_t *length);

/* The job's packets, a line each. */
uint32_t hsaq_show(const void *job, size_t job_length, void *report, size_t room, size_t *length);

/* Why the job's conflicts are ordered or aren't, in plain words, the first hundred of them, and each single change that would order one that isn't. */
uint32_t hsaq_explain(const void *job, size_t job_length, void *report, size_t room, size_t *length);

/* The job's text with the bits and fences that it lacks to be ordered, and none that it can do without; or why none order it. */
uint32_t hsaq_fix(const void *job, size_t job_length, void *report, size_t room, size_t *length);

/* The job's text without the bits and fences that it doesn't need to be ordered; or why it isn't. */
uint32_t hsaq_trim(const void *job, size_t job_length, void *report, size_t room, size_t *length);

#ifdef __cplusplus
}
#endif

#endif
