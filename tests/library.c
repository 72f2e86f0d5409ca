/* Calls of the static library, by `library/hsaq.h`: `COMMAND FILE [FILE]` writes the report and ends with the answer, as the program does for `audit`,
 * `check`, `replay`, `show`, `explain`, `fix` and `trim`. Each call is made three times: without room, with half of the room that it asks for, and with one byte more than it
 * needs; the status is 99 where these disagree, or a byte was written that is none of the report's. `often N` before the command makes the calls N
 * times in each of four threads at once, and writes nothing. */
#include <pthread.h>
#include <stdio.h>
#include <stdlib.h>
#include <string.h>

#include "../library/hsaq.h"

enum { WRONG = 99, MARK = 0xa5, THREADS = 4 };

typedef struct {
    char *bytes;
    size_t length;
} text;

/* what is asked, of which texts, how often, and the answer */
typedef struct {
    const char *command;
    text job, other;
    unsigned long turns;
    char *report;
    size_t length;
    uint32_t status;
} call;

static void *taken(size_t size) {
    void *memory = malloc(size ? size : 1);
    if (!memory) exit(WRONG);
    return memory;
}

static text read_file(const char *path) {
    FILE *file = fopen(path, "rb");
    text it = {NULL, 0};
    if (!file || fseek(file, 0, SEEK_END)) exit(WRONG);
    it.length = (size_t)ftell(file);
    rewind(file);
    it.bytes = (char *)taken(it.length);
    if (fread(it.bytes, 1, it.length, file) != it.length) exit(WRONG);
    fclose(file);
    return it;
}

static uint32_t ask(const call *c, char *report, size_t room, size_t *length) {
    if (!strcmp(c->command, "audit")) return hsaq_audit(c->job.bytes, c->job.length, report, room, length);
    if (!strcmp(c->command, "show")) return hsaq_show(c->job.bytes, c->job.length, report, room, length);
    if (!strcmp(c->command, "explain")) return hsaq_explain(c->job.bytes, c->job.length, report, room, length);
    if (!strcmp(c->command, "fix")) return hsaq_fix(c->job.bytes, c->job.length, report, room, length);
    if (!strcmp(c->command, "trim")) return hsaq_trim(c->job.bytes, c->job.length, report, room, length);
    if (!strcmp(c->command, "check")) return hsaq_check(c->job.bytes, c->job.length, c->other.bytes, c->other.length, report, room, length);
    if (!strcmp(c->command, "replay")) return hsaq_replay(c->job.bytes, c->job.length, c->other.bytes, c->other.length, report, room, length);
    exit(WRONG);
}

/* whether all bytes behind the first ones are as they were */
static int is_left(const char *report, size_t first, size_t end) {
    for (; first < end; first++)
        if ((unsigned char)report[first] != MARK) return 0;
    return 1;
}

/* the call with so much room of a larger block: whether it says what the first one said */
static int agrees(const call *c, size_t room) {
    size_t length, fits = room < c->length ? room : c->length;
    char *report = (char *)taken(c->length + 8);
    memset(report, MARK, c->length + 8);
    uint32_t status = ask(c, report, room, &length);
    int is_same = status == c->status && length == c->length && is_left(report, fits, c->length + 8) && (!c->report || !memcmp(report, c->report, fits));
    free(report);
    return is_same;
}

static void *make(void *given) {
    call *c = (call *)given;
    for (unsigned long turn = 0; turn < c->turns; turn++) {
        char none;
        c->report = NULL;
        c->status = ask(c, &none, 0, &c->length);
        char *report = (char *)taken(c->length + 1);
        size_t length;
        if (ask(c, report, c->length + 1, &length) != c->status || length != c->length) exit(WRONG);
        c->report = report;
        if (!agrees(c, c->length / 2) || !agrees(c, c->length + 1)) exit(WRONG);
        if (turn + 1 < c->turns) free(report);
    }
    return NULL;
}

int main(int count, char **words) {
    call calls[THREADS];
    pthread_t threads[THREADS];
    int is_many = count > 2 && !strcmp(words[1], "often");
    int first = is_many ? 3 : 1, made = is_many ? THREADS : 1;
    if (count < first + 2) return WRONG;
    memset(calls, 0, sizeof calls);
    calls[0].command = words[first];
    calls[0].job = read_file(words[first + 1]);
    if (count > first + 2) calls[0].other = read_file(words[first + 2]);
    calls[0].turns = is_many ? strtoul(words[2], NULL, 10) : 1;
    for (int i = 1; i < made; i++) calls[i] = calls[0];
    for (int i = 1; i < made; i++)
        if (pthread_create(&threads[i], NULL, make, &calls[i])) return WRONG;
    make(&calls[0]);
    for (int i = 1; i < made; i++) pthread_join(threads[i], NULL);
    for (int i = 1; i < made; i++) {
        if (calls[i].length != calls[0].length || memcmp(calls[i].report, calls[0].report, calls[0].length)) return WRONG;
        free(calls[i].report);
    }
    if (!is_many) fwrite(calls[0].report, 1, calls[0].length, stdout);
    free(calls[0].report);
    free(calls[0].job.bytes);
    free(calls[0].other.bytes);
    return (int)calls[0].status;
}
