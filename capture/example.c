/* Two queues as a runtime fills them, captured as a job text for `hsaq`.
 *
 * One queue has a kernel dispatch that fills four bytes and counts a signal down; the other has a barrier-AND packet that waits for the signal,
 * and a dispatch that copies these bytes. A slot is reserved first, then the packet's body is written, and its header last.
 *
 *     cc -std=c99 -o example example.c && ./example | hsaq audit @
 *
 * Built with the checker inside, it audits the text itself, in place of writing it; `racing` as its word leaves the barrier-AND packet out:
 *
 *     cc -std=c99 -DWITH_LIBRARY -o example example.c "$(../hsaq --library)" && ./example racing */
#include <stdint.h>
#include <stdio.h>
#include <string.h>

#include "hsaq_capture.h"
#ifdef WITH_LIBRARY
#include "../library/hsaq.h"
#endif

enum { SIZE = 4, INVALID = 1, KERNEL_DISPATCH = 2, BARRIER_AND = 3, AGENT_SCOPE = 1 };

/* a ring, and the indexes of its queue, which only grow */
typedef struct {
    uint8_t slots[SIZE][64];
    uint64_t read, write;
} ring;

/* a number of so many bytes at an offset of a packet, as every processor has it */
static void put(uint8_t *packet, size_t offset, uint64_t number, size_t bytes) {
    for (size_t i = 0; i < bytes; i++) packet[offset + i] = (uint8_t)(number >> 8 * i);
}

/* reserves a slot, whose packet stays invalid until its header is published */
static uint8_t *reserve(ring *ring) {
    uint8_t *packet = ring->slots[ring->write++ % SIZE];
    memset(packet, 0, 64);
    packet[0] = INVALID;
    return packet;
}

/* publishes the packet: its header is written last */
static void publish(uint8_t *packet, unsigned format, unsigned acquire, unsigned release) {
    uint16_t header = (uint16_t)(format | acquire << 9 | release << 11);
    packet[1] = (uint8_t)(header >> 8);
    packet[0] = (uint8_t)header; /* in a runtime an atomic store with release order */
}

static void dispatch(ring *ring, uint32_t items, uint64_t object, uint64_t kernarg, uint64_t done) {
    uint8_t *packet = reserve(ring);
    put(packet, 2, 1, 2); /* one dimension */
    for (size_t i = 0; i < 3; i++) put(packet, 4 + 2 * i, 1, 2);
    put(packet, 12, items, 4);
    put(packet, 16, 1, 4);
    put(packet, 20, 1, 4);
    put(packet, 32, object, 8);
    put(packet, 40, kernarg, 8);
    put(packet, 56, done, 8);
    publish(packet, KERNEL_DISPATCH, AGENT_SCOPE, AGENT_SCOPE);
}

static void wait_for(ring *ring, uint64_t signal) {
    uint8_t *packet = reserve(ring);
    put(packet, 8, signal, 8);
    publish(packet, BARRIER_AND, 0, 0);
}

/* the two queues, filled; the barrier-AND packet is left out where they are to race */
static void fill_queues(ring *first, ring *second, int racing) {
    dispatch(first, 4, 1, 256, 9);
    if (!racing) wait_for(second, 9);
    dispatch(second, 4, 2, 512, 0);
}

/* writes the job text of the two queues; 0, or what the capture was refused for, which standard error says */
static int capture_queues(FILE *out, const ring *first, const ring *second) {
    uint64_t fill[2] = {4096, 7}, copy[2] = {4096, 4100};
    uint8_t fill_block[16], copy_block[16];
    for (size_t i = 0; i < 2; i++) {
        put(fill_block, 8 * i, fill[i], 8);
        put(copy_block, 8 * i, copy[i], 8);
    }
    hsaq_capture capture;
    hsaq_begin(&capture, out);
    hsaq_agent(&capture, "gpu");
    hsaq_buffer(&capture, "b", 4096, 8, NULL);
    hsaq_args(&capture, 256, fill_block, sizeof fill_block);
    hsaq_args(&capture, 512, copy_block, sizeof copy_block);
    hsaq_kernel(&capture, "f", 1, "fill");
    hsaq_kernel(&capture, "c", 2, "copy");
    hsaq_signal(&capture, "s", 9, 1);
    hsaq_queue(&capture, "p", "gpu", first->slots, SIZE, first->read, first->write);
    hsaq_queue(&capture, "r", "gpu", second->slots, SIZE, second->read, second->write);
    if (!hsaq_end(&capture)) return 0;
    fprintf(stderr, "example: %s (%s)\n", hsaq_reason(&capture), capture.about);
    return 1;
}

#ifdef WITH_LIBRARY
/* audits the captured text within this process, and says what came of it */
static int audit_here(const ring *first, const ring *second) {
    static char text[65536], report[4096], kind[3], why[16];
    size_t length, p, r;
    FILE *file = tmpfile();
    if (!file || capture_queues(file, first, second)) return 1;
    rewind(file);
    size_t read = fread(text, 1, sizeof text, file);
    fclose(file);
    uint32_t status = hsaq_audit(text, read, report, sizeof report - 1, &length);
    if (status == HSAQ_STATUS_FILE || length >= sizeof report) return 1;
    report[length] = 0;
    if (status == HSAQ_STATUS_DONE)
        printf("ordered; the certificate has %zu bytes\n", length);
    else if (status == HSAQ_STATUS_CONFLICT && sscanf(report, "conflict %zu %zu %2s %15s", &p, &r, kind, why) == 4)
        printf("packet %zu %s what packet %zu %s (%s)\n", r, kind[1] == 'r' ? "reads" : "writes", p, kind[0] == 'r' ? "reads" : "writes", why);
    else
        printf("%s", report);
    return (int)status;
}
#endif

int main(int count, char **words) {
    static ring first, second;
    fill_queues(&first, &second, count > 1 && !strcmp(words[1], "racing"));
#ifdef WITH_LIBRARY
    return audit_here(&first, &second);
#else
    return capture_queues(stdout, &first, &second);
#endif
}
