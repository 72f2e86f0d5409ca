/* Writes a job text for `hsaq` of the queues that a runtime, driver or simulator has in its memory. C99; one header, nothing else needed.
 *
 *     hsaq_capture capture;
 *     hsaq_begin(&capture, stdout);
 *     hsaq_agent(&capture, "gpu");
 *     hsaq_buffer(&capture, "b", address, length, bytes);
 *     hsaq_signal(&capture, "s", handle, value);
 *     hsaq_kernel(&capture, "f", kernel_object, "fill");
 *     hsaq_args(&capture, kernarg_address, kernarg, length);
 *     hsaq_queue(&capture, "q", "gpu", ring, size, read_index, write_index);
 *     if (hsaq_end(&capture)) fprintf(stderr, "%s\n", hsaq_reason(&capture));
 *
 * Each call answers 0, or the reason why it is refused; after a refusal every call answers the same reason, and nothing is written.
 * The text is written whole by `hsaq_end`, which also gives back all memory; call it in any case. A capture is one thread's; the queues are to
 * stand still meanwhile. Addresses and handles are those that the packets have: no memory is read but what is handed in.
 *
 * This file is in the public domain. */
#ifndef HSAQ_CAPTURE_H
#define HSAQ_CAPTURE_H

#include <inttypes.h>
#include <stdarg.h>
#include <stdint.h>
#include <stdio.h>
#include <stdlib.h>
#include <string.h>

/* why a call is refused */
enum {
    HSAQ_OK = 0,
    HSAQ_NAME,        /* a name isn't 1 to 16 characters of a to z, 0 to 9 and _, the first a letter */
    HSAQ_RANGE,       /* an address, a length, a handle or a value that job texts don't have */
    HSAQ_KERNEL,      /* a kernel outside the table */
    HSAQ_SIZE,        /* a ring whose size is no power of two up to 1024, or whose indexes don't fit it */
    HSAQ_UNPUBLISHED, /* a slot below the write index whose packet is still invalid */
    HSAQ_QUEUE,       /* a queue that wasn't captured, or one more than 32 */
    HSAQ_MEMORY,      /* no memory */
    HSAQ_WRITE        /* the file can't be written */
};

enum { HSAQ_NAME_LENGTH = 16, HSAQ_QUEUES = 32, HSAQ_PACKET = 64, HSAQ_SLOTS = 1024 };

typedef struct {
    char *bytes;
    size_t length, room;
} hsaq_text;

typedef struct {
    FILE *out;
    int refused;     /* the reason, or 0 */
    char about[64];  /* what was refused, shortened */
    unsigned blocks; /* kernarg blocks so far */
    unsigned queues;
    struct {
        char name[HSAQ_NAME_LENGTH + 1], agent[HSAQ_NAME_LENGTH + 1];
        uint32_t size;
        uint64_t packets;
    } queue[HSAQ_QUEUES];
    hsaq_text lines;   /* what is declared */
    hsaq_text packets; /* in the order in which they were handed in: a byte with the queue, then the packet */
} hsaq_capture;

/* ---- inside */

static inline int hsaq_refuse(hsaq_capture *c, int reason, const char *about) {
    if (!c->refused) {
        c->refused = reason;
        snprintf(c->about, sizeof c->about, "%s", about ? about : "(none)");
    }
    return c->refused;
}

static inline int hsaq_add(hsaq_capture *c, hsaq_text *text, const void *bytes, size_t length) {
    if (text->room - text->length < length) {
        size_t room = 2 * text->room + length + 256;
        char *larger = (char *)realloc(text->bytes, room);
        if (!larger) return hsaq_refuse(c, HSAQ_MEMORY, "");
        text->bytes = larger;
        text->room = room;
    }
    memcpy(text->bytes + text->length, bytes, length);
    text->length += length;
    return c->refused;
}

static inline int hsaq_say(hsaq_capture *c, hsaq_text *text, const char *form, ...) {
    char line[160];
    va_list words;
    if (c->refused) return c->refused;
    va_start(words, form);
    int length = vsnprintf(line, sizeof line, form, words);
    va_end(words);
    return hsaq_add(c, text, line, (size_t)length);
}

static inline int hsaq_say_hex(hsaq_capture *c, hsaq_text *text, const void *bytes, size_t length) {
    const uint8_t *byte = (const uint8_t *)bytes;
    for (size_t i = 0; i < length && !c->refused; i++) hsaq_say(c, text, "%02x", byte[i]);
    return c->refused;
}

static inline int hsaq_check_name(hsaq_capture *c, const char *name) {
    size_t length = name ? strlen(name) : 0;
    int fits = length >= 1 && length <= HSAQ_NAME_LENGTH && name[0] >= 'a' && name[0] <= 'z';
    for (size_t i = 0; fits && i < length; i++) fits = (name[i] >= 'a' && name[i] <= 'z') || (name[i] >= '0' && name[i] <= '9') || name[i] == '_';
    return fits ? c->refused : hsaq_refuse(c, HSAQ_NAME, name);
}

static inline int hsaq_check_range(hsaq_capture *c, const char *name, uint64_t number, uint64_t least, uint64_t most) {
    return number >= least && number <= most ? c->refused : hsaq_refuse(c, HSAQ_RANGE, name);
}

/* takes a packet in, behind those that its queue has */
static inline int hsaq_take(hsaq_capture *c, unsigned queue, const void *packet) {
    uint8_t header[2], number = (uint8_t)queue;
    memcpy(header, packet, sizeof header);
    if (header[0] == 1) return hsaq_refuse(c, HSAQ_UNPUBLISHED, c->queue[queue].name);
    if (hsaq_add(c, &c->packets, &number, 1)) return c->refused;
    c->queue[queue].packets++;
    return hsaq_add(c, &c->packets, packet, HSAQ_PACKET);
}

static inline int hsaq_say_queue(hsaq_capture *c, unsigned queue) {
    return hsaq_say(c, &c->lines, "queue %s %s %" PRIu32 "\n", c->queue[queue].name, c->queue[queue].agent, c->queue[queue].size);
}

static inline int hsaq_say_packet(hsaq_capture *c, const char *packet) {
    hsaq_say(c, &c->lines, "packet ");
    hsaq_say_hex(c, &c->lines, packet, HSAQ_PACKET);
    return hsaq_say(c, &c->lines, "\n");
}

/* the packets queue by queue, as they lie in their rings */
static inline void hsaq_say_queues(hsaq_capture *c) {
    for (unsigned q = 0; q < c->queues; q++) {
        hsaq_say_queue(c, q);
        for (size_t at = 0; at < c->packets.length; at += 1 + HSAQ_PACKET)
            if ((uint8_t)c->packets.bytes[at] == q) hsaq_say_packet(c, c->packets.bytes + at + 1);
    }
}

/* the packets in the order in which they were handed in, which is the order of their submission */
static inline void hsaq_say_rings(hsaq_capture *c) {
    unsigned last = HSAQ_QUEUES;
    for (unsigned q = 0; q < c->queues; q++) hsaq_say_queue(c, q);
    for (size_t at = 0; at < c->packets.length; at += 1 + HSAQ_PACKET) {
        unsigned q = (uint8_t)c->packets.bytes[at];
        if (q != last) hsaq_say(c, &c->lines, "to %s\n", c->queue[q].name);
        hsaq_say_packet(c, c->packets.bytes + at + 1);
        last = q;
    }
}

/* ---- the calls, in the order of a job text: a call may name only what calls before it declared */

/* Begins a capture; the text goes to this file, by `hsaq_end`. */
static inline int hsaq_begin(hsaq_capture *c, FILE *out) {
    memset(c, 0, sizeof *c);
    c->out = out;
    return HSAQ_OK;
}

/* An agent: a kernel agent, or another packet processor. */
static inline int hsaq_agent(hsaq_capture *c, const char *name) {
    hsaq_check_name(c, name);
    return hsaq_say(c, &c->lines, "agent %s\n", name);
}

/* Memory that kernels read and write, with its bytes, or zeros where there are none: ADDRESS 1 to 2^48, LENGTH 1 to 65536 bytes. */
static inline int hsaq_buffer(hsaq_capture *c, const char *name, uint64_t address, uint64_t length, const void *bytes) {
    hsaq_check_name(c, name);
    hsaq_check_range(c, name, address, 1, (uint64_t)1 << 48);
    hsaq_check_range(c, name, length, 1, 65536);
    hsaq_say(c, &c->lines, "buffer %s %" PRIu64 " %" PRIu64, name, address, length);
    if (bytes) {
        hsaq_say(c, &c->lines, " ");
        hsaq_say_hex(c, &c->lines, bytes, c->refused ? 0 : (size_t)length);
    }
    return hsaq_say(c, &c->lines, "\n");
}

/* A signal by its handle, with its value before any of the packets is complete. */
static inline int hsaq_signal(hsaq_capture *c, const char *name, uint64_t handle, int64_t value) {
    hsaq_check_name(c, name);
    hsaq_check_range(c, name, handle, 1, UINT64_MAX);
    hsaq_check_range(c, name, (uint64_t)value, 0, INT64_MAX);
    return hsaq_say(c, &c->lines, "signal %s %" PRIu64 " %" PRId64 "\n", name, handle, value);
}

/* A kernel by its kernel object, and what it does: fill, copy, rev, xor, add or sum. Of another kernel say one of these that reads and
 * writes the same ranges: the order of packets depends on nothing else. */
static inline int hsaq_kernel(hsaq_capture *c, const char *name, uint64_t object, const char *code) {
    static const char *const table[] = {"fill", "copy", "rev", "xor", "add", "sum"};
    int known = 0;
    for (size_t i = 0; code && i < sizeof table / sizeof *table; i++) known |= !strcmp(code, table[i]);
    hsaq_check_name(c, name);
    hsaq_check_range(c, name, object, 1, UINT64_MAX);
    if (!known) hsaq_refuse(c, HSAQ_KERNEL, name);
    return hsaq_say(c, &c->lines, "kernel %s %" PRIu64 " %s\n", name, object, known ? code : "");
}

/* A kernarg block: 1 to 64 bytes. */
static inline int hsaq_args(hsaq_capture *c, uint64_t address, const void *bytes, size_t length) {
    hsaq_check_range(c, "kernarg", address, 1, UINT64_MAX);
    hsaq_check_range(c, "kernarg", length, 1, 64);
    hsaq_say(c, &c->lines, "args k%u %" PRIu64 " ", c->blocks++, address);
    hsaq_say_hex(c, &c->lines, bytes, c->refused ? 0 : length);
    return hsaq_say(c, &c->lines, "\n");
}

/* A queue, by its ring: SIZE slots of 64 bytes from BASE on, and the packets from the read index up to the write index. */
static inline int hsaq_queue(hsaq_capture *c, const char *name, const char *agent, const void *base, uint32_t size, uint64_t read, uint64_t write) {
    hsaq_check_name(c, name);
    hsaq_check_name(c, agent);
    if (size < 1 || size > HSAQ_SLOTS || (size & (size - 1)) || write < read || write - read > size) hsaq_refuse(c, HSAQ_SIZE, name);
    if (c->queues == HSAQ_QUEUES) hsaq_refuse(c, HSAQ_QUEUE, name);
    if (c->refused) return c->refused;
    strcpy(c->queue[c->queues].name, name);
    strcpy(c->queue[c->queues].agent, agent);
    c->queue[c->queues].size = size;
    c->queues++;
    for (uint64_t index = read; index < write && !c->refused; index++)
        hsaq_take(c, c->queues - 1, (const uint8_t *)base + (size_t)(index % size) * HSAQ_PACKET);
    return c->refused;
}

/* One packet more of a captured queue, behind those that it has. Where a queue gets more packets than it has slots, its packets are submitted
 * in the order in which they were handed in, each once its slot is free. */
static inline int hsaq_packet(hsaq_capture *c, const char *name, const void *packet) {
    if (c->refused) return c->refused;
    for (unsigned q = 0; name && q < c->queues; q++)
        if (!strcmp(c->queue[q].name, name)) return hsaq_take(c, q, packet);
    return hsaq_refuse(c, HSAQ_QUEUE, name);
}

#ifdef HSA_RUNTIME_INC_HSA_H_
/* The same of a queue of `hsa.h`, which is to be included before this header. */
static inline int hsaq_of_queue(hsaq_capture *c, const char *name, const char *agent, const hsa_queue_t *queue, uint64_t read, uint64_t write) {
    return hsaq_queue(c, name, agent, queue->base_address, queue->size, read, write);
}
#endif

/* Writes the text, if nothing was refused, and gives all memory back. */
static inline int hsaq_end(hsaq_capture *c) {
    int rings = 0;
    for (unsigned q = 0; q < c->queues; q++) rings |= c->queue[q].packets > c->queue[q].size;
    if (rings)
        hsaq_say_rings(c);
    else
        hsaq_say_queues(c);
    hsaq_say(c, &c->lines, "end\n");
    if (!c->refused) {
        fputs(rings ? "hsaq 2\n" : "hsaq 1\n", c->out);
        fwrite(c->lines.bytes, 1, c->lines.length, c->out);
        if (fflush(c->out) || ferror(c->out)) hsaq_refuse(c, HSAQ_WRITE, "");
    }
    free(c->lines.bytes);
    free(c->packets.bytes);
    c->lines.bytes = c->packets.bytes = NULL;
    c->lines.length = c->lines.room = c->packets.length = c->packets.room = 0;
    return c->refused;
}

/* In plain words, why the capture was refused; of a name, which one. It stands in the capture until its next use. */
static inline const char *hsaq_reason(hsaq_capture *c) {
    static const char *const words[] = {
        "nothing was refused",
        "a name is 1 to 16 characters of a to z, 0 to 9 and _, the first a letter",
        "an address, length, handle or value is out of range",
        "a kernel outside the table: name fill, copy, rev, xor, add or sum, whichever reads and writes the same ranges",
        "a ring has a power of two of slots, up to 1024, and at most so many packets between its indexes",
        "a packet below the write index is still invalid: its header isn't published",
        "no queue of this name was captured, or there are more than 32",
        "out of memory",
        "the file can't be written",
    };
    return words[c->refused];
}

#endif
