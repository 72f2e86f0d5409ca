/* Captures by capture/hsaq_capture.h: of a ring whose packets wrap, of a queue with more packets than slots, and what is refused. The first
 * word says which text is written to standard output: `wrapped` or `rings`; `refused` writes how many calls weren't refused as they should be. */
#include <stdint.h>
#include <stdio.h>
#include <string.h>

#ifdef WITH_HSA
#include <hsa/hsa.h>
#endif
#include "../capture/hsaq_capture.h"

/* a service that stores a value at an address */
static void store(uint8_t *packet, uint64_t address, uint8_t value) {
    memset(packet, 0, 64);
    packet[0] = 4;
    packet[1] = 9; /* the barrier bit, and a release fence of scope agent */
    packet[3] = 0x80;
    for (size_t i = 0; i < 8; i++) packet[8 + i] = (uint8_t)(address >> 8 * i);
    packet[16] = value;
}

static void declare(hsaq_capture *c, FILE *out) {
    hsaq_begin(c, out);
    hsaq_agent(c, "a");
    hsaq_buffer(c, "b", 4096, 8, "\1\2\3\4\5\6\7\10");
}

/* slots 3, 0 and 1 of a ring of four */
static int wrapped(void) {
    static uint8_t ring[4][64];
    hsaq_capture c;
    for (size_t i = 0; i < 4; i++) ring[i][0] = 1;
    store(ring[3], 4096, 1);
    store(ring[0], 4096, 2);
    store(ring[1], 4096, 3);
    declare(&c, stdout);
#ifdef WITH_HSA
    hsa_queue_t queue;
    memset(&queue, 0, sizeof queue);
    queue.base_address = ring;
    queue.size = 4;
    hsaq_of_queue(&c, "q", "a", &queue, 7, 10);
#else
    hsaq_queue(&c, "q", "a", ring, 4, 7, 10);
#endif
    return hsaq_end(&c);
}

/* two rings of one slot, with packets handed in in turn */
static int rings(void) {
    uint8_t packet[64];
    hsaq_capture c;
    declare(&c, stdout);
    hsaq_queue(&c, "q", "a", packet, 1, 5, 5);
    hsaq_queue(&c, "r", "a", packet, 1, 0, 0);
    store(packet, 4096, 1);
    hsaq_packet(&c, "q", packet);
    store(packet, 4096, 2);
    hsaq_packet(&c, "q", packet);
    store(packet, 0, 0);
    hsaq_packet(&c, "r", packet);
    return hsaq_end(&c);
}

enum { CALLS = 14 };

/* a call that is to be refused, and for which reason */
static int call(hsaq_capture *c, int which, int *reason) {
    static uint8_t ring[64] = {1};
    static const int reasons[CALLS] = {HSAQ_NAME,  HSAQ_NAME, HSAQ_NAME,   HSAQ_RANGE, HSAQ_RANGE, HSAQ_RANGE,      HSAQ_RANGE,
                                       HSAQ_RANGE, HSAQ_NAME, HSAQ_KERNEL, HSAQ_SIZE,  HSAQ_SIZE,  HSAQ_UNPUBLISHED, HSAQ_QUEUE};
    *reason = reasons[which];
    switch (which) {
    case 0: return hsaq_agent(c, "GPU");
    case 1: return hsaq_agent(c, "");
    case 2: return hsaq_agent(c, "seventeen_letters");
    case 3: return hsaq_buffer(c, "c", 0, 8, NULL);
    case 4: return hsaq_buffer(c, "c", 8192, 65537, NULL);
    case 5: return hsaq_signal(c, "s", 0, 1);
    case 6: return hsaq_signal(c, "s", 9, -1);
    case 7: return hsaq_args(c, 256, ring, 65);
    case 8: return hsaq_kernel(c, NULL, 1, "fill");
    case 9: return hsaq_kernel(c, "k", 1, "matmul");
    case 10: return hsaq_queue(c, "q", "a", ring, 3, 0, 1);
    case 11: return hsaq_queue(c, "q", "a", ring, 1, 0, 2);
    case 12: return hsaq_queue(c, "q", "a", ring, 1, 0, 1);
    default: return hsaq_packet(c, "q", ring);
    }
}

static int refused(void) {
    int wrong = 0;
    for (int which = 0; which < CALLS; which++) {
        FILE *out = tmpfile();
        hsaq_capture c;
        int reason;
        if (!out) return 1;
        declare(&c, out);
        wrong += c.refused != HSAQ_OK;
        wrong += call(&c, which, &reason) != reason;
        wrong += hsaq_agent(&c, "c") != reason; /* as all calls behind it */
        wrong += hsaq_end(&c) != reason;
        wrong += ftell(out) != 0; /* nothing was written */
        wrong += !strlen(hsaq_reason(&c));
        fclose(out);
    }
    printf("%d\n", wrong);
    return 0;
}

int main(int count, char **words) {
    if (count != 2) return 2;
    if (!strcmp(words[1], "wrapped")) return wrapped();
    if (!strcmp(words[1], "rings")) return rings();
    return refused();
}
