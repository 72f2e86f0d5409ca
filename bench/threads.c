/* The work of threads-times.rattle in plain C: so many threads share TURNS goings over of 64 KiB, each over bytes of its own.
   It shows how much faster this machine gets with more threads at all. */
#include <pthread.h>
#include <stdint.h>
#include <stdlib.h>
#include <string.h>

enum { BYTES = 65536, MOST = 64 };

static long turns_each;

static void *work(void *unused)
{
    uint8_t *bytes = malloc(BYTES);
    (void)unused;
    memset(bytes, 3, BYTES);
    for (long turn = 0; turn < turns_each; turn++) {
        for (int i = 0; i < BYTES; i++)
            bytes[i] = (uint8_t)(bytes[i] * 5 + 1);
        __asm__ volatile("" : : "r"(bytes) : "memory");
    }
    free(bytes);
    return NULL;
}

int main(int count, char **words)
{
    pthread_t threads[MOST];
    int many = count > 2 ? atoi(words[1]) : 1;
    turns_each = count > 2 ? atol(words[2]) / many : 0;
    for (int i = 0; i < many && i < MOST; i++)
        pthread_create(&threads[i], NULL, work, NULL);
    for (int i = 0; i < many && i < MOST; i++)
        pthread_join(threads[i], NULL);
    return 0;
}
