/* Threads that answer from copies of zones, while others are loaded and handed to them.
 *
 *     cc library_threads.c $(pkg-config --cflags --libs ningkraet) -pthread -o library_threads
 *     ./library_threads [RENEWALS]
 *
 * Each answer has to be that of zones which were there: its serial is never below one that its thread has seen, nor above the last one loaded.
 * An answer by a zone that was renewed meanwhile has to be whole too. */
#include <ningkraet.h>
#include <pthread.h>
#include <stdatomic.h>
#include <stdio.h>
#include <stdlib.h>
#include <string.h>

enum { THREADS = 4, HOSTS = 300 };

static nk_zones loaded = NK_ZONES_NONE;
static pthread_mutex_t lock = PTHREAD_MUTEX_INITIALIZER;
static atomic_uint renewed, stopped, faults;
static atomic_ulong answers, copies;

/* Loads a zone of this serial, with some hosts, which have its serial as their addresses. */
static uint32_t load(nk_zones *zones, unsigned serial) {
    static char text[HOSTS * 40 + 100];
    static uint8_t room[100];
    size_t written, length = sprintf(text, "$TTL 60\n@ SOA ns host %u 2 3 4 5\n@ NS ns\n", serial);
    for (int i = 0; i < HOSTS; i++) length += sprintf(text + length, "n%d A 10.%u.%u.%u\n", i, serial >> 16 & 255, serial >> 8 & 255, serial & 255);
    return nk_zones_load(zones, (const uint8_t *)"example", 7, (const uint8_t *)text, length, room, sizeof room, &written);
}

/* The address of a host, as a number: it ends the response. */
static unsigned address_of(nk_zones *zones, int host) {
    uint8_t query[64] = {1, 2, 1, 0, 0, 1}, room[512] = {0};
    size_t written, length = 12;
    length += 1 + (query[length] = sprintf((char *)query + length + 1, "n%d", host));
    memcpy(query + length, "\7example\0\0\1\0\1", 13);
    if (nk_zones_answer(zones, 0, query, length + 13, 1232, NK_UDP, room, sizeof room, &written) != NK_DONE || room[7] != 1) return 0;
    return room[written - 4] == 10 ? room[written - 3] << 16 | room[written - 2] << 8 | room[written - 1] : 0;
}

static void *answering(void *seed) {
    nk_zones own = NK_ZONES_NONE;
    unsigned seen = 0, last = 0, random = (unsigned)(size_t)seed;
    while (!stopped) {
        if (seen != renewed) {
            pthread_mutex_lock(&lock);
            if (nk_zones_copy(&loaded, &own) == NK_DONE) seen = renewed, copies++;
            pthread_mutex_unlock(&lock);
        }
        unsigned serial = address_of(&own, rand_r(&random) % HOSTS);
        faults += serial < last || serial < seen || serial > renewed;
        last = serial;
        answers++;
    }
    nk_zones_free(&own);
    return NULL;
}

int main(int argc, char **argv) {
    pthread_t threads[THREADS];
    unsigned count = argc > 1 ? atoi(argv[1]) : 1000;
    if (nk_zones_new(&loaded) != NK_DONE || load(&loaded, 1) != NK_DONE) return 2;
    renewed = 1;
    for (size_t i = 0; i < THREADS; i++) pthread_create(&threads[i], NULL, answering, (void *)(i + 1));
    /* So many, and until the threads have taken some of them. */
    for (unsigned serial = 2; serial <= count || copies < 2 * THREADS; serial++) {
        nk_zones fresh = NK_ZONES_NONE, old;
        pthread_mutex_lock(&lock);
        uint32_t code = nk_zones_copy(&loaded, &fresh);
        pthread_mutex_unlock(&lock);
        if (code != NK_DONE || load(&fresh, serial) != NK_DONE) return 2;
        pthread_mutex_lock(&lock);
        old = loaded, loaded = fresh, renewed = serial;
        pthread_mutex_unlock(&lock);
        nk_zones_free(&old);
    }
    stopped = 1;
    for (size_t i = 0; i < THREADS; i++) pthread_join(threads[i], NULL);
    nk_zones_free(&loaded);
    printf("%lu answers by %d threads, which took %lu of %u renewals; %u wrong\n", answers, THREADS, copies, renewed, faults);
    return faults != 0;
}
