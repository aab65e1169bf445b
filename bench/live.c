// Counts what a program leaves allocated, by where it was: to be loaded before the C library (LD_PRELOAD).
//
// After the first SIGUSR1 each block is kept with the calls that asked for it, and at each later one all that are still
// there are told to the file that LIVE names: for each way of calls a line of how many blocks, how many bytes with 8 of the
// allocator's own each, and the return addresses, the innermost first. The program keeps frame pointers.
#define _GNU_SOURCE
#include <dlfcn.h>
#include <fcntl.h>
#include <malloc.h>
#include <pthread.h>
#include <signal.h>
#include <stdint.h>
#include <stdio.h>
#include <stdlib.h>
#include <string.h>
#include <unistd.h>

enum { DEPTH = 24, ROOM = 1 << 20 };

struct block {
    void *at;
    size_t size;
    void *calls[DEPTH];
};

static struct block *blocks;
static int begun;
static pthread_mutex_t lock = PTHREAD_MUTEX_INITIALIZER;
static void *(*real_malloc)(size_t);
static void *(*real_realloc)(void *, size_t);
static void (*real_free)(void *);

static struct block *place_of(void *at) {
    size_t i = ((uintptr_t)at >> 4) * 0x9e3779b97f4a7c15u >> 44;
    while (blocks[i % ROOM].at && blocks[i % ROOM].at != at)
        i++;
    return &blocks[i % ROOM];
}

// A block that went leaves its place with size 0, so that those behind it are found.
static void went(void *at) {
    if (!begun || !at)
        return;
    pthread_mutex_lock(&lock);
    struct block *block = place_of(at);
    block->size = 0;
    pthread_mutex_unlock(&lock);
}

static void came(void *at, void **frame) {
    if (!begun || !at)
        return;
    pthread_mutex_lock(&lock);
    struct block *block = place_of(at);
    block->at = at;
    block->size = malloc_usable_size(at) + 8;
    memset(block->calls, 0, sizeof block->calls);
    for (int i = 0; i < DEPTH && frame && ((uintptr_t)frame & 7) == 0; i++) {
        void **next = frame[0];
        block->calls[i] = frame[1];
        if (next <= frame || (uintptr_t)next - (uintptr_t)frame > 1 << 20)
            break;
        frame = next;
    }
    pthread_mutex_unlock(&lock);
}

void *malloc(size_t size) {
    if (!real_malloc)
        real_malloc = dlsym(RTLD_NEXT, "malloc");
    void *at = real_malloc(size);
    came(at, __builtin_frame_address(0));
    return at;
}

void *realloc(void *old, size_t size) {
    if (!real_realloc)
        real_realloc = dlsym(RTLD_NEXT, "realloc");
    went(old);
    void *at = real_realloc(old, size);
    came(at, __builtin_frame_address(0));
    return at;
}

void free(void *at) {
    if (!real_free)
        real_free = dlsym(RTLD_NEXT, "free");
    went(at);
    real_free(at);
}

static int by_calls(const void *a, const void *b) {
    return memcmp(((const struct block *)a)->calls, ((const struct block *)b)->calls, sizeof ((struct block *)a)->calls);
}

static void tell(int signal) {
    (void)signal;
    if (!begun) {
        begun = 1;
        return;
    }
    begun = 0;
    FILE *out = fopen(getenv("LIVE"), "w");
    size_t count = 0;
    for (size_t i = 0; i < ROOM; i++)
        if (blocks[i].at && blocks[i].size)
            blocks[count++] = blocks[i];
    qsort(blocks, count, sizeof *blocks, by_calls);
    for (size_t i = 0, next; i < count; i = next) {
        size_t bytes = 0;
        for (next = i; next < count && !by_calls(&blocks[i], &blocks[next]); next++)
            bytes += blocks[next].size;
        fprintf(out, "%zu %zu", next - i, bytes);
        for (int j = 0; j < DEPTH && blocks[i].calls[j]; j++)
            fprintf(out, " %p", blocks[i].calls[j]);
        fputc('\n', out);
    }
    fclose(out);
}

__attribute__((constructor)) static void init(void) {
    blocks = calloc(ROOM, sizeof *blocks);
    signal(SIGUSR1, tell);
}
