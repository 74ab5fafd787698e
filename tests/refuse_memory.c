// Preloaded before a program, counts its requests for memory and refuses one of them, or each between two marks. To give back
// a part of a block is no request for memory.
//
// REFUSE_REQUEST   the request to refuse, counted from 1; none if it is absent
// REFUSE_MARKED    if it is there, each request between two marks is refused, and only these are counted. A mark is a request
//                  for as many bytes as one of the two constants below, and is answered
// COUNT_REQUESTS   a file of at least 42 bytes: its first line keeps the number of requests and that of pairs of marks
// COUNT_LIVE       a file, into which the program's end writes how many blocks and bytes were asked for and not given back
#define _GNU_SOURCE
#include <dlfcn.h>
#include <errno.h>
#include <fcntl.h>
#include <malloc.h>
#include <stdio.h>
#include <stdint.h>
#include <stdlib.h>
#include <string.h>
#include <sys/mman.h>
#include <unistd.h>

enum { NONE_LEFT = 99991, LEFT_AGAIN = 99989 };

// Two numbers of 20 places each, which a shell reads at once and without another program.
static const char NO_COUNTS[] = "                   0                    0\n";
static char counted[sizeof NO_COUNTS];
static char *counts = counted;
static uint64_t requests;
static uint64_t refused;
static int by_marks;
static int is_none_left;
static int64_t live_blocks;
static int64_t live_bytes;

static void count_one(char *last_place) {
    while (*last_place == '9') *last_place-- = '0';
    *last_place = *last_place == ' ' ? '1' : *last_place + 1;
}

static void count_request(void) {
    requests++;
    count_one(counts + 19);
}

static void count_pair(void) { count_one(counts + 40); }

__attribute__((constructor)) static void start(void) {
    const char *which = getenv("REFUSE_REQUEST");
    const char *path = getenv("COUNT_REQUESTS");
    int file = path ? open(path, O_RDWR) : -1;
    if (file >= 0) {
        void *page = mmap(NULL, sizeof NO_COUNTS - 1, PROT_READ | PROT_WRITE, MAP_SHARED, file, 0);
        if (page != MAP_FAILED) counts = page;
        close(file);
    }
    memcpy(counts, NO_COUNTS, sizeof NO_COUNTS - 1);
    requests = 0;
    by_marks = getenv("REFUSE_MARKED") != NULL;
    refused = which ? strtoull(which, NULL, 10) : 0;
}

static int refuse(void) {
    errno = ENOMEM;
    return 1;
}

static int is_refused_by_marks(size_t size) {
    if (size == NONE_LEFT) {
        is_none_left = 1;
        return 0;
    }
    if (size == LEFT_AGAIN && is_none_left) {
        is_none_left = 0;
        count_pair();
    }
    if (!is_none_left) return 0;
    count_request();
    return refuse();
}

static int is_refused(size_t size) {
    if (by_marks) return is_refused_by_marks(size);
    count_request();
    return requests == refused ? refuse() : 0;
}

// Counts a block that comes, or goes.
static void *count_live(void *block, int by) {
    if (block) {
        live_blocks += by;
        live_bytes += by * (int64_t)malloc_usable_size(block);
    }
    return block;
}

__attribute__((destructor)) static void end(void) {
    const char *path = getenv("COUNT_LIVE");
    int64_t blocks = live_blocks, bytes = live_bytes;
    int file = path ? open(path, O_WRONLY | O_CREAT | O_TRUNC, 0600) : -1;
    if (file >= 0) {
        dprintf(file, "%lld %lld\n", (long long)blocks, (long long)bytes);
        close(file);
    }
}

void *malloc(size_t size) {
    static void *(*next)(size_t);
    if (!next) next = dlsym(RTLD_NEXT, "malloc");
    return is_refused(size) ? NULL : count_live(next(size), 1);
}

void free(void *block) {
    static void (*next)(void *);
    if (!next) next = dlsym(RTLD_NEXT, "free");
    next(count_live(block, -1));
}

void *realloc(void *old, size_t size) {
    static void *(*next)(void *, size_t);
    int64_t blocks = live_blocks, bytes = live_bytes;
    void *new;
    if (!next) next = dlsym(RTLD_NEXT, "realloc");
    if (!(old && size <= malloc_usable_size(old)) && is_refused(size)) return NULL;
    count_live(old, -1);
    new = next(old, size);
    if (new || !size) return count_live(new, 1);
    live_blocks = blocks;
    live_bytes = bytes;
    return NULL;
}
