// Refuses memory to a program that runs with this library before it: call number REFUSED of those that take memory, and
// where REFUSED_ON is set every later one too. How many there were stands in the file REFUSED_COUNT, in 64 bits.
#include <fcntl.h>
#include <stdint.h>
#include <stdlib.h>
#include <sys/mman.h>

void *__libc_malloc(size_t size);
void *__libc_realloc(void *place, size_t size);

static uint64_t own_count;
static uint64_t *count = &own_count;
static uint64_t refused;
static int refused_on;

__attribute__((constructor)) static void begin(void) {
    const char *number = getenv("REFUSED");
    const char *name = getenv("REFUSED_COUNT");
    int file = name ? open(name, O_RDWR) : -1;
    if (file >= 0) {
        void *shared = mmap(NULL, sizeof *count, PROT_READ | PROT_WRITE, MAP_SHARED, file, 0);
        if (shared != MAP_FAILED) count = shared;
    }
    *count = 0;
    refused_on = getenv("REFUSED_ON") != NULL;
    refused = number ? strtoull(number, NULL, 10) : 0;
}

static int is_refused(void) {
    uint64_t call = ++*count;
    return refused != 0 && (call == refused || (refused_on && call > refused));
}

void *malloc(size_t size) { return is_refused() ? NULL : __libc_malloc(size); }

void *realloc(void *place, size_t size) { return is_refused() ? NULL : __libc_realloc(place, size); }
