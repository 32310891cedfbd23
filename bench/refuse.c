// Refuses one request for memory of the program that it is preloaded into. bench/allocations builds it.
//
// The variable GHG_REFUSED is the number of that request, from 1 on, and 0 for none. GHG_ASKED names a file of eight
// bytes, which has how many requests were made, as an integer of this machine. It needs the GNU C library.
#include <fcntl.h>
#include <stdlib.h>
#include <sys/mman.h>

void *__libc_malloc(size_t size);
void *__libc_realloc(void *block, size_t size);

static _Atomic unsigned long *asked;
static unsigned long refused;

__attribute__((constructor)) static void begin(void) {
    int file = open(getenv("GHG_ASKED"), O_RDWR);
    void *place = mmap(NULL, sizeof *asked, PROT_READ | PROT_WRITE, MAP_SHARED, file, 0);
    if (place == MAP_FAILED) abort();
    refused = strtoul(getenv("GHG_REFUSED"), NULL, 10);
    asked = place;
}

static int is_refused(void) {
    return asked && ++*asked == refused;
}

void *malloc(size_t size) {
    return is_refused() ? NULL : __libc_malloc(size);
}

void *realloc(void *block, size_t size) {
    return is_refused() ? NULL : __libc_realloc(block, size);
}
