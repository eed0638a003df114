/* Refuses one growth of the program that it is loaded into (LD_PRELOAD), as a machine without memory would: the call of malloc, calloc
 * or realloc whose number GROWTH has, counted from 1 among those that the program itself makes; with 0, or without GROWTH, none. The
 * file that GROWTHS names has the number of such calls, eight bytes as the processor has them, also where the program is killed. What
 * the C library takes for itself is not counted. */
#define _GNU_SOURCE
#include <errno.h>
#include <fcntl.h>
#include <link.h>
#include <stdint.h>
#include <stdlib.h>
#include <sys/mman.h>
#include <unistd.h>

void *__libc_malloc(size_t);
void *__libc_calloc(size_t, size_t);
void *__libc_realloc(void *, size_t);

static uintptr_t begin, end;
static uint64_t refused, unnamed, *calls = &unnamed;

/* The first object is the program. */
static int take(struct dl_phdr_info *it, size_t size, void *to) {
    (void)size;
    (void)to;
    for (int at = 0; at < it->dlpi_phnum; at++) {
        const ElfW(Phdr) *part = &it->dlpi_phdr[at];
        uintptr_t from = it->dlpi_addr + part->p_vaddr;
        if (part->p_type != PT_LOAD)
            continue;
        if (begin == 0 || from < begin)
            begin = from;
        if (from + part->p_memsz > end)
            end = from + part->p_memsz;
    }
    return 1;
}

__attribute__((constructor)) static void start(void) {
    const char *which = getenv("GROWTH"), *path = getenv("GROWTHS");
    int file = path != NULL ? open(path, O_RDWR | O_CREAT, 0600) : -1;
    if (file >= 0 && ftruncate(file, sizeof *calls) == 0) {
        void *at = mmap(NULL, sizeof *calls, PROT_READ | PROT_WRITE, MAP_SHARED, file, 0);
        if (at != MAP_FAILED)
            calls = at;
    }
    if (file >= 0)
        close(file);
    *calls = 0;
    refused = which != NULL ? strtoull(which, NULL, 10) : 0;
    dl_iterate_phdr(take, NULL);
}

/* Whether the call that comes back there is the one. */
static int is_refused(const void *back) {
    uintptr_t at = (uintptr_t)back;
    if (at < begin || at >= end || __atomic_add_fetch(calls, 1, __ATOMIC_SEQ_CST) != refused)
        return 0;
    errno = ENOMEM;
    return 1;
}

void *malloc(size_t size) { return is_refused(__builtin_return_address(0)) ? NULL : __libc_malloc(size); }

void *calloc(size_t count, size_t size) { return is_refused(__builtin_return_address(0)) ? NULL : __libc_calloc(count, size); }

void *realloc(void *from, size_t size) { return is_refused(__builtin_return_address(0)) ? NULL : __libc_realloc(from, size); }
