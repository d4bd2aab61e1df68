/* To be preloaded by a program: the request of memory that the environment names is refused. Requests are counted from 1, those that
   the program makes itself and not those of libraries. With FAILS=0 none is refused. The file that TELLS names is made when it is. */
#define _GNU_SOURCE
#include <errno.h>
#include <fcntl.h>
#include <link.h>
#include <stdatomic.h>
#include <stdint.h>
#include <stdlib.h>
#include <unistd.h>

extern void *__libc_malloc(size_t);
extern void *__libc_realloc(void *, size_t);

static atomic_ulong requests;
static unsigned long fails;
static uintptr_t begin, end;

static int find_program(struct dl_phdr_info *info, size_t size, void *data) {
    (void)size;
    (void)data;
    begin = UINTPTR_MAX;
    for (int k = 0; k < info->dlpi_phnum; k++) {
        const ElfW(Phdr) *part = &info->dlpi_phdr[k];
        if (part->p_type == PT_LOAD) {
            uintptr_t from = info->dlpi_addr + part->p_vaddr;
            begin = from < begin ? from : begin;
            end = from + part->p_memsz > end ? from + part->p_memsz : end;
        }
    }
    return 1; /* the program is the first one */
}

__attribute__((constructor)) static void open_counts(void) {
    const char *text = getenv("FAILS");
    dl_iterate_phdr(find_program, NULL);
    fails = text ? strtoul(text, NULL, 10) : 0;
}

/* A program may end without its destructors, so that a request is refused is told at once. */
static void tell(void) {
    const char *path = getenv("TELLS");
    int file = path ? open(path, O_CREAT | O_WRONLY, 0600) : -1;
    if (file >= 0) {
        close(file);
    }
}

static int is_refused(void *caller) {
    uintptr_t at = (uintptr_t)caller;
    if (at < begin || at >= end) {
        return 0;
    }
    if (atomic_fetch_add(&requests, 1) + 1 != fails) {
        return 0;
    }
    tell();
    errno = ENOMEM;
    return 1;
}

void *malloc(size_t size) {
    return is_refused(__builtin_return_address(0)) ? NULL : __libc_malloc(size);
}

void *realloc(void *kept, size_t size) {
    return is_refused(__builtin_return_address(0)) ? NULL : __libc_realloc(kept, size);
}
