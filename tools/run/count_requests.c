// Counts a program's requests for memory: a library to be loaded before the program's others (LD_PRELOAD). Where the
// environment's COUNTED names a file, there stand behind a run
//
//     requests N      how many requests there were
//     held N          the most bytes that it held at once
//     request N       for each that asked for more than COUNTED_ABOVE bytes, in their order: for how many it asked
//
// A request of a library, as of the C library itself, is none of the program's. Nor is one for no more than a block holds
// already, as where a list is cut to its length. What a block is asked to grow to is a request of that size.
#define _GNU_SOURCE
#include <dlfcn.h>
#include <link.h>
#include <malloc.h>
#include <stdio.h>
#include <stdlib.h>

enum { MOST_KEPT = 4096 };

static uintptr_t first, last;
static size_t above, requests, held, most_held;
static size_t kept[MOST_KEPT], kept_count;
static void *(*real_malloc)(size_t);
static void *(*real_realloc)(void *, size_t);
static void (*real_free)(void *);

// Keeps where the code of the program stands, which is the first object that is listed.
static int keep_code(struct dl_phdr_info *listed, size_t size, void *unused) {
    (void)size;
    (void)unused;
    for (int i = 0; i < listed->dlpi_phnum; i++) {
        const ElfW(Phdr) *part = &listed->dlpi_phdr[i];
        if (part->p_type == PT_LOAD && (part->p_flags & PF_X)) {
            first = listed->dlpi_addr + part->p_vaddr;
            last = first + part->p_memsz;
        }
    }
    return 1;
}

static void find_real(void) {
    real_malloc = dlsym(RTLD_NEXT, "malloc");
    real_realloc = dlsym(RTLD_NEXT, "realloc");
    real_free = dlsym(RTLD_NEXT, "free");
}

__attribute__((constructor)) static void begin(void) {
    const char *most = getenv("COUNTED_ABOVE");
    find_real();
    above = most ? strtoul(most, NULL, 10) : 0;
    dl_iterate_phdr(keep_code, NULL);
}

__attribute__((destructor)) static void tell(void) {
    const char *name = getenv("COUNTED");
    FILE *file = name ? fopen(name, "w") : NULL;
    if (!file)
        return;
    fprintf(file, "requests %zu\nheld %zu\n", requests, most_held);
    for (size_t i = 0; i < kept_count; i++)
        fprintf(file, "request %zu\n", kept[i]);
    fclose(file);
}

static int is_own(void *caller) {
    uintptr_t at = (uintptr_t)caller;
    return first <= at && at < last;
}

static void count(size_t size) {
    requests++;
    if (size > above && kept_count < MOST_KEPT)
        kept[kept_count++] = size;
}

static void hold(void *block) {
    held += malloc_usable_size(block);
    if (held > most_held)
        most_held = held;
}

static void let_go(void *block) {
    size_t size = malloc_usable_size(block);
    held -= size < held ? size : held;
}

void *malloc(size_t size) {
    void *caller = __builtin_return_address(0);
    if (!real_malloc)
        find_real();
    void *block = real_malloc(size);
    if (is_own(caller)) {
        count(size);
        hold(block);
    }
    return block;
}

void *realloc(void *block, size_t size) {
    void *caller = __builtin_return_address(0);
    if (!real_realloc)
        find_real();
    if (!is_own(caller))
        return real_realloc(block, size);
    if (size > malloc_usable_size(block))
        count(size);
    let_go(block);
    void *grown = real_realloc(block, size);
    hold(grown ? grown : block);
    return grown;
}

void free(void *block) {
    void *caller = __builtin_return_address(0);
    if (!real_free)
        find_real();
    if (is_own(caller))
        let_go(block);
    real_free(block);
}
