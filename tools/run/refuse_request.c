// Refuses a program its Nth request for memory, N being the environment's REFUSED_REQUEST: a library to be loaded before
// the program's others (LD_PRELOAD). A request of a library, as of the C library itself, is none of the program's. Nor is
// one for no more than a block holds already, as where a list is cut to its length: the C library refuses none of these.
//
// Where REFUSED_OBJECT names a library, as libweedle.so, the requests are those of that library, if it is loaded when
// refuse_request(N) is called. That begins to count anew and refuses the Nth from there on; requests_made() counts.
#define _GNU_SOURCE
#include <dlfcn.h>
#include <link.h>
#include <malloc.h>
#include <stdatomic.h>
#include <stdlib.h>
#include <string.h>

static uintptr_t first, last;
static const char *object;
static atomic_ulong refused;
static atomic_ulong requests;
static void *(*real_malloc)(size_t);
static void *(*real_realloc)(void *, size_t);

// Keeps where the code of the program stands, which is the first object that is listed, or that of the named library.
static int keep_code(struct dl_phdr_info *listed, size_t size, void *unused) {
    (void)size;
    (void)unused;
    if (object && !strstr(listed->dlpi_name, object))
        return 0;
    for (int i = 0; i < listed->dlpi_phnum; i++) {
        const ElfW(Phdr) *part = &listed->dlpi_phdr[i];
        if (part->p_type == PT_LOAD && (part->p_flags & PF_X)) {
            first = listed->dlpi_addr + part->p_vaddr;
            last = first + part->p_memsz;
        }
    }
    return 1;
}

void refuse_request(unsigned long number) {
    dl_iterate_phdr(keep_code, NULL);
    atomic_store(&requests, 0);
    atomic_store(&refused, number);
}

unsigned long requests_made(void) { return atomic_load(&requests); }

__attribute__((constructor)) static void begin(void) {
    const char *number = getenv("REFUSED_REQUEST");
    real_malloc = dlsym(RTLD_NEXT, "malloc");
    real_realloc = dlsym(RTLD_NEXT, "realloc");
    object = getenv("REFUSED_OBJECT");
    refuse_request(number ? strtoul(number, NULL, 10) : 0);
}

static int is_refused(void *caller) {
    uintptr_t at = (uintptr_t)caller;
    return first <= at && at < last && atomic_fetch_add(&requests, 1) + 1 == atomic_load(&refused);
}

void *malloc(size_t size) {
    if (!real_malloc)
        real_malloc = dlsym(RTLD_NEXT, "malloc");
    return is_refused(__builtin_return_address(0)) ? NULL : real_malloc(size);
}

void *realloc(void *block, size_t size) {
    if (!real_realloc)
        real_realloc = dlsym(RTLD_NEXT, "realloc");
    if (size <= malloc_usable_size(block))
        return real_realloc(block, size);
    return is_refused(__builtin_return_address(0)) ? NULL : real_realloc(block, size);
}
