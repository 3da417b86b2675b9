/* Preloaded: allocations that the library of the name given asks for are refused, so many in 10,000, by a random number. */
#define _GNU_SOURCE
#include <dlfcn.h>
#include <link.h>
#include <stdint.h>
#include <stdlib.h>
#include <string.h>

static uintptr_t first, last;
static uint64_t state = 88172645463325252u, asked, refused;
static uint32_t part;

static int notes(struct dl_phdr_info *it, size_t size, void *name) {
    (void)size;
    if (!it->dlpi_name || !strstr(it->dlpi_name, (const char *)name)) return 0;
    for (int i = 0; i < it->dlpi_phnum; i++) {
        uintptr_t at = it->dlpi_addr + it->dlpi_phdr[i].p_vaddr;
        if (it->dlpi_phdr[i].p_type != PT_LOAD) continue;
        if (!last || at < first) first = at;
        if (at + it->dlpi_phdr[i].p_memsz > last) last = at + it->dlpi_phdr[i].p_memsz;
    }
    return 1;
}
/* Whether there is such a library. */
int refusing_finds(const char *name) { return dl_iterate_phdr(notes, (void *)name); }
void refusing_begins(uint64_t seed) { state = (seed + 1) * 2654435761u + 88172645463325252u; }
/* So many in 10,000 from now on. */
void refusing_some(uint32_t many) { part = many; }
uint64_t refusing_asked(void) { return asked; }
uint64_t refusing_refused(void) { return refused; }

static int refuses(void *caller) {
    uintptr_t at = (uintptr_t)caller;
    if (!part || at < first || at >= last) return 0;
    state ^= state << 13, state ^= state >> 7, state ^= state << 17, asked++;
    if ((state >> 33) % 10000 >= part) return 0;
    return refused++, 1;
}
void *malloc(size_t n) {
    static void *(*real)(size_t);
    if (!real) *(void **)&real = dlsym(RTLD_NEXT, "malloc");
    return refuses(__builtin_return_address(0)) ? NULL : real(n);
}
void *realloc(void *p, size_t n) {
    static void *(*real)(void *, size_t);
    if (!real) *(void **)&real = dlsym(RTLD_NEXT, "realloc");
    return refuses(__builtin_return_address(0)) ? NULL : real(p, n);
}
