/* In place of libFuzzer: gives each file to the fuzzer whose name is a line of standard input. Then prints of each counter
 * whether one of them met it, 1 or 0, and its address, which is that in the program's file (fuzz/never.py). */
#include <stddef.h>
#include <stdint.h>
#include <stdio.h>
#include <stdlib.h>

enum { MOST_BYTES = 1 << 20 };

int LLVMFuzzerTestOneInput(const uint8_t *data, size_t size);

static const uint32_t *first;
static ptrdiff_t many;
static const uintptr_t *places;

/* A number for each counter, which becomes 0 when it is met. */
void __sanitizer_cov_trace_pc_guard_init(uint32_t *start, uint32_t *stop) {
    first = start;
    many = stop - start;
    for (uint32_t *at = start; at < stop; at++)
        *at = 1;
}

void __sanitizer_cov_trace_pc_guard(uint32_t *counter) { *counter = 0; }

/* Of each counter the address of its block, and whether a function begins there. */
void __sanitizer_cov_pcs_init(const uintptr_t *start, const uintptr_t *stop) {
    (void)stop;
    places = start;
}

/* The mutator is linked, and not called. */
size_t LLVMFuzzerMutate(uint8_t *data, size_t size, size_t most) {
    (void)data, (void)most;
    return size;
}

static void give(const char *name, uint8_t *room) {
    FILE *file = fopen(name, "rb");
    if (!file) {
        perror(name);
        exit(2);
    }
    size_t size = fread(room, 1, MOST_BYTES, file);
    fclose(file);
    LLVMFuzzerTestOneInput(room, size);
}

int main(void) {
    static uint8_t room[MOST_BYTES];
    static char name[4096];
    while (scanf("%4095[^\n]%*c", name) == 1)
        give(name, room);
    for (ptrdiff_t i = 0; i < many; i++)
        printf("%d %zx\n", !first[i], (size_t)places[2 * i]);
    return 0;
}
