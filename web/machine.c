/* What the module has of the machine: its memory, and the arithmetic of 128 bits that WebAssembly does not have. */
#include "heap.h"

#define PAGE ((size_t)65536)
/* a byte address has 32 bits when the module is lowered, and the end of the memory has to be one */
#define MOST_PAGES ((size_t)65535)

typedef unsigned long long word;
typedef unsigned __int128 wide;

extern unsigned char __heap_base;

unsigned char *heap_base(void)
{
    return (unsigned char *)(((size_t)&__heap_base + 15) / 16 * 16);
}

size_t heap_room(void)
{
    return __builtin_wasm_memory_size(0) * PAGE - (size_t)heap_base();
}

_Bool heap_grow(size_t bytes)
{
    size_t had = __builtin_wasm_memory_size(0), pages = bytes / PAGE + (bytes % PAGE != 0);
    if (pages > MOST_PAGES || had > MOST_PAGES - pages)
        return 0;
    /* a refusal is -1, of 32 bits or of 64 */
    return __builtin_wasm_memory_grow(0, pages) == had;
}

/* The product, by halves of words: what the compiler calls for a product of 128 bits. */
wide __multi3(wide a, wide b)
{
    word half = 0xffffffff, a_low = (word)a, b_low = (word)b, a_high = (word)(a >> 64), b_high = (word)(b >> 64);
    word low = (a_low & half) * (b_low & half);
    word middle = (a_low >> 32) * (b_low & half) + (low >> 32);
    word other = (a_low & half) * (b_low >> 32) + (middle & half);
    word high = (a_low >> 32) * (b_low >> 32) + (middle >> 32) + (other >> 32);
    return (wide)(high + a_high * b_low + a_low * b_high) << 64 | (other << 32 | (low & half));
}

/* The bits moved right, by 0 to 127 places. */
wide __lshrti3(wide a, int places)
{
    word low = (word)a, high = (word)(a >> 64);
    if (places == 0)
        return a;
    if (places >= 64)
        return high >> (places - 64);
    return (wide)(high >> places) << 64 | (low >> places | high << (64 - places));
}
