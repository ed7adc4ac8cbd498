/* The heap of the module: what it wants of the machine, and what it gives. */
#pragma once

typedef __SIZE_TYPE__ size_t;

/* Where the heap's bytes begin, a multiple of 16, the same for ever; how many there are, at first zeros; and the call
 * that makes it so many more, at least, or answers that it does not. */
unsigned char *heap_base(void);
size_t heap_room(void);
_Bool heap_grow(size_t bytes);

/* What the proved library answers a call for memory with, and takes back. No place is null. */
typedef struct {
    _Bool ok;
    void *place;
} tried;
tried rattle_alloc(size_t size, size_t align);
tried rattle_realloc(void *place, size_t kept, size_t size, size_t align);
void rattle_dealloc(void *place);

/* What JavaScript calls: memory for arrays that it hands over, or a null pointer where it is refused. */
void *sgb_take(size_t size);
void sgb_give(void *place);

/* The bytes that are taken; and from when on memory is refused, though there be more. */
size_t sgb_taken(void);
void sgb_limit(size_t bytes);
