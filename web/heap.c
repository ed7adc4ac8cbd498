/* The heap of the module: the calls for memory of the proved library and of JavaScript.
 *
 * The memory is a row of blocks, and an end of no size. A block begins with a word, its size and two flags; behind that
 * are the bytes that are handed out, at a multiple of 16. A free block has its size in its last word, too, from which
 * the block behind it knows where it begins. No two free blocks lie side by side, and each is on a list with others of
 * about its size. */
#include "heap.h"

#define UNIT ((size_t)16)       /* what sizes are multiples of */
#define WORD sizeof(size_t)
#define BITS (8 * WORD)
#define LEAST (4 * WORD)        /* the smallest block: a free one has four words */
#define FREE ((size_t)1)        /* flags: the block is free, and the one before it is */
#define AFTER_FREE ((size_t)2)

typedef struct block {
    size_t head;
    struct block *next, *back;  /* a free block's neighbours on its list */
} block;

static block *lists[4 * BITS];
static size_t filled[4];            /* a bit for each list that is not empty */
static size_t used = UNIT;          /* of the room, what is before the end, and the end */
static size_t limit = (size_t)-1;   /* of it, what may be used */
static size_t taken;                /* the sizes of the blocks that are taken */

static size_t size_of(const block *b) { return b->head & ~(FREE | AFTER_FREE); }
static block *at(void *place, size_t bytes) { return (block *)((unsigned char *)place + bytes); }
static block *behind(block *b) { return at(b, size_of(b)); }
static block *before(block *b) { return (block *)((unsigned char *)b - ((size_t *)b)[-1]); }
static block *of(void *place) { return (block *)((size_t *)place - 1); }
static block *end(void) { return at(heap_base(), used - WORD); }

/* The size of the block for so many bytes; where it has no number, more than there can be. */
static size_t whole(size_t bytes)
{
    size_t size = (bytes + WORD + UNIT - 1) / UNIT * UNIT;
    return bytes > -2 * UNIT ? -UNIT : size > LEAST ? size : LEAST;
}

/* The list of a size: there are four for each power of two. */
static size_t list_of(size_t size)
{
    size_t power = BITS - 1 - (size_t)__builtin_clzl(size);
    return 4 * power + (size >> (power - 2) & 3);
}

/* Takes a block off its list; its size. */
static size_t take_off(block *b)
{
    size_t size = size_of(b), k = list_of(size);
    if (b->next)
        b->next->back = b->back;
    if (b->back)
        b->back->next = b->next;
    else if (!(lists[k] = b->next))
        filled[k / BITS] &= ~((size_t)1 << k % BITS);
    return size;
}

/* Frees a block of this size, joined with its neighbours. */
static void release(block *b, size_t size)
{
    block *other = at(b, size);
    if (other->head & FREE)
        size += take_off(other);
    if (b->head & AFTER_FREE)
        size += take_off(b = before(b));
    size_t k = list_of(size);
    *b = (block){ size | FREE, lists[k], 0 };
    if (b->next)
        b->next->back = b;
    lists[k] = b;
    filled[k / BITS] |= (size_t)1 << k % BITS;
    other = behind(b);
    other->head |= AFTER_FREE;
    ((size_t *)other)[-1] = size;
}

/* A free block of this size at least, or null: one of the first on its list, or on a list of larger ones, or any. */
static block *fitting(size_t size)
{
    size_t k = list_of(size), tries = 16;
    block *b = lists[k];
    for (; b && tries; b = b->next, tries--)
        if (size_of(b) >= size)
            return b;
    for (k++; k < 4 * BITS; k = (k / BITS + 1) * BITS) {
        size_t bits = filled[k / BITS] >> k % BITS;
        if (bits)
            return lists[k + (size_t)__builtin_ctzl(bits)];
    }
    while (b && size_of(b) < size)
        b = b->next;
    return b;
}

/* The free block before the end, made so large at least, or null. The heap takes all the room that it may. */
static block *grown(size_t size)
{
    block *old = end();
    size_t had = used, room = heap_room(), last = had > UNIT && old->head & AFTER_FREE ? size_of(before(old)) : 0;
    size_t more = (size > LEAST ? size : LEAST) - last;
    if (more > limit || had > limit - more || (had + more > room && !heap_grow(had + more - room)))
        return 0;
    room = heap_room();
    used = (room < limit ? room : limit) / UNIT * UNIT;
    end()->head = 0;
    release(old, used - had);
    return before(end());
}

/* Takes what is needed of a block that is on no list, and frees the rest. */
static void cut(block *b, size_t size, size_t needed)
{
    size_t rest = size - needed < LEAST ? 0 : size - needed;
    b->head = (size - rest) | (b->head & AFTER_FREE);
    taken += size - rest;
    behind(b)->head = rest ? 0 : behind(b)->head & ~AFTER_FREE;
    if (rest)
        release(behind(b), rest);
}

void *sgb_take(size_t bytes)
{
    size_t size = whole(bytes);
    block *b = fitting(size);
    if (!b && !(b = grown(size)))
        return 0;
    cut(b, take_off(b), size);
    return at(b, WORD);
}

void sgb_give(void *place)
{
    taken -= size_of(of(place));
    release(of(place), size_of(of(place)));
}

size_t sgb_taken(void) { return taken; }
void sgb_limit(size_t bytes) { limit = bytes; }
void rattle_dealloc(void *place) { sgb_give(place); }

/* Each place is a multiple of 16, and the library asks for no more than that. */
tried rattle_alloc(size_t size, size_t align)
{
    void *place = sgb_take(size ? size : align);
    return (tried){ place != 0, place ? place : heap_base() };
}

/* A block stays where it is if the free one behind it is enough, or it can be made so at the end; else it moves. */
tried rattle_realloc(void *place, size_t kept, size_t size, size_t align)
{
    block *b = of(place), *next = behind(b);
    size_t needed = whole(size ? size : align), had = size_of(b), large = had + (next->head & FREE ? size_of(next) : 0);
    if (large < needed && at(b, large) == end() && !fitting(needed) && grown(needed - had))
        large = had + size_of(next);
    if (large < needed) {
        void *moved = sgb_take(size);
        if (moved) {
            __builtin_memcpy(moved, place, kept);
            sgb_give(place);
        }
        return (tried){ moved != 0, moved ? moved : place };
    }
    if (large > had)
        take_off(next);
    taken -= had;
    cut(b, large, needed);
    return (tried){ 1, place };
}
