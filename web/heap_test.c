/* Random calls of the heap, on this machine: cc -o heap_test heap_test.c heap.c && ./heap_test
 *
 * What it hands out is apart from all that is taken, stands at a multiple of 16, within the limit, and keeps its bytes,
 * also where it is moved. Memory is refused where the limit is, and had again when something was given back. A block
 * grows in place where what lies behind it is free, and at the end. When all is given back, all of it is one free block
 * again: all the room but the end's bytes and the block's own word can be had at once, and no byte more. The last line is
 * `N passed, M failed`. */
#include <stdio.h>
#include <stdlib.h>
#include <string.h>

#include "heap.h"

#define ROOM ((size_t)64 << 20)
#define BLOCKS 4000
#define STEPS 500000
#define KEPT (16 + sizeof(size_t))      /* of the room, the end and a block's own word */

static unsigned char arena[ROOM] __attribute__((aligned(16)));
static size_t room = 0, limit = (size_t)-1;

unsigned char *heap_base(void) { return arena; }
size_t heap_room(void) { return room; }

_Bool heap_grow(size_t bytes)
{
    if (bytes > ROOM - room)
        return 0;
    room += (bytes + 65535) / 65536 * 65536;
    return 1;
}

static struct { unsigned char *place, mark; size_t size; } block[BLOCKS];
static long passed, failed, refused;

static void check(int is_so, const char *what)
{
    is_so ? passed++ : (failed++, failed < 10 && printf("failed: %s\n", what));
}

static void set_limit(size_t bytes)
{
    limit = bytes;
    sgb_limit(bytes);
}

/* A size: mostly small, now and then some hundred thousands, or more than there is. */
static size_t some_size(void)
{
    switch (rand() % 32) {
    case 0: return (size_t)rand() % 400000;
    case 1: return rand() % 50 ? 0 : ROOM + (size_t)rand();
    case 2: return (size_t)1 << (4 + rand() % 14);
    default: return (size_t)rand() % 700;
    }
}

static int is_marked(int k, size_t size)
{
    const unsigned char *place = block[k].place;
    return !size || (*place == block[k].mark && !memcmp(place, place + 1, size - 1));
}

/* What was answered to a call for a block of this size, of whose bytes so many are kept. */
static void answered(int k, tried got, size_t size, size_t kept)
{
    check(got.place != 0, "a null pointer");
    refused += !got.ok;
    if (!got.ok)
        return;
    block[k].place = got.place;
    check((size_t)got.place % 16 == 0, "a place that is no multiple of 16");
    size_t end = (size_t)(block[k].place - arena) + size;
    check(block[k].place >= arena + 16 && end <= room && end <= limit, "a place outside");
    check(is_marked(k, kept), "bytes that were not moved");
    block[k].size = size;
    block[k].mark = (unsigned char)rand();
    memset(block[k].place, block[k].mark, size);
}

static void give(int k)
{
    check(is_marked(k, block[k].size), "bytes that something else wrote");
    rattle_dealloc(block[k].place);
    block[k].place = 0;
}

static void step(int k)
{
    size_t size = some_size(), kept = size < block[k].size ? size : block[k].size;
    if (!block[k].place)
        answered(k, rattle_alloc(size, 16), size, 0);
    else if (rand() % 3)
        give(k);
    else
        answered(k, rattle_realloc(block[k].place, kept, size, 16), size, kept);
}

/* Whether all that the heap has is one free block, of all the room but what is kept. */
static void check_whole(void)
{
    size_t before = room, has = (room < limit ? room : limit) / 16 * 16;
    set_limit(has);
    check(sgb_taken() == 0, "something counted as taken");
    check(sgb_take(has - KEPT + 1) == 0, "more than there is");
    void *whole = sgb_take(has - KEPT);
    check(whole == arena + 16 && room == before, "what was given back did not join");
    if (!whole)
        return;
    check(sgb_taken() == has - 16 && sgb_take(0) == 0, "a whole block that leaves some");
    set_limit(has + 16);
    check(rattle_realloc(whole, 0, has - KEPT + 16, 16).place == whole, "not in place, at the limit");
    sgb_give(whole);
}

static void random_calls(unsigned seed, size_t most)
{
    srand(seed);
    set_limit(most);
    for (long i = 0; i < STEPS; i++)
        step(rand() % BLOCKS);
    check(sgb_taken() > 0, "nothing counted as taken");
    for (int k = 0; k < BLOCKS; k++)
        if (block[k].place)
            give(k);
}

/* Blocks side by side: what is given back is taken again, and grows in place. */
static void in_place(void)
{
    unsigned char *place[4];
    for (int k = 0; k < 4; k++)
        place[k] = sgb_take(1000);
    check(place[1] - place[0] == 1008 && place[3] - place[2] == 1008, "blocks that are not side by side");
    sgb_give(place[1]);
    check(rattle_realloc(place[0], 1000, 2000, 16).place == place[0], "not in place, before a free block");
    check(rattle_realloc(place[0], 1000, 1000, 16).place == place[0], "not in place, where it is smaller");
    check(sgb_take(900) == place[1], "what was left is not taken again");
    check(rattle_realloc(place[3], 1000, room, 16).place == place[3], "not in place, at the end");
    tried moved = rattle_realloc(place[2], 1000, 2000, 16);
    check(moved.ok && moved.place != place[2], "not moved, though there is no room");
    check(!rattle_realloc(place[3], 1000, (size_t)-1, 16).ok, "more than there can be");
    place[2] = moved.place;
    for (int k = 0; k < 4; k++)
        sgb_give(place[k]);
}

/* A free block is found behind many that are a little smaller, where there is no other. */
static void last_of_many(void)
{
    void *smaller[40], *apart[41], *large = sgb_take(740);
    apart[40] = sgb_take(1);
    for (int k = 0; k < 40; k++) {
        smaller[k] = sgb_take(650);
        apart[k] = sgb_take(1);
    }
    void *rest = sgb_take(room - sgb_taken() - KEPT);
    check(rest != 0, "not all that is left");
    set_limit(room);
    sgb_give(large);
    for (int k = 0; k < 40; k++)
        sgb_give(smaller[k]);
    check(sgb_take(740) == large, "a free block that is not found");
    sgb_give(large);
    sgb_give(rest);
    for (int k = 0; k <= 40; k++)
        sgb_give(apart[k]);
}

int main(void)
{
    setbuf(stdout, 0);
    set_limit(0);
    check(sgb_take(1) == 0 && room == 0, "more than the limit");
    set_limit(1 << 20);
    last_of_many();
    set_limit(1 << 20);
    in_place();
    random_calls(1, ROOM / 4 + 40008);
    check(refused > 1000, "memory was hardly ever refused");
    check_whole();
    random_calls(2, (size_t)-1);
    check_whole();
    set_limit((size_t)-1);
    for (size_t bytes = 1; bytes < 64; bytes++)
        check(sgb_take(-bytes) == 0 && sgb_take(-bytes >> bytes % 4) == 0, "more than there can be");
    check(sgb_take(ROOM - KEPT) == arena + 16, "less than there is");
    printf("%ld passed, %ld failed\n", passed, failed);
    return failed != 0;
}
