/* CRoaring: a bitmap a key, in memory. Debian's library has bitmaps of 32-bit numbers alone in C, which those of the histories fit; reads widen
   them to 64 bits, as all stores hand out. Bitmaps keep the room that they grew to, since lists go on growing. */
#include <malloc.h>
#include <roaring/roaring.h>
#include <stdlib.h>
#include "store.h"

static roaring_bitmap_t **bitmaps;
static uint32_t *narrow;
static size_t bitmaps_len, narrow_len, bytes_before;

static size_t taken(void)
{
    struct mallinfo2 info = mallinfo2();
    return info.uordblks + info.hblkhd;
}

static void open_roaring(size_t keys, size_t numbers)
{
    narrow = room_for(numbers, sizeof *narrow);
    narrow_len = numbers;
    bytes_before = taken();
    bitmaps = room_for(keys, sizeof *bitmaps);
    bitmaps_len = keys;
}

static roaring_bitmap_t *bitmap_of(size_t key)
{
    if (bitmaps[key] == NULL && (bitmaps[key] = roaring_bitmap_create()) == NULL)
        fail("CRoaring", "no memory");
    return bitmaps[key];
}

static uint32_t narrowed(uint64_t number)
{
    if (number > UINT32_MAX)
        fail("CRoaring", "a number past 32 bits");
    return (uint32_t)number;
}

static void extend_roaring(size_t key, const uint64_t *numbers, size_t count)
{
    if (count > narrow_len)
        fail("CRoaring", "room");
    for (size_t k = 0; k < count; k++)
        narrow[k] = narrowed(numbers[k]);
    roaring_bitmap_add_many(bitmap_of(key), count, narrow);
}

static void append_roaring(size_t key, uint64_t number)
{
    roaring_bitmap_add(bitmap_of(key), narrowed(number));
}

static size_t read_roaring(size_t key, uint64_t *out, size_t room)
{
    if (bitmaps[key] == NULL)
        return 0;
    size_t count = roaring_bitmap_get_cardinality(bitmaps[key]);
    if (count > room || count > narrow_len)
        fail("CRoaring", "room");
    roaring_bitmap_to_uint32_array(bitmaps[key], narrow);
    for (size_t k = 0; k < count; k++)
        out[k] = narrow[k];
    return count;
}

static void drop_roaring(size_t key)
{
    if (bitmaps[key] != NULL)
        roaring_bitmap_free(bitmaps[key]);
    bitmaps[key] = NULL;
}

static void settle_roaring(void)
{
}

/* What it took of the memory that malloc gives, with what malloc adds to each block. */
static uint64_t bytes_roaring(void)
{
    return taken() - bytes_before;
}

/* The bitmaps as they are written for other machines, and where each begins. */
static uint64_t stored_roaring(void)
{
    uint64_t bytes = bitmaps_len * sizeof(uint64_t);
    for (size_t key = 0; key < bitmaps_len; key++)
        bytes += bitmaps[key] == NULL ? 0 : roaring_bitmap_portable_size_in_bytes(bitmaps[key]);
    return bytes;
}

static void close_roaring(void)
{
    for (size_t key = 0; key < bitmaps_len; key++)
        drop_roaring(key);
    free(bitmaps), free(narrow);
}

const struct store roaring_store = {
    .name = "CRoaring", .open = open_roaring, .load = extend_roaring, .extend = extend_roaring, .append = append_roaring, .read = read_roaring,
    .drop = drop_roaring, .settle = settle_roaring, .bytes = bytes_roaring, .stored = stored_roaring, .close = close_roaring,
};
