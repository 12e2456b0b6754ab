/* No store but a yardstick: an array of 64-bit numbers a key, which gets twice the room where it is full. It checks nothing and can't be written to a
   file as it is, so that of long lists no store should take less time. */
#include <stdlib.h>
#include <string.h>
#include "store.h"

struct array {
    uint64_t *numbers;
    size_t count, room;
};

static struct array *arrays;
static size_t arrays_len;

static void open_arrays(size_t keys, size_t numbers)
{
    (void)numbers;
    arrays = room_for(keys, sizeof *arrays);
    arrays_len = keys;
}

static void make_room(struct array *a, size_t more)
{
    if (a->room - a->count >= more)
        return;
    while (a->room - a->count < more)
        a->room = a->room == 0 ? 2 : 2 * a->room;
    a->numbers = realloc(a->numbers, a->room * sizeof *a->numbers);
    if (a->numbers == NULL)
        fail("arrays", "no memory");
}

static void extend_array(size_t key, const uint64_t *numbers, size_t count)
{
    struct array *a = &arrays[key];
    if (count == 0)
        return;
    make_room(a, count);
    memcpy(a->numbers + a->count, numbers, count * sizeof *numbers);
    a->count += count;
}

static void append_array(size_t key, uint64_t number)
{
    struct array *a = &arrays[key];
    if (a->count == a->room)
        make_room(a, 1);
    a->numbers[a->count++] = number;
}

static size_t read_array(size_t key, uint64_t *out, size_t room)
{
    const struct array *a = &arrays[key];
    if (room < a->count)
        fail("arrays", "room");
    if (a->count != 0)
        memcpy(out, a->numbers, a->count * sizeof *out);
    return a->count;
}

static void drop_array(size_t key)
{
    free(arrays[key].numbers);
    arrays[key] = (struct array){0};
}

static void settle_arrays(void)
{
}

/* The arrays with the room that they have left, and a pointer, a count and a room a key. */
static uint64_t bytes_arrays(void)
{
    uint64_t bytes = arrays_len * sizeof *arrays;
    for (size_t key = 0; key < arrays_len; key++)
        bytes += arrays[key].room * sizeof(uint64_t);
    return bytes;
}

/* The numbers, and a count a key. */
static uint64_t stored_arrays(void)
{
    uint64_t bytes = arrays_len * sizeof(uint64_t);
    for (size_t key = 0; key < arrays_len; key++)
        bytes += arrays[key].count * sizeof(uint64_t);
    return bytes;
}

static void close_arrays(void)
{
    for (size_t key = 0; key < arrays_len; key++)
        drop_array(key);
    free(arrays);
}

const struct store arrays_store = {
    .name = "arrays", .open = open_arrays, .load = extend_array, .extend = extend_array, .append = append_array, .read = read_array,
    .drop = drop_array, .settle = settle_arrays, .bytes = bytes_arrays, .stored = stored_arrays, .close = close_arrays,
};
