/* Makes one call of the library for C again and again on one thread, so that tests/instructions can count its instructions.
 *
 * usage: instructions KIND CALLS FILL TIMES
 *   KIND   stack, queue, ring or spsc, with room for 4,096 values
 *   CALLS  pair (a put and a take in turn; of a full container a take and a put), put, take or look; of spsc no look, but
 *          arrays (a push and a pop of 16 values in turn)
 *   FILL   empty, half or full: how many values are in it before
 * The status is 0 if each call was answered as it is on such a container: a put of a full one and a take of an empty one are
 * refused, and the others succeed. */

#include <lockfree.h>
#include <stdbool.h>
#include <stdio.h>
#include <stdlib.h>
#include <string.h>

enum { CAPACITY = 4096, PASSES = 4, ARRAY = 16 };

static const uint64_t TRIES = 1000000;

static uint32_t made(lockfree_handle *root, const char *kind)
{
    if (strcmp(kind, "stack") == 0)
        return lockfree_stack_new(root, CAPACITY);
    if (strcmp(kind, "queue") == 0)
        return lockfree_queue_new(root, CAPACITY);
    return strcmp(kind, "ring") == 0 ? lockfree_ring_new(root, CAPACITY, PASSES) : LOCKFREE_NO_HANDLE;
}

static bool put(lockfree_handle *pass, uint64_t value, uint32_t code)
{
    return lockfree_put(pass, value, TRIES).code == code;
}

static bool take(lockfree_handle *pass, uint32_t code)
{
    return lockfree_take(pass, TRIES).code == code;
}

static bool look(lockfree_handle *pass, uint32_t code)
{
    return lockfree_look(pass, TRIES).code == code;
}

static bool filled(lockfree_handle *pass, uint64_t count)
{
    bool right = true;
    for (uint64_t value = 0; value < count; value++)
        right &= put(pass, value, LOCKFREE_OK);
    return right;
}

/* Whether all of these calls were answered as expected. */
static bool repeated(lockfree_handle *pass, const char *calls, uint64_t count, uint64_t times)
{
    const bool is_empty = count == 0, is_full = count == CAPACITY;
    bool right = true;
    if (strcmp(calls, "pair") == 0 && is_full)
        for (uint64_t i = 0; i < times; i++)
            right &= take(pass, LOCKFREE_OK) && put(pass, i, LOCKFREE_OK);
    else if (strcmp(calls, "pair") == 0)
        for (uint64_t i = 0; i < times; i++)
            right &= put(pass, i, LOCKFREE_OK) && take(pass, LOCKFREE_OK);
    else if (strcmp(calls, "put") == 0 && is_full)
        for (uint64_t i = 0; i < times; i++)
            right &= put(pass, i, LOCKFREE_FULL);
    else if (strcmp(calls, "take") == 0 && is_empty)
        for (uint64_t i = 0; i < times; i++)
            right &= take(pass, LOCKFREE_EMPTY);
    else if (strcmp(calls, "look") == 0)
        for (uint64_t i = 0; i < times; i++)
            right &= look(pass, is_empty ? LOCKFREE_EMPTY : LOCKFREE_OK);
    else
        right = false;
    return right;
}

static bool pushed(lockfree_handle *producer, uint64_t value, uint32_t code)
{
    return lockfree_spsc_push(producer, value).code == code;
}

static bool popped(lockfree_handle *consumer, uint32_t code)
{
    return lockfree_spsc_pop(consumer).code == code;
}

static bool array_passed(lockfree_handle *producer, lockfree_handle *consumer)
{
    static const uint64_t given[ARRAY] = {1};
    uint64_t got[ARRAY];
    return lockfree_spsc_push_many(producer, given, ARRAY).value == ARRAY
        && lockfree_spsc_pop_many(consumer, got, ARRAY).value == ARRAY;
}

/* The same by the two ends of an SPSC ring. */
static bool repeated_by_ends(lockfree_handle *producer, lockfree_handle *consumer, const char *calls, uint64_t count,
                             uint64_t times)
{
    const bool is_full = count == CAPACITY;
    bool right = true;
    for (uint64_t value = 0; value < count; value++)
        right &= pushed(producer, value, LOCKFREE_OK);
    if (strcmp(calls, "pair") == 0 && is_full)
        for (uint64_t i = 0; i < times; i++)
            right &= popped(consumer, LOCKFREE_OK) && pushed(producer, i, LOCKFREE_OK);
    else if (strcmp(calls, "pair") == 0)
        for (uint64_t i = 0; i < times; i++)
            right &= pushed(producer, i, LOCKFREE_OK) && popped(consumer, LOCKFREE_OK);
    else if (strcmp(calls, "arrays") == 0)
        for (uint64_t i = 0; i < times; i++)
            right &= array_passed(producer, consumer);
    else if (strcmp(calls, "put") == 0 && is_full)
        for (uint64_t i = 0; i < times; i++)
            right &= pushed(producer, i, LOCKFREE_FULL);
    else if (strcmp(calls, "take") == 0 && count == 0)
        for (uint64_t i = 0; i < times; i++)
            right &= popped(consumer, LOCKFREE_EMPTY);
    else
        right = false;
    return right;
}

static int spsc(const char *calls, uint64_t count, uint64_t times)
{
    lockfree_handle producer = {0}, consumer = {0};
    if (lockfree_spsc_new(&producer, &consumer, CAPACITY) != LOCKFREE_OK)
        return 1;
    const bool right = repeated_by_ends(&producer, &consumer, calls, count, times);
    lockfree_free(&producer);
    lockfree_free(&consumer);
    return right ? 0 : 1;
}

int main(int words, char **word)
{
    if (words != 5) {
        fprintf(stderr, "usage: instructions KIND CALLS FILL TIMES\n");
        return 2;
    }
    lockfree_handle root = {0}, pass = {0};
    const uint64_t half = strcmp(word[3], "half") == 0 ? CAPACITY / 2 : 0;
    const uint64_t count = strcmp(word[3], "full") == 0 ? CAPACITY : half;
    const uint64_t times = strtoull(word[4], NULL, 10);
    if (strcmp(word[1], "spsc") == 0)
        return spsc(word[2], count, times);
    if (made(&root, word[1]) != LOCKFREE_OK || lockfree_split(&root, &pass) != LOCKFREE_OK)
        return 1;
    const bool right = filled(&pass, count) && repeated(&pass, word[2], count, times);
    lockfree_free(&pass);
    lockfree_free(&root);
    return right ? 0 : 1;
}
