/* ways: plain clang address valgrind */
/* valgrind: 20000 */
/* The two ends of an SPSC ring in one thread: each code of each call, misuse and refused memory among them; how each end leaves;
 * and random sequences of calls against two counts, of what was pushed and of what was popped.
 * usage: spsc [how many calls of each capacity] */
#include "lockfree.h"

#include "check.h"
#include <string.h>

typedef lockfree_handle handle;
typedef uint32_t leave(handle *producer);
enum { LONG = 16 };
#define NOTHING UINT64_C(0xdead) /* in places of an array that no call has written */

static bool is_ok(uint32_t code) { return code == LOCKFREE_OK; }

static bool is(lockfree_answer answer, uint32_t code, uint64_t value) { return answer.code == code && answer.value == value; }

static bool is_empty(const handle *it) { return !it->at && !it->full; }

/* The value that is pushed as number n: no two are alike, since its factor is odd, and the upper halves count. */
static uint64_t nth(uint64_t n) { return (n + 1) * UINT64_C(0x9e3779b97f4a7c15); }

static void unwritten(uint64_t *values)
{
    for (int i = 0; i < LONG; i++)
        values[i] = NOTHING;
}

/* Each call of a producer or of a consumer has this code, and nothing changes. */
static void refuses_producers(handle *it, uint32_t code)
{
    const uint64_t values[] = {7, 8};
    CHECK(is(lockfree_spsc_push(it, 7), code, 0) && is(lockfree_spsc_room(it), code, 0));
    CHECK(is(lockfree_spsc_push_many(it, values, 2), code, 0) && is(lockfree_spsc_push_many(it, values, 0), code, 0));
    CHECK(lockfree_spsc_close(it) == code);
}

static void refuses_consumers(handle *it, uint32_t code)
{
    uint64_t values[LONG];
    unwritten(values);
    CHECK(is(lockfree_spsc_pop(it), code, 0) && is(lockfree_spsc_front(it), code, 0) && is(lockfree_spsc_size(it), code, 0));
    CHECK(is(lockfree_spsc_pop_many(it, values, LONG), code, 0) && is(lockfree_spsc_pop_many(it, values, 0), code, 0));
    for (int i = 0; i < LONG; i++)
        CHECK(values[i] == NOTHING);
}

/* Why a pop is refused: EMPTY, or CLOSED. */
static void has_nothing(handle *consumer, uint32_t code)
{
    uint64_t values[LONG];
    unwritten(values);
    CHECK(is(lockfree_spsc_pop(consumer), code, 0) && is(lockfree_spsc_front(consumer), code, 0));
    CHECK(is(lockfree_spsc_pop_many(consumer, values, LONG), code, 0) && is(lockfree_spsc_pop_many(consumer, values, 1), code, 0));
    for (int i = 0; i < LONG; i++)
        CHECK(values[i] == NOTHING);
    CHECK(is(lockfree_spsc_pop_many(consumer, values, 0), LOCKFREE_OK, 0));
    CHECK(is(lockfree_spsc_size(consumer), code == LOCKFREE_CLOSED ? LOCKFREE_CLOSED : LOCKFREE_OK, 0));
}

/* Why a push is refused: FULL, or CLOSED. */
static void has_no_slot(handle *producer, uint32_t code)
{
    const uint64_t values[] = {7, 8, 9};
    CHECK(is(lockfree_spsc_push(producer, 7), code, 0) && is(lockfree_spsc_push_many(producer, values, 3), code, 0));
    CHECK(is(lockfree_spsc_push_many(producer, values, 0), LOCKFREE_OK, 0));
    CHECK(is(lockfree_spsc_room(producer), code == LOCKFREE_CLOSED ? LOCKFREE_CLOSED : LOCKFREE_OK, 0));
}

static void handles(void)
{
    handle producer = {0}, consumer = {0}, other = {0}, moved;
    refuses_producers(&other, LOCKFREE_NO_HANDLE), refuses_consumers(&other, LOCKFREE_NO_HANDLE);
    CHECK(lockfree_free(&other) == LOCKFREE_NO_HANDLE && is_empty(&other));
    CHECK(lockfree_spsc_new(&producer, &consumer, 0) == LOCKFREE_BAD_CAPACITY && is_empty(&producer) && is_empty(&consumer));
    CHECK(is_ok(lockfree_spsc_new(&producer, &consumer, 3)) && producer.full && consumer.full && producer.at != consumer.at);
    CHECK(is_ok(lockfree_spsc_push(&producer, nth(0)).code));
    moved = producer;
    CHECK(lockfree_spsc_new(&producer, &consumer, 3) == LOCKFREE_IN_USE && lockfree_spsc_new(&producer, &consumer, 0) == LOCKFREE_IN_USE);
    CHECK(lockfree_spsc_new(&producer, &other, 3) == LOCKFREE_IN_USE && lockfree_spsc_new(&other, &consumer, 3) == LOCKFREE_IN_USE);
    CHECK(is_empty(&other) && producer.at == moved.at);
    refuses_producers(&consumer, LOCKFREE_OTHER_HANDLE), refuses_consumers(&producer, LOCKFREE_OTHER_HANDLE);
    memset(&producer, 0, sizeof producer); /* a handle may move in memory */
    CHECK(is(lockfree_spsc_room(&moved), LOCKFREE_OK, 2) && is(lockfree_spsc_push(&moved, nth(1)), LOCKFREE_OK, 0));
    CHECK(is(lockfree_spsc_size(&consumer), LOCKFREE_OK, 2));
    for (uint64_t i = 0; i < 2; i++)
        CHECK(is(lockfree_spsc_pop(&consumer), LOCKFREE_OK, nth(i)));
    CHECK(is_ok(lockfree_free(&consumer)) && is_empty(&consumer) && lockfree_free(&consumer) == LOCKFREE_NO_HANDLE);
    refuses_consumers(&consumer, LOCKFREE_NO_HANDLE);
    CHECK(is_ok(lockfree_spsc_close(&moved)) && is_empty(&moved));
    refuses_producers(&moved, LOCKFREE_NO_HANDLE);
}

/* It has exactly the slots that were asked for. */
static void capacities(void)
{
    const uint32_t asked[] = {1, 2, 3, 4, 5, 7, 8, 9, 63, 64, 65, 1000, 65536, 100003};
    for (size_t i = 0; i < sizeof asked / sizeof *asked; i++) {
        handle producer = {0}, consumer = {0};
        const uint64_t all = asked[i];
        CHECK(is_ok(lockfree_spsc_new(&producer, &consumer, asked[i])));
        CHECK(is(lockfree_spsc_room(&producer), LOCKFREE_OK, all));
        has_nothing(&consumer, LOCKFREE_EMPTY);
        for (uint64_t n = 0; n < all; n++)
            CHECK(is(lockfree_spsc_push(&producer, nth(n)), LOCKFREE_OK, 0));
        has_no_slot(&producer, LOCKFREE_FULL);
        CHECK(is(lockfree_spsc_size(&consumer), LOCKFREE_OK, all));
        for (uint64_t n = 0; n < all; n++) {
            CHECK(is(lockfree_spsc_front(&consumer), LOCKFREE_OK, nth(n)) && is(lockfree_spsc_front(&consumer), LOCKFREE_OK, nth(n)));
            CHECK(is(lockfree_spsc_pop(&consumer), LOCKFREE_OK, nth(n)) && is(lockfree_spsc_room(&producer), LOCKFREE_OK, n + 1));
        }
        has_nothing(&consumer, LOCKFREE_EMPTY);
        CHECK(is_ok(lockfree_free(&producer)) && is_ok(lockfree_free(&consumer)));
    }
}

/* The producer leaves, by `close` or `free`: the consumer gets all that is left, and then is told. */
static void producer_leaves(leave *leaves)
{
    for (uint64_t left = 0; left <= 4; left++) {
        handle producer = {0}, consumer = {0};
        uint64_t values[LONG], n = 0;
        CHECK(is_ok(lockfree_spsc_new(&producer, &consumer, 4)));
        for (uint64_t i = 0; i < left; i++)
            CHECK(is_ok(lockfree_spsc_push(&producer, nth(i)).code));
        CHECK(is_ok(leaves(&producer)) && is_empty(&producer));
        if (left > 0) {
            CHECK(is(lockfree_spsc_size(&consumer), LOCKFREE_CLOSED, left) && is(lockfree_spsc_front(&consumer), LOCKFREE_OK, nth(0)));
            CHECK(is(lockfree_spsc_pop(&consumer), LOCKFREE_OK, nth(n++)) && is(lockfree_spsc_size(&consumer), LOCKFREE_CLOSED, left - 1));
        }
        if (left > 1) {
            unwritten(values);
            CHECK(is(lockfree_spsc_pop_many(&consumer, values, LONG), LOCKFREE_OK, left - 1));
            for (int i = 0; i < LONG; i++)
                CHECK(values[i] == (n < left ? nth(n++) : NOTHING));
        }
        has_nothing(&consumer, LOCKFREE_CLOSED), has_nothing(&consumer, LOCKFREE_CLOSED);
        CHECK(is_ok(lockfree_free(&consumer)) && is_empty(&consumer));
    }
}

/* The consumer leaves: the producer still fills the slots that are free, and then is told. */
static void consumer_leaves(leave *leaves)
{
    for (uint64_t before = 0; before <= 4; before++) {
        handle producer = {0}, consumer = {0};
        const uint64_t values[] = {7, 8, 9, 10, 11};
        CHECK(is_ok(lockfree_spsc_new(&producer, &consumer, 4)));
        for (uint64_t i = 0; i < before; i++)
            CHECK(is_ok(lockfree_spsc_push(&producer, nth(i)).code));
        CHECK(is_ok(lockfree_free(&consumer)) && is(lockfree_spsc_room(&producer), LOCKFREE_CLOSED, 4 - before));
        if (before < 4)
            CHECK(is(lockfree_spsc_push(&producer, 7), LOCKFREE_OK, 0) && is(lockfree_spsc_room(&producer), LOCKFREE_CLOSED, 3 - before));
        if (before < 3)
            CHECK(is(lockfree_spsc_push_many(&producer, values, 5), LOCKFREE_OK, 3 - before));
        has_no_slot(&producer, LOCKFREE_CLOSED), has_no_slot(&producer, LOCKFREE_CLOSED);
        CHECK(is_ok(leaves(&producer)) && is_empty(&producer));
    }
}

/* The second end that leaves frees the ring, whichever it is, with what is left at any place of it. (The leak and address
 * checkers see whether it does.) */
static void last_frees(leave *leaves)
{
    enum { SLOTS = 3 };
    for (uint64_t moved = 0; moved < 4 * SLOTS; moved++)
        for (uint64_t left = 0; left <= SLOTS; left++)
            for (int producer_first = 0; producer_first < 2; producer_first++) {
                handle producer = {0}, consumer = {0};
                CHECK(is_ok(lockfree_spsc_new(&producer, &consumer, SLOTS)));
                for (uint64_t n = 0; n < moved; n++)
                    CHECK(is_ok(lockfree_spsc_push(&producer, nth(n)).code) && is(lockfree_spsc_pop(&consumer), LOCKFREE_OK, nth(n)));
                for (uint64_t n = 0; n < left; n++)
                    CHECK(is_ok(lockfree_spsc_push(&producer, nth(n)).code));
                CHECK(is_ok(producer_first ? leaves(&producer) : lockfree_free(&consumer)));
                CHECK(is_ok(producer_first ? lockfree_free(&consumer) : leaves(&producer)));
                CHECK(is_empty(&producer) && is_empty(&consumer));
            }
}

/* Each allocation of a new ring is refused, one after another: there are no ends, and nothing leaks. No later call asks for any. */
static void refused_memory(void)
{
    handle producer = {0}, consumer = {0};
    uint64_t values[] = {nth(0), nth(1)};
    uint32_t code;
    long at = 0;
    do {
        refused = ++at;
        code = lockfree_spsc_new(&producer, &consumer, 2);
        CHECK(refused > 0 || (code == LOCKFREE_NO_MEMORY && is_empty(&producer) && is_empty(&consumer)));
    } while (refused == 0);
    CHECK(is_ok(code) && at > 1 && producer.full && consumer.full);
    refused = 1;
    CHECK(is(lockfree_spsc_push_many(&producer, values, 2), LOCKFREE_OK, 2));
    has_no_slot(&producer, LOCKFREE_FULL);
    CHECK(is(lockfree_spsc_pop(&consumer), LOCKFREE_OK, nth(0)) && is(lockfree_spsc_push(&producer, nth(2)), LOCKFREE_OK, 0));
    CHECK(is(lockfree_spsc_pop_many(&consumer, values, 2), LOCKFREE_OK, 2) && values[0] == nth(1) && values[1] == nth(2));
    has_nothing(&consumer, LOCKFREE_EMPTY);
    CHECK(is_ok(lockfree_spsc_close(&producer)) && is_ok(lockfree_free(&consumer)) && refused == 1);
    refused = 0;
}

/* A great ring asks for 8 bytes for each slot, however many these are. */
static void great_capacities(void)
{
    const uint32_t asked[] = {131073, 1u << 28, 1u << 29, (1u << 29) + 1, 1u << 30, 1u << 31, (1u << 31) + 1, UINT32_MAX};
    handle producer = {0}, consumer = {0};
    granted = 131072 * sizeof(uint64_t);
    for (size_t i = 0; i < sizeof asked / sizeof *asked; i++) {
        CHECK(lockfree_spsc_new(&producer, &consumer, asked[i]) == LOCKFREE_NO_MEMORY);
        CHECK(is_empty(&producer) && is_empty(&consumer));
    }
    CHECK(is_ok(lockfree_spsc_new(&producer, &consumer, 131072)) && is(lockfree_spsc_room(&producer), LOCKFREE_OK, 131072));
    CHECK(is_ok(lockfree_free(&consumer)) && is_ok(lockfree_free(&producer)));
    granted = SIZE_MAX;
}

static uint64_t seed = 1;
static uint64_t below(uint64_t bound)
{
    seed ^= seed << 13, seed ^= seed >> 7, seed ^= seed << 17;
    return (seed >> 11) % bound;
}

/* What a ring has to be: its capacity, and how many values were pushed and popped. Value n is nth(n). */
struct model {
    uint64_t capacity, pushed, popped;
};

static void push_many(handle *producer, struct model *m)
{
    uint64_t values[LONG];
    const uint64_t count = below(LONG + 1), room = m->capacity - (m->pushed - m->popped), most = count < room ? count : room;
    for (uint64_t i = 0; i < count; i++)
        values[i] = nth(m->pushed + i);
    CHECK(is(lockfree_spsc_push_many(producer, values, count), count > 0 && room == 0 ? LOCKFREE_FULL : LOCKFREE_OK, most));
    m->pushed += most;
}

static void pop_many(handle *consumer, struct model *m)
{
    uint64_t values[LONG];
    const uint64_t count = below(LONG + 1), size = m->pushed - m->popped, most = count < size ? count : size;
    unwritten(values);
    CHECK(is(lockfree_spsc_pop_many(consumer, values, count), count > 0 && size == 0 ? LOCKFREE_EMPTY : LOCKFREE_OK, most));
    for (uint64_t i = 0; i < LONG; i++)
        CHECK(values[i] == (i < most ? nth(m->popped + i) : NOTHING));
    m->popped += most;
}

static void some_call(handle *producer, handle *consumer, struct model *m)
{
    const uint64_t size = m->pushed - m->popped;
    const uint32_t to_push = size < m->capacity ? LOCKFREE_OK : LOCKFREE_FULL, to_pop = size > 0 ? LOCKFREE_OK : LOCKFREE_EMPTY;
    switch (below(8)) {
    case 0:
    case 1:
        CHECK(is(lockfree_spsc_push(producer, nth(m->pushed)), to_push, 0));
        m->pushed += to_push == LOCKFREE_OK;
        break;
    case 2:
        push_many(producer, m);
        break;
    case 3:
        CHECK(is(lockfree_spsc_room(producer), LOCKFREE_OK, m->capacity - size));
        break;
    case 4:
    case 5:
        CHECK(is(lockfree_spsc_pop(consumer), to_pop, size > 0 ? nth(m->popped) : 0));
        m->popped += to_pop == LOCKFREE_OK;
        break;
    case 6:
        pop_many(consumer, m);
        break;
    default:
        CHECK(is(lockfree_spsc_front(consumer), to_pop, size > 0 ? nth(m->popped) : 0));
        CHECK(is(lockfree_spsc_size(consumer), LOCKFREE_OK, size));
    }
}

/* Many rounds through all slots. */
static void sequences(uint64_t calls)
{
    for (uint32_t capacity = 1; capacity <= LONG + 1; capacity++) {
        handle producer = {0}, consumer = {0};
        struct model m = {capacity, 0, 0};
        CHECK(is_ok(lockfree_spsc_new(&producer, &consumer, capacity)));
        for (uint64_t i = 0; i < calls; i++)
            some_call(&producer, &consumer, &m);
        CHECK(m.pushed > 20 * capacity && is_ok(lockfree_spsc_close(&producer)));
        for (; m.popped < m.pushed; m.popped++)
            CHECK(is(lockfree_spsc_pop(&consumer), LOCKFREE_OK, nth(m.popped)));
        has_nothing(&consumer, LOCKFREE_CLOSED);
        CHECK(is_ok(lockfree_free(&consumer)));
    }
}

int main(int argc, char **argv)
{
    handles();
    capacities();
    leave *const ways_out[] = {lockfree_spsc_close, lockfree_free};
    for (int i = 0; i < 2; i++)
        producer_leaves(ways_out[i]), consumer_leaves(ways_out[i]), last_frees(ways_out[i]);
    refused_memory();
    great_capacities();
    sequences(argc > 1 ? strtoull(argv[1], NULL, 10) : 300000);
    puts("passed");
    return 0;
}
