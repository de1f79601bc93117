/* ways: plain clang address thread valgrind */
/* valgrind: 10000 */
/* The two ends of an SPSC ring in two threads: numbers come out in the order of a count, and none is missing. What a thread wrote
 * before a push, or before it left, the other one reads without a race, and ThreadSanitizer has to see none.
 * usage: spsc_threads [how many numbers, 1,000,000] */
#include "lockfree.h"

#include "check.h"
#include <pthread.h>
#include <sched.h>

enum { LONG = 16 };

/* A ring, and how its ends are used. */
struct ring {
    lockfree_handle producer, consumer;
    uint64_t numbers; /* that go through it: 0, 1, 2 .. */
    bool pushes_arrays, pops_arrays;
    bool frees;   /* the producer leaves by lockfree_free */
    int notes[2]; /* what the producer and the consumer write before they leave, which nothing else orders */
};

enum { OF_PRODUCER, OF_CONSUMER };

static void producer_leaves(struct ring *ring)
{
    ring->notes[OF_PRODUCER] = 7;
    CHECK((ring->frees ? lockfree_free(&ring->producer) : lockfree_spsc_close(&ring->producer)) == LOCKFREE_OK);
}

static void consumer_leaves(struct ring *ring)
{
    ring->notes[OF_CONSUMER] = 9;
    CHECK(lockfree_free(&ring->consumer) == LOCKFREE_OK);
}

static void made(struct ring *ring, uint32_t capacity)
{
    CHECK(lockfree_spsc_new(&ring->producer, &ring->consumer, capacity) == LOCKFREE_OK);
}

static pthread_t begun(void *(*run)(void *), struct ring *ring)
{
    pthread_t thread;
    CHECK(pthread_create(&thread, NULL, run, ring) == 0);
    return thread;
}

static void ended(pthread_t thread) { CHECK(pthread_join(thread, NULL) == 0); }

static lockfree_answer pushed(struct ring *ring, uint64_t value)
{
    return ring->pushes_arrays ? lockfree_spsc_push_many(&ring->producer, &value, 1) : lockfree_spsc_push(&ring->producer, value);
}

static void *pushes_all(void *at)
{
    struct ring *ring = at;
    uint64_t values[LONG], n = 0;
    while (n < ring->numbers) {
        uint64_t count = 0;
        for (; count < LONG && n + count < ring->numbers; count++)
            values[count] = n + count;
        const lockfree_answer answer =
            ring->pushes_arrays ? lockfree_spsc_push_many(&ring->producer, values, count) : lockfree_spsc_push(&ring->producer, n);
        if (answer.code == LOCKFREE_FULL) {
            sched_yield();
            continue;
        }
        CHECK(answer.code == LOCKFREE_OK);
        CHECK(ring->pushes_arrays ? answer.value > 0 && answer.value <= count : answer.value == 0);
        n += ring->pushes_arrays ? answer.value : 1;
    }
    producer_leaves(ring);
    return NULL;
}

static uint64_t numbers_of(struct ring *ring, lockfree_answer answer, const uint64_t *values, uint64_t n)
{
    if (!ring->pops_arrays) {
        CHECK(answer.value == n);
        return 1;
    }
    CHECK(answer.value > 0 && answer.value <= LONG);
    for (uint64_t i = 0; i < answer.value; i++)
        CHECK(values[i] == n + i);
    return answer.value;
}

/* All numbers go through a ring of this capacity, in order, by single calls and by arrays. */
static void in_order(uint32_t capacity, uint64_t numbers)
{
    for (int how = 0; how < 4; how++) {
        struct ring ring = {.numbers = numbers, .pushes_arrays = how & 1, .pops_arrays = how & 2, .frees = how == 1};
        uint64_t values[LONG], n = 0;
        lockfree_answer answer;
        made(&ring, capacity);
        const pthread_t thread = begun(pushes_all, &ring);
        do {
            answer = ring.pops_arrays ? lockfree_spsc_pop_many(&ring.consumer, values, LONG) : lockfree_spsc_pop(&ring.consumer);
            CHECK(answer.code == LOCKFREE_OK || answer.code == LOCKFREE_EMPTY || answer.code == LOCKFREE_CLOSED);
            if (answer.code == LOCKFREE_OK)
                n += numbers_of(&ring, answer, values, n);
            else
                sched_yield();
        } while (answer.code != LOCKFREE_CLOSED);
        CHECK(n == numbers && ring.notes[OF_PRODUCER] == 7);
        consumer_leaves(&ring), ended(thread);
    }
}

/* So many pushes as there is room, and so many pops as there are values, are not refused while the other end goes on. */
static void *pushes_into_room(void *at)
{
    struct ring *ring = at;
    for (uint64_t n = 0; n < ring->numbers;) {
        const lockfree_answer room = lockfree_spsc_room(&ring->producer);
        CHECK(room.code == LOCKFREE_OK);
        if (room.value == 0)
            sched_yield();
        for (uint64_t i = 0; i < room.value && n < ring->numbers; i++)
            CHECK(lockfree_spsc_push(&ring->producer, n++).code == LOCKFREE_OK);
    }
    producer_leaves(ring);
    return NULL;
}

static void as_many_as_counted(uint64_t numbers)
{
    struct ring ring = {.numbers = numbers};
    uint64_t n = 0;
    lockfree_answer size;
    made(&ring, 7);
    const pthread_t thread = begun(pushes_into_room, &ring);
    do {
        size = lockfree_spsc_size(&ring.consumer);
        CHECK(size.code == LOCKFREE_CLOSED ? ring.notes[OF_PRODUCER] == 7 : size.code == LOCKFREE_OK);
        for (uint64_t i = 0; i < size.value; i++, n++) {
            const lockfree_answer front = lockfree_spsc_front(&ring.consumer), popped = lockfree_spsc_pop(&ring.consumer);
            CHECK(front.code == LOCKFREE_OK && front.value == n && popped.code == LOCKFREE_OK && popped.value == n);
        }
        if (size.value == 0)
            sched_yield();
    } while (size.code != LOCKFREE_CLOSED); /* with which all that was left was counted */
    CHECK(n == numbers && lockfree_spsc_pop(&ring.consumer).code == LOCKFREE_CLOSED);
    consumer_leaves(&ring), ended(thread);
}

/* Memory that one thread writes, and the other one reads and frees. */
static void *pushes_messages(void *at)
{
    struct ring *ring = at;
    for (uint64_t n = 0; n < ring->numbers; n++) {
        uint64_t *message = malloc(sizeof *message);
        CHECK(message);
        *message = n;
        while (pushed(ring, (uint64_t)(uintptr_t)message).code != LOCKFREE_OK)
            sched_yield();
    }
    producer_leaves(ring);
    return NULL;
}

enum how { POPS, POPS_ARRAYS, LOOKS_FIRST, WAYS };

static lockfree_answer next_of(struct ring *ring, enum how how)
{
    uint64_t value;
    lockfree_answer answer;
    if (how != POPS_ARRAYS)
        return how == POPS ? lockfree_spsc_pop(&ring->consumer) : lockfree_spsc_front(&ring->consumer);
    answer = lockfree_spsc_pop_many(&ring->consumer, &value, 1);
    if (answer.code == LOCKFREE_OK)
        answer.value = value;
    return answer;
}

static void messages(uint64_t numbers, enum how how)
{
    struct ring ring = {.numbers = numbers, .pushes_arrays = how == POPS_ARRAYS, .frees = how == LOOKS_FIRST};
    uint64_t n = 0;
    lockfree_answer answer;
    made(&ring, 5);
    const pthread_t thread = begun(pushes_messages, &ring);
    while ((answer = next_of(&ring, how)).code != LOCKFREE_CLOSED) {
        if (answer.code == LOCKFREE_EMPTY) {
            sched_yield();
            continue;
        }
        uint64_t *message = (uint64_t *)(uintptr_t)answer.value;
        CHECK(answer.code == LOCKFREE_OK && *message == n++);
        free(message);
        CHECK(how != LOOKS_FIRST || lockfree_spsc_pop(&ring.consumer).value == answer.value);
    }
    CHECK(n == numbers && ring.notes[OF_PRODUCER] == 7);
    consumer_leaves(&ring), ended(thread);
}

/* Buffers that are used again: the consumer reads one before it pops its number, and the producer writes it once it has room. */
enum { BUFFERS = 4 };
static uint64_t buffers[BUFFERS];

static void *fills_buffers(void *at)
{
    struct ring *ring = at;
    for (uint64_t n = 0; n < ring->numbers; n++) {
        while (lockfree_spsc_room(&ring->producer).value == 0)
            sched_yield();
        buffers[n % BUFFERS] = n;
        CHECK(pushed(ring, n % BUFFERS).code == LOCKFREE_OK);
    }
    producer_leaves(ring);
    return NULL;
}

static void reused_buffers(uint64_t numbers)
{
    struct ring ring = {.numbers = numbers};
    uint64_t n = 0;
    lockfree_answer front;
    made(&ring, BUFFERS);
    const pthread_t thread = begun(fills_buffers, &ring);
    while ((front = lockfree_spsc_front(&ring.consumer)).code != LOCKFREE_CLOSED)
        if (front.code == LOCKFREE_OK)
            CHECK(buffers[front.value] == n++ && lockfree_spsc_pop(&ring.consumer).code == LOCKFREE_OK);
        else
            sched_yield();
    CHECK(n == numbers);
    consumer_leaves(&ring), ended(thread);
}

/* The consumer leaves while the producer pushes, or asks for room. */
static void *pushes_until_told(void *at)
{
    struct ring *ring = at;
    const bool asks = ring->frees && ring->pushes_arrays;
    for (uint32_t code = LOCKFREE_OK; code != LOCKFREE_CLOSED;) {
        code = asks ? lockfree_spsc_room(&ring->producer).code : LOCKFREE_OK;
        if (code != LOCKFREE_CLOSED)
            code = pushed(ring, 1).code;
        CHECK(code == LOCKFREE_OK || code == LOCKFREE_FULL || code == LOCKFREE_CLOSED);
        if (code == LOCKFREE_FULL)
            sched_yield();
    }
    CHECK(ring->notes[OF_CONSUMER] == 9);
    producer_leaves(ring);
    return NULL;
}

static void *leaves_alone(void *at)
{
    producer_leaves(at);
    return NULL;
}

/* Ends that leave at about the same time: the last one frees the ring, whichever it is. */
static void leaving(uint64_t rounds)
{
    for (uint64_t i = 0; i < rounds; i++) {
        struct ring told = {.pushes_arrays = i & 1, .frees = i & 2}, alone = {.frees = i & 1};
        made(&told, 1 + (uint32_t)i % 3), made(&alone, 2);
        CHECK(lockfree_spsc_push(&alone.producer, 1).code == LOCKFREE_OK);
        const pthread_t first = begun(pushes_until_told, &told), second = begun(leaves_alone, &alone);
        for (uint64_t n = 0; n < i % 4; sched_yield())
            n += lockfree_spsc_pop(&told.consumer).code == LOCKFREE_OK;
        consumer_leaves(&told), consumer_leaves(&alone);
        ended(first), ended(second);
    }
}

/* Each end goes from thread to thread, one after another. */
static void *pushes_one(void *at)
{
    struct ring *ring = at;
    CHECK(lockfree_spsc_push(&ring->producer, ring->numbers).code == LOCKFREE_OK);
    return NULL;
}

static void *pops_one(void *at)
{
    struct ring *ring = at;
    const lockfree_answer popped = lockfree_spsc_pop(&ring->consumer);
    CHECK(popped.code == LOCKFREE_OK && popped.value == ring->numbers);
    return NULL;
}

static void handed_on(uint64_t rounds)
{
    struct ring ring = {.numbers = 0};
    made(&ring, 1);
    for (; ring.numbers < rounds; ring.numbers++)
        ended(begun(pushes_one, &ring)), ended(begun(pops_one, &ring));
    producer_leaves(&ring), consumer_leaves(&ring);
}

int main(int argc, char **argv)
{
    const uint64_t numbers = argc > 1 ? strtoull(argv[1], NULL, 10) : 1000000, fewer = numbers / 50;
    in_order(64, numbers);
    in_order(1, fewer), in_order(2, fewer), in_order(7, fewer), in_order(LONG, fewer);
    as_many_as_counted(fewer), reused_buffers(fewer);
    for (enum how how = POPS; how < WAYS; how++)
        messages(fewer, how);
    leaving(numbers / 500), handed_on(numbers / 5000);
    puts("passed");
    return 0;
}
