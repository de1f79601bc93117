/* A bounded queue, stack and ring that many threads share without locks, and a ring of one producer
 * and one consumer (SPSC). For C and C++. The functions are proved; the inline ones are tested.
 *
 * Which one: a stack gives the last value first, the others the first. If one thread at a time
 * pushes and one pops, take the SPSC ring: its calls are wait-free, a value takes 8 bytes, and it
 * does not wear out. Between threads a ring is faster than a queue, and with more than 2 slots it
 * lasts longer. From 64 slots on each value takes half the memory, and each pass that it is made
 * for 20 bytes. So take it if you can name the most passes at one time, and else the queue.
 *
 * The library keeps a handle in your memory: a root or a pass of one container. All zero bytes are
 * an empty handle. A root gives passes, one to each thread, and takes them back. A pass makes the
 * calls. Each handle has a share of its container, so no pass is used with another container. The
 * last handle of a container that is freed frees the container. An SPSC ring has two handles, its
 * ends, which make the calls: the producer pushes, and the consumer pops.
 *
 * Six rules that no check can enforce:
 *   - Zero a handle before its first use. Then only the functions below write it. It may be moved
 *     in memory between calls. Never use a copy of it.
 *   - Give a handle to one call at a time, never a null pointer, and two handles to a _split, a
 *     _join or a _spsc_new. Different handles, also of one container, may be used in different
 *     threads at the same time. If a handle goes to another thread, something orders the two
 *     threads: a start or a join of a thread, a lock, or a release and an acquire.
 *   - malloc, realloc and free belong to one allocator, whose memory is aligned as the C standard
 *     says.
 *   - If a lockfree_put_range was BUSY, call it again with the same array, unchanged.
 *   - Make no call in a signal handler, or in the child of a fork of a process with threads.
 *   - Join a pass to the root that it was split from. (_join finds that a pass is of another
 *     container, but no proof says so: two such mistakes at the same time can hide each other.)
 *
 * A code answers any other misuse of a handle, and any other failure of a call. Then nothing has
 * changed but what is said here. Everything that a thread wrote before a put or a push is visible
 * to the thread that takes or pops the value. Everything that it wrote before a close, or before an
 * end left, is visible to a thread that is answered CLOSED. Only the calls that make a container,
 * _split, _join, _free, _spsc_close and the first _finish of a container take or give back memory.
 * Apart from what malloc and free do, no call waits for another thread: it is proved that each
 * returns, and how many steps one with tries makes at most (docs/c-api.md). The inline functions at
 * the end continue until they have another answer than BUSY.
 */
#ifndef LOCKFREE_H
#define LOCKFREE_H

/* This header's version: 10,000 times the first number, 100 times the second, and the third. A
 * program that may meet another archive than this header's compares it with lockfree_version(). */
#define LOCKFREE_H_VERSION 200 /* 0.2.0 */

/* The form of what lies behind a handle, which is the archive's own affair: archives of different
 * forms must not get each other's handles. The names of the C++ headers have this number, so that
 * objects of one process that were built with different numbers share no inline function. Each
 * release that changes the form has another number. Define it yourself, as any number, if you link
 * an archive of your own (changed sources, another kit) beside another one into a process. */
#ifndef LOCKFREE_LAYOUT
#define LOCKFREE_LAYOUT 1
#endif

#include <stdbool.h>
#include <stddef.h>
#include <stdint.h>

#ifdef __cplusplus
extern "C" {
#endif

enum {
    LOCKFREE_OK = 0,
    LOCKFREE_FULL = 1,          /* put: each cell holds a value or is held by a call; in a ring,
                                   each slot holds a value. spsc_push: no slot was free */
    LOCKFREE_EMPTY = 2,         /* take, fold, spsc_pop: no value, and more may come. look: it was
                                   empty. put_range: of no value. finish: nothing is left */
    LOCKFREE_CLOSED = 3,        /* put: closed. take, fold, spsc_pop: no value, and none will come.
                                   close: it was closed before. spsc_push: no slot was free, and the
                                   consumer has left. gauge: it was closed; spsc_room, spsc_size:
                                   the other end has left; value is the same as with OK */
    LOCKFREE_SHUT = 4,          /* take, fold: shut. shut: it was shut before */
    LOCKFREE_SPENT = 5,         /* a put, also of a range, and a take or a fold of a stack: a tag is
                                   at its limit, 2^42 - 1 or that of _limited; value is the tag. A
                                   put of a ring: the slot was filled as often as its laps say;
                                   value is twice the laps */
    LOCKFREE_BUSY = 6,          /* the tries are used up: continue with lockfree_go_on; after
                                   lockfree_put_range with the same call */
    LOCKFREE_UNDER_WAY = 7,     /* the pass has a call under way: lockfree_go_on first (after a
                                   lockfree_put_range the same call again) */
    LOCKFREE_NO_CALL = 8,       /* go_on: the pass has no call under way, or one that
                                   lockfree_put_range continues */
    LOCKFREE_NO_MEMORY = 9,
    LOCKFREE_NO_PASS = 10,      /* split: as many passes are out as may be, 65,535; in a ring, as it
                                   was made for. One that was freed, and not joined, stays out */
    LOCKFREE_BAD_CAPACITY = 11, /* new: a capacity is 1 to 1,048,573. limited: and a limit of tags 2
                                   to 2^42 - 1. A ring: see lockfree_ring_new. spsc_new: it is 0 */
    LOCKFREE_OTHER_HANDLE = 12, /* a handle of another kind: a root, a pass, a producer, a consumer;
                                   or a call that its container lacks: a fold or range of a queue or
                                   a ring, a count of a stack. join: a pass of another container */
    LOCKFREE_NO_HANDLE = 13,    /* the handle is empty: never made, joined, freed, or spsc_closed */
    LOCKFREE_IN_USE = 14,       /* a handle to be made is not empty */
    LOCKFREE_VALUE = 15,        /* fold: value is the next one: continue by lockfree_go_on. finish:
                                   value is the next one of what is left */
    LOCKFREE_SHARED = 16        /* finish: another handle of the container is still out */
};

typedef struct lockfree_handle {
    void *at;
    bool full;
} lockfree_handle;

/* A code, and a value that belongs to it. An answer comes back in two registers. The value is
 *   put, OK:                   its number
 *   take, OK:                  the value that was taken
 *   fold, count, OK:           how many values there were
 *   put_range, OK:             how many values were put
 *   gauge, OK or CLOSED:       how many tags were used; in a ring, how many values were put
 *   number, OK:                the number of the call that ended last
 *   fold, finish, VALUE:       the next value
 *   SPENT:                     the tag
 * It is 0 with any other code. The values of an SPSC ring's calls are said with them. */
typedef struct lockfree_answer {
    uint64_t value;
    uint32_t code;
} lockfree_answer;

/* The version of the archive, to be compared with LOCKFREE_H_VERSION. */
uint32_t lockfree_version(void);

/* A new container, and its root in an empty handle. OK, BAD_CAPACITY, NO_MEMORY, IN_USE. */
uint32_t lockfree_queue_new(lockfree_handle *root, uint32_t capacity);
uint32_t lockfree_stack_new(lockfree_handle *root, uint32_t capacity);

/* The same, with a limit for its tags, 2 to 2^42 - 1: for tests of what a program does once a
 * container is SPENT. A queue of limit n takes n or n - 1 values in its life, and a stack makes n
 * puts and takes in all. Puts that find it closed use up tags of its free cells, so at last they
 * are SPENT instead of CLOSED; a gauge does not count them. */
uint32_t lockfree_queue_limited(lockfree_handle *root, uint32_t capacity, uint64_t tag_limit);
uint32_t lockfree_stack_limited(lockfree_handle *root, uint32_t capacity, uint64_t tag_limit);

/* A new ring for this number of passes, and its root in an empty handle. BAD_CAPACITY exactly if
 * the capacity is less than 1, the passes are not 2 to 65,535, or the two together are more than
 * 1,048,575. Each slot can be filled 2^41 - 1 times: a ring of capacity n takes n * (2^41 - 1)
 * values in its life, if each pass ends its calls; then puts are SPENT (or FULL while the slot at
 * the back has its last value), and takes still succeed.
 * _limited: each slot can be filled `laps` times, 1 to 2^41 - 1, else it is BAD_CAPACITY too: for
 * tests of what a program does once a ring is SPENT. OK, BAD_CAPACITY, NO_MEMORY, IN_USE. */
uint32_t lockfree_ring_new(lockfree_handle *root, uint32_t capacity, uint32_t passes);
uint32_t lockfree_ring_limited(lockfree_handle *root, uint32_t capacity, uint64_t laps,
                               uint32_t passes);

/* A new pass in an empty handle. OK, NO_PASS, NO_MEMORY, OTHER_HANDLE, NO_HANDLE, IN_USE. */
uint32_t lockfree_split(lockfree_handle *root, lockfree_handle *pass);

/* Gives a pass back to the root that it was split from, and empties its handle. Then the root can
 * split off another pass in its place: so a ring for n passes serves any number of threads, n at a
 * time. Once each pass of a container was joined, lockfree_finish hands out exactly the values that
 * were put and not taken. If the answer is not OK, both handles are as they were.
 * UNDER_WAY:    the pass has a call under way: lockfree_go_on first (after a lockfree_put_range the
 *               same call again), or lockfree_free
 * OTHER_HANDLE: `root` is a pass or its container was ended, `pass` is no pass, or they are of two
 *               containers
 * NO_HANDLE:    one of the two is empty
 * OK, UNDER_WAY, OTHER_HANDLE, NO_HANDLE. */
uint32_t lockfree_join(lockfree_handle *root, lockfree_handle *pass);

/* Gives up a root, a pass or an end, and empties the handle. A call that is under way ends where it
 * is: its value is out of reach, and its cell stays held. Of a fold, the values that it has not
 * handed out are out of reach, and all of its cells stay held. Of a put_range, all of its values
 * are out of reach, and the cells that it has stay held. The root gives no pass in place of one
 * that is freed: join it for that. OK, NO_HANDLE. */
uint32_t lockfree_free(lockfree_handle *handle);

/* Ends a container whose root is its only handle, and hands out what is left in it, one value an
 * answer: a queue's or a ring's from the front, a stack's from the top. It asks for no memory, no
 * pass and no tag. So it also empties a spent container. If another handle of the container is out,
 * it answers SHARED and nothing has changed: join or free the passes first. After its first VALUE
 * or EMPTY the root gives no pass and takes none back (OTHER_HANDLE). lockfree_free then ends the
 * root, with the values that were not handed out. A value that a freed pass had under way is not
 * among those that are left.
 * VALUE, EMPTY, SHARED, OTHER_HANDLE, NO_HANDLE. */
lockfree_answer lockfree_finish(lockfree_handle *root);

/* The calls of a pass. A put, a take and a look first try a fast path. If a call has not ended
 * then, it makes at most as many steps more as an undisturbed call makes, and those of `tries`
 * tries more; 0 is allowed. If it has not ended then, it returns BUSY and is under way:
 * lockfree_go_on continues it, and returns what the call would have returned.
 * All: BUSY, UNDER_WAY, OTHER_HANDLE, NO_HANDLE.
 * put:   OK, FULL, CLOSED, SPENT
 * take:  OK, EMPTY, CLOSED, SHUT, SPENT
 * close: OK, CLOSED. No put follows
 * shut:  OK, SHUT. No take follows
 * look:  OK if it was not empty, EMPTY if it was
 * count: OK, and value is how many values the queue or the ring held at one moment of the call, 0
 *        to its capacity. Not of stacks. It begins anew while others take
 * gauge: OK if the container was open, CLOSED if it was closed. value is how many of its tags were
 *        used at the same moment of the call, at most 2^42 - 1. A queue uses one for each put that
 *        was OK. A stack uses one for each put and each take, of one value or of many. In a ring,
 *        value is how many puts were OK, at most its capacity times its laps: then it is SPENT. A
 *        gauge uses no tag, so it also answers once the container is SPENT */
lockfree_answer lockfree_put(lockfree_handle *pass, uint64_t value, uint64_t tries);
lockfree_answer lockfree_take(lockfree_handle *pass, uint64_t tries);
lockfree_answer lockfree_close(lockfree_handle *pass, uint64_t tries);
lockfree_answer lockfree_shut(lockfree_handle *pass, uint64_t tries);
lockfree_answer lockfree_look(lockfree_handle *pass, uint64_t tries);
lockfree_answer lockfree_count(lockfree_handle *pass, uint64_t tries);
lockfree_answer lockfree_gauge(lockfree_handle *pass, uint64_t tries);
lockfree_answer lockfree_go_on(lockfree_handle *pass, uint64_t tries);

/* The number of this pass's last call, if that was a put, a take, a fold or a put_range that was
 * OK; else 0. Numbers count the calls of all passes, from 0: a queue's and a ring's puts and takes
 * apart, those of a stack together. So a number tells how far a container is worn: it is spent near
 * number 2^42, and a ring of n slots at number n * laps.
 * OK, UNDER_WAY, OTHER_HANDLE, NO_HANDLE. */
lockfree_answer lockfree_number(lockfree_handle *pass);

/* A fold of all values of a stack: one compare-and-swap takes them all, so that what is put after
 * it is not among them. It hands them out one after another, from the top down, or reversed, from
 * the bottom up: each is an answer with the code VALUE, and lockfree_go_on gives the next one, and
 * at last OK. Then their cells are free again; until then they are held, and the pass makes no
 * other call. A fold that is reversed makes two steps more for each value, before the first.
 * OK, VALUE, EMPTY, CLOSED, SHUT, SPENT, BUSY, UNDER_WAY, OTHER_HANDLE, NO_HANDLE. */
lockfree_answer lockfree_fold(lockfree_handle *pass, bool reversed, uint64_t tries);

/* Puts the values of an array onto a stack, of which others see all or none: one compare-and-swap
 * puts them. It puts as many as cells can be had, from the first, so that the last one put is on
 * top. value is how many were put. values is not null, and count may be 0. `tries` are for each
 * value, and again for all of them together. After BUSY it is called again, with the same array,
 * until there is another answer; the pass makes no other call until then, and go_on is NO_CALL,
 * since it has no array.
 * OK; FULL, CLOSED, SPENT, EMPTY (of no values), and then none was put; BUSY, UNDER_WAY,
 * OTHER_HANDLE, NO_HANDLE */
lockfree_answer lockfree_put_range(lockfree_handle *pass, const uint64_t *values, size_t count,
                                   uint64_t tries);

/* A new SPSC ring, and its two ends in empty handles. It has exactly this capacity, of any but 0.
 * OK, BAD_CAPACITY, NO_MEMORY, IN_USE. */
uint32_t lockfree_spsc_new(lockfree_handle *producer, lockfree_handle *consumer, uint32_t capacity);

/* The calls of its ends, which may also leave by lockfree_free. The last to leave frees the ring;
 * what is left in it is lost. No array is null. All: OTHER_HANDLE, NO_HANDLE.
 * push:      OK, FULL, CLOSED
 * push_many: OK, FULL, CLOSED. Pushes the first values of an array, as many as find a slot: value
 *            is how many, at least 1 unless count is 0
 * room:      OK, CLOSED. value is how many slots are free: so many pushes cannot be refused
 * close:     OK. The producer leaves: its handle is empty, and the consumer pops what is left
 * pop:       OK, EMPTY, CLOSED. value is the oldest value
 * pop_many:  OK, EMPTY, CLOSED. Pops the oldest values into an array, as many as there are and fit:
 *            value as in push_many. The array is unchanged unless it is OK
 * front:     as pop, but the value stays
 * size:      OK, CLOSED. value is how many values there are: so many pops cannot be refused */
lockfree_answer lockfree_spsc_push(lockfree_handle *producer, uint64_t value);
lockfree_answer lockfree_spsc_push_many(lockfree_handle *producer, const uint64_t *values,
                                        size_t count);
lockfree_answer lockfree_spsc_room(lockfree_handle *producer);
uint32_t lockfree_spsc_close(lockfree_handle *producer);
lockfree_answer lockfree_spsc_pop(lockfree_handle *consumer);
lockfree_answer lockfree_spsc_pop_many(lockfree_handle *consumer, uint64_t *values, size_t count);
lockfree_answer lockfree_spsc_front(lockfree_handle *consumer);
lockfree_answer lockfree_spsc_size(lockfree_handle *consumer);

/* Under ThreadSanitizer, which does not see the library's atomics, each call tells it what they
 * order: of all containers together, so that it reports no race that is none. It misses a race if
 * calls of another container hide it. */
#if defined(__SANITIZE_THREAD__)
#define LOCKFREE_TELLS_TSAN 1
#elif defined(__has_feature)
#if __has_feature(thread_sanitizer)
#define LOCKFREE_TELLS_TSAN 1
#endif
#endif
#ifdef LOCKFREE_TELLS_TSAN
void __tsan_acquire(void *);
void __tsan_release(void *);
#define LOCKFREE_TOLD(call) (__tsan_release(&lockfree_order), lockfree_heard(call))
__attribute__((weak)) char lockfree_order;
static inline lockfree_answer lockfree_heard(lockfree_answer answer)
{
    __tsan_acquire(&lockfree_order);
    return answer;
}
#define lockfree_put(pass, value, tries) LOCKFREE_TOLD((lockfree_put)(pass, value, tries))
#define lockfree_take(pass, tries) LOCKFREE_TOLD((lockfree_take)(pass, tries))
#define lockfree_close(pass, tries) LOCKFREE_TOLD((lockfree_close)(pass, tries))
#define lockfree_shut(pass, tries) LOCKFREE_TOLD((lockfree_shut)(pass, tries))
#define lockfree_look(pass, tries) LOCKFREE_TOLD((lockfree_look)(pass, tries))
#define lockfree_count(pass, tries) LOCKFREE_TOLD((lockfree_count)(pass, tries))
#define lockfree_gauge(pass, tries) LOCKFREE_TOLD((lockfree_gauge)(pass, tries))
#define lockfree_go_on(pass, tries) LOCKFREE_TOLD((lockfree_go_on)(pass, tries))
#define lockfree_fold(pass, reversed, tries) LOCKFREE_TOLD((lockfree_fold)(pass, reversed, tries))
#define lockfree_put_range(...) LOCKFREE_TOLD((lockfree_put_range)(__VA_ARGS__))
#define lockfree_finish(root) LOCKFREE_TOLD((lockfree_finish)(root))
#define lockfree_free(handle) (__tsan_release(&lockfree_order), (lockfree_free)(handle))
#define lockfree_spsc_push(end, value) LOCKFREE_TOLD((lockfree_spsc_push)(end, value))
#define lockfree_spsc_push_many(...) LOCKFREE_TOLD((lockfree_spsc_push_many)(__VA_ARGS__))
#define lockfree_spsc_room(end) LOCKFREE_TOLD((lockfree_spsc_room)(end))
#define lockfree_spsc_close(end) (__tsan_release(&lockfree_order), (lockfree_spsc_close)(end))
#define lockfree_spsc_pop(end) LOCKFREE_TOLD((lockfree_spsc_pop)(end))
#define lockfree_spsc_pop_many(...) LOCKFREE_TOLD((lockfree_spsc_pop_many)(__VA_ARGS__))
#define lockfree_spsc_front(end) LOCKFREE_TOLD((lockfree_spsc_front)(end))
#define lockfree_spsc_size(end) LOCKFREE_TOLD((lockfree_spsc_size)(end))
#endif

/* Continues a call until there is another answer than BUSY. */
static inline lockfree_answer lockfree_until(lockfree_handle *pass, lockfree_answer answer)
{
    while (answer.code == LOCKFREE_BUSY)
        answer = lockfree_go_on(pass, UINT64_MAX);
    return answer;
}

/* Whole puts and takes: never BUSY. */
static inline uint32_t lockfree_push(lockfree_handle *pass, uint64_t value)
{
    return lockfree_until(pass, lockfree_put(pass, value, UINT64_MAX)).code;
}

static inline uint32_t lockfree_pop(lockfree_handle *pass, uint64_t *value)
{
    lockfree_answer answer = lockfree_until(pass, lockfree_take(pass, UINT64_MAX));
    if (answer.code == LOCKFREE_OK)
        *value = answer.value;
    return answer.code;
}

/* Whether the container was closed, at one moment of the call. False of a handle whose gauge is
 * refused: one that is empty, a root, what is left of a container that was ended, and a pass that
 * is under way. */
static inline bool lockfree_is_closed(lockfree_handle *pass)
{
    return lockfree_until(pass, lockfree_gauge(pass, UINT64_MAX)).code == LOCKFREE_CLOSED;
}

/* How far the container was worn at one moment of the call: how many of its tags were used, of at
 * most 2^42 - 1, or of the limit that it was made with. In a ring: how many values were put, of its
 * capacity times its laps. 0 of a handle whose gauge is refused. */
static inline uint64_t lockfree_wear(lockfree_handle *pass)
{
    return lockfree_until(pass, lockfree_gauge(pass, UINT64_MAX)).value;
}

/* Takes one value and hands it to `use`. OK, or why there was none. */
static inline uint32_t lockfree_consume_one(lockfree_handle *pass,
                                            void (*use)(uint64_t value, void *with), void *with)
{
    uint64_t value;
    uint32_t code = lockfree_pop(pass, &value);
    if (code == LOCKFREE_OK)
        use(value, with);
    return code;
}

/* Takes values, one after another, until there is none; answers how many. */
static inline uint64_t lockfree_consume_all(lockfree_handle *pass,
                                            void (*use)(uint64_t value, void *with), void *with)
{
    uint64_t count = 0;
    while (lockfree_consume_one(pass, use, with) == LOCKFREE_OK)
        count++;
    return count;
}

/* Ends a container and hands all that is left to `use`; answers how many there were. The root is
 * then to be freed. Hands out nothing if lockfree_finish refuses. */
static inline uint64_t lockfree_finish_all(lockfree_handle *root,
                                           void (*use)(uint64_t value, void *with), void *with)
{
    uint64_t count = 0;
    lockfree_answer answer;
    while ((answer = lockfree_finish(root)).code == LOCKFREE_VALUE) {
        use(answer.value, with);
        count++;
    }
    return count;
}

/* Takes all values of a stack by one compare-and-swap and hands them to `use`, which makes no call
 * with this pass. OK, or why there were none; *count is how many. */
static inline uint32_t lockfree_consume_all_atomic(lockfree_handle *pass, bool reversed,
                                                   void (*use)(uint64_t value, void *with),
                                                   void *with, uint64_t *count)
{
    lockfree_answer answer = lockfree_until(pass, lockfree_fold(pass, reversed, UINT64_MAX));
    while (answer.code == LOCKFREE_VALUE) {
        use(answer.value, with);
        answer = lockfree_until(pass, lockfree_go_on(pass, UINT64_MAX));
    }
    *count = answer.code == LOCKFREE_OK ? answer.value : 0;
    return answer.code;
}

/* Puts the values of an array onto a stack by one compare-and-swap, from the first: as many as
 * cells can be had. Never BUSY. */
static inline lockfree_answer lockfree_push_range(lockfree_handle *pass, const uint64_t *values,
                                                  size_t count)
{
    lockfree_answer answer;
    do
        answer = lockfree_put_range(pass, values, count, UINT64_MAX);
    while (answer.code == LOCKFREE_BUSY);
    return answer;
}

#ifdef __cplusplus
}
#endif
#endif
