/* Stands between the program and the C library, where a test asks for it by the environment:
   REFUSED_ALLOCATION=N refuses the Nth allocation, REFUSED_FROM=N that and all later ones, REFUSED_THREAD=N the Nth
   thread, REFUSED_CLOCK=N the Nth look at the clock, REFUSED_READ=N the Nth read, REFUSED_WRITE=N the Nth write to
   standard output, REFUSED_WRITES=N that and all later ones, REFUSED_ERROR=N the Nth write to standard error;
   AS_NOTHING=1 has such a read or write move nothing and not fail. IN_PIECES=1 interrupts every other of these reads and
   writes, and has the others move one byte; INTERRUPTED_READS=N interrupts the first N reads, and INTERRUPTED_WRITES=N the
   first N writes to standard output. CLOCK_STEP=N has each look at the clock find it N nanoseconds later. LATE_THREAD=N
   lets the Nth thread begin after five yields of others, or, with BEHIND=M, when the Mth has ended.
   SEEN=FILE gets one byte for each of these calls: 'm' an allocation, 't' a thread, 'r' a read, '1' and '2' a write to
   standard output and error, 'A' a yield of the first thread, 'B' of the second and so on, 'x' behind a call that was
   refused, and at the end a 'k' for each block of memory that is kept. */
#define _GNU_SOURCE
#include <dlfcn.h>
#include <errno.h>
#include <fcntl.h>
#include <pthread.h>
#include <stdatomic.h>
#include <stddef.h>
#include <stdint.h>
#include <stdlib.h>
#include <sys/syscall.h>
#include <time.h>
#include <unistd.h>

extern void *__libc_malloc(size_t);
extern void *__libc_realloc(void *, size_t);
extern void __libc_free(void *);

static atomic_long allocations, threads, looks, reads, writes, errors, yields;
static long refused_allocation, refused_from, refused_thread, refused_clock, refused_read, refused_write, refused_writes;
static long refused_error, as_nothing, in_pieces, interrupted_reads, interrupted_writes, late_thread, behind;
static long clock_is_set, clock_step;
static int seen = -1;

static long number_in(const char *name) {
    const char *text = getenv(name);
    return text ? atol(text) : 0;
}

__attribute__((constructor)) static void start(void) {
    refused_allocation = number_in("REFUSED_ALLOCATION");
    refused_from = number_in("REFUSED_FROM");
    refused_thread = number_in("REFUSED_THREAD");
    refused_clock = number_in("REFUSED_CLOCK");
    refused_read = number_in("REFUSED_READ");
    refused_write = number_in("REFUSED_WRITE");
    refused_writes = number_in("REFUSED_WRITES");
    refused_error = number_in("REFUSED_ERROR");
    as_nothing = number_in("AS_NOTHING");
    in_pieces = number_in("IN_PIECES");
    interrupted_reads = number_in("INTERRUPTED_READS");
    interrupted_writes = number_in("INTERRUPTED_WRITES");
    late_thread = number_in("LATE_THREAD");
    behind = number_in("BEHIND");
    clock_is_set = getenv("CLOCK_STEP") != NULL;
    clock_step = number_in("CLOCK_STEP");
    if (getenv("SEEN"))
        seen = open(getenv("SEEN"), O_WRONLY | O_CREAT | O_APPEND, 0600);
}

static void tell(char what) {
    if (seen >= 0)
        syscall(SYS_write, seen, &what, 1);
}

/* The blocks that are kept: a table of addresses, in which a block that was given back leaves a mark. */
enum { PLACES = 1 << 16 };
static _Atomic(uintptr_t) kept[PLACES];
static const uintptr_t LEFT = 1;

static size_t place_of(uintptr_t block, size_t tries) {
    return (block / 16 + tries) % PLACES;
}

static void *keep(void *block) {
    for (size_t tries = 0; block && tries < PLACES; tries++) {
        _Atomic(uintptr_t) *place = &kept[place_of((uintptr_t)block, tries)];
        uintptr_t found = atomic_load(place);
        if (found <= LEFT && atomic_compare_exchange_strong(place, &found, (uintptr_t)block))
            break;
    }
    return block;
}

static void leave(void *block) {
    for (size_t tries = 0; block && tries < PLACES; tries++) {
        _Atomic(uintptr_t) *place = &kept[place_of((uintptr_t)block, tries)];
        uintptr_t found = atomic_load(place);
        if (found == (uintptr_t)block)
            atomic_store(place, LEFT);
        if (found == (uintptr_t)block || !found)
            break;
    }
}

static void end(void) {
    for (size_t place = 0; place < PLACES; place++)
        if (kept[place] > LEFT)
            tell('k');
}

/* The program ends by this call, so that no destructor of a library would run. */
void _exit(int status) {
    end();
    syscall(SYS_exit_group, status);
    __builtin_unreachable();
}

static int is_refused(void) {
    long count = atomic_fetch_add(&allocations, 1) + 1;
    tell('m');
    if (count != refused_allocation && !(refused_from && count >= refused_from))
        return 0;
    tell('x');
    errno = ENOMEM;
    return 1;
}

void *malloc(size_t size) {
    return is_refused() ? NULL : keep(__libc_malloc(size));
}

void *realloc(void *old, size_t size) {
    if (is_refused())
        return NULL;
    leave(old);
    return keep(__libc_realloc(old, size));
}

void free(void *block) {
    leave(block);
    __libc_free(block);
}

/* What each thread is started with, by its number from 0, and whether it has ended. */
enum { THREADS = 32 };
static struct work {
    void *(*start)(void *);
    void *given;
    atomic_int has_ended;
} works[THREADS];
static _Thread_local long own_number = -1;

static int may_begin(void) {
    return behind ? atomic_load(&works[behind - 1].has_ended) : atomic_load(&yields) >= 5;
}

static void *begin(void *given) {
    struct work *work = given;
    own_number = work - works;
    while (own_number + 1 == late_thread && !may_begin())
        syscall(SYS_sched_yield);
    void *answer = work->start(work->given);
    atomic_store(&work->has_ended, 1);
    return answer;
}

int pthread_create(pthread_t *thread, const pthread_attr_t *how, void *(*start)(void *), void *given) {
    static int (*create)(pthread_t *, const pthread_attr_t *, void *(*)(void *), void *);
    if (!create)
        *(void **)&create = dlsym(RTLD_NEXT, "pthread_create");
    tell('t');
    long number = atomic_fetch_add(&threads, 1);
    if (number + 1 == refused_thread) {
        tell('x');
        return EAGAIN;
    }
    if (number >= THREADS)
        return create(thread, how, start, given);
    works[number].start = start;
    works[number].given = given;
    return create(thread, how, begin, &works[number]);
}

int sched_yield(void) {
    if (own_number >= 0)
        tell((char)('A' + own_number));
    atomic_fetch_add(&yields, 1);
    return (int)syscall(SYS_sched_yield);
}

int clock_gettime(clockid_t clock, struct timespec *time) {
    long number = atomic_fetch_add(&looks, 1) + 1;
    if (number == refused_clock) {
        tell('x');
        errno = EINVAL;
        return -1;
    }
    if (!clock_is_set)
        return (int)syscall(SYS_clock_gettime, clock, time);
    long past = number * clock_step;
    *time = (struct timespec){1000 + past / 1000000000, past % 1000000000};
    return 0;
}

/* How many bytes call number `count` of a kind may move; -1 where it is refused or interrupted. */
static ssize_t room(long count, int refused, size_t wanted) {
    if (refused) {
        tell('x');
        errno = EIO;
        return as_nothing ? 0 : -1;
    }
    if (in_pieces && count % 2) {
        errno = EINTR;
        return -1;
    }
    return in_pieces && wanted ? 1 : (ssize_t)wanted;
}

ssize_t read(int from, void *bytes, size_t wanted) {
    tell('r');
    long number = atomic_fetch_add(&reads, 1) + 1;
    if (number <= interrupted_reads) {
        errno = EINTR;
        return -1;
    }
    ssize_t count = room(number, number == refused_read, wanted);
    return count < 0 ? count : syscall(SYS_read, from, bytes, (size_t)count);
}

ssize_t write(int to, const void *bytes, size_t wanted) {
    ssize_t count = (ssize_t)wanted;
    if (to == 1) {
        tell('1');
        long number = atomic_fetch_add(&writes, 1) + 1;
        if (number <= interrupted_writes) {
            errno = EINTR;
            return -1;
        }
        count = room(number, number == refused_write || (refused_writes && number >= refused_writes), wanted);
    }
    if (to == 2) {
        tell('2');
        long number = atomic_fetch_add(&errors, 1) + 1;
        count = room(number, number == refused_error, wanted);
    }
    return count < 0 ? count : syscall(SYS_write, to, bytes, (size_t)count);
}

ssize_t __write(int to, const void *bytes, size_t count) {
    return write(to, bytes, count);
}
