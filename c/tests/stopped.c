/* ways: plain clang */
/* Threads that stop in the middle of a call, after each of its instructions in turn: all calls of the others end, and no
 * value is lost or comes twice. What has stopped goes on in the end, and ends its call too. The same of calls whose single
 * try was disturbed, and which are BUSY. For x86-64, whose processor stops after an instruction if a flag says so. */
#define _GNU_SOURCE
#include "lockfree.h"

#include "check.h"
#include <pthread.h>
#include <sched.h>
#include <signal.h>
#include <ucontext.h>
#include <unistd.h>

enum { CAPACITY = 4, BEFORE = 2, ROUNDS = 20, OF_STOPPED = 10000, EACH_CALL = 8, STEP_FLAG = 0x100, PATIENCE = 60 };
enum { RUNS, STOPPED, ENDED };

/* A thread that puts or takes by `tries`, and stops after so many instructions, and then after each `every` more if it is
 * not 0. It goes on if others say that it runs. */
struct stopping {
    lockfree_handle pass;
    bool puts;
    uint64_t tries;
    long after, every, made;
    int where;
    lockfree_answer answer;
};

static __thread struct stopping *self;

static void say(struct stopping *stopping, int where) { __atomic_store_n(&stopping->where, where, __ATOMIC_SEQ_CST); }
static int is_at(struct stopping *stopping) { return __atomic_load_n(&stopping->where, __ATOMIC_SEQ_CST); }

/* Waits until it has stopped or ended. */
static bool has_stopped(struct stopping *stopping)
{
    while (is_at(stopping) == RUNS)
        sched_yield();
    return is_at(stopping) == STOPPED;
}

static void after_instruction(int number, siginfo_t *info, void *context)
{
    (void)number, (void)info;
    if (++self->made < self->after)
        return;
    self->after += self->every;
    say(self, STOPPED);
    while (is_at(self) == STOPPED)
        sched_yield();
    if (self->every == 0)
        ((ucontext_t *)context)->uc_mcontext.gregs[REG_EFL] &= ~STEP_FLAG;
}

static void too_late(int number)
{
    static const char said[] = "a call waits for a thread that has stopped\n";
    (void)number;
    _exit(write(STDOUT_FILENO, said, sizeof said - 1) < 0 ? 2 : 1);
}

static void *calls(void *at)
{
    self = at;
    __builtin_ia32_writeeflags_u64(__builtin_ia32_readeflags_u64() | STEP_FLAG);
    self->answer = self->puts ? lockfree_put(&self->pass, OF_STOPPED, self->tries) : lockfree_take(&self->pass, self->tries);
    __builtin_ia32_writeeflags_u64(__builtin_ia32_readeflags_u64() & ~(unsigned long long)STEP_FLAG);
    say(self, ENDED);
    return NULL;
}

/* A call by single tries, of which some are enough. */
static lockfree_answer ends(lockfree_handle *pass, lockfree_answer answer)
{
    for (int tries = 0; answer.code == LOCKFREE_BUSY && tries < EACH_CALL; tries++)
        answer = lockfree_go_on(pass, 1);
    CHECK(answer.code != LOCKFREE_BUSY);
    return answer;
}

/* What the others have put and taken. Their values count from 1, in the order of their puts, and stay below that of the thread
 * that has stopped: they put one for every few instructions of a call, and a disturbed call of a ring makes some 6,000. */
struct others {
    lockfree_handle passes[2];
    uint64_t put, taken, last;
    bool stack, met; /* met: the value of the thread that has stopped */
    unsigned char seen[OF_STOPPED];
};

static bool put(struct others *others)
{
    lockfree_handle *pass = &others->passes[others->put % 2];
    CHECK(others->put + 1 < OF_STOPPED);
    uint32_t code = ends(pass, lockfree_put(pass, others->put + 1, 1)).code;
    CHECK(code == LOCKFREE_OK || code == LOCKFREE_FULL);
    others->put += code == LOCKFREE_OK;
    return code == LOCKFREE_OK;
}

static void meet(struct others *others, uint64_t value)
{
    if (value == OF_STOPPED) {
        CHECK(!others->met);
        others->met = true;
        return;
    }
    CHECK(value >= 1 && value <= others->put && !others->seen[value]);
    others->seen[value] = 1;
    others->taken++;
}

static bool take(struct others *others)
{
    lockfree_handle *pass = &others->passes[others->taken % 2];
    lockfree_answer answer = ends(pass, lockfree_take(pass, 1));
    CHECK(answer.code == LOCKFREE_OK || answer.code == LOCKFREE_EMPTY);
    if (answer.code == LOCKFREE_EMPTY)
        return false;
    if (!others->stack && answer.value != OF_STOPPED) {
        CHECK(answer.value > others->last);
        others->last = answer.value;
    }
    meet(others, answer.value);
    return true;
}

/* What the others do while threads have stopped: a stopped put may hold a cell, and a stopped take a value. */
static void go_about(struct others *others, uint64_t stopped)
{
    uint64_t before = others->put, found = 0, refused = 0;
    while (put(others)) {
    }
    CHECK(others->put - before + BEFORE + stopped >= CAPACITY && others->put - before <= CAPACITY - BEFORE + stopped);
    CHECK(ends(&others->passes[0], lockfree_look(&others->passes[0], 1)).code == LOCKFREE_OK);
    while (take(others))
        found++;
    CHECK(found + stopped >= CAPACITY && found <= CAPACITY + stopped);
    CHECK(ends(&others->passes[0], lockfree_look(&others->passes[0], 1)).code == LOCKFREE_EMPTY);
    for (int i = 0; i < ROUNDS; i++) {
        CHECK(put(others));
        refused += !take(others);
    }
    CHECK(refused <= stopped);
}

typedef uint32_t make_new(lockfree_handle *root, uint32_t capacity);

static uint32_t ring_new(lockfree_handle *root, uint32_t capacity) { return lockfree_ring_new(root, capacity, 4); }

struct scene {
    lockfree_handle root;
    struct others others;
    pthread_t threads[2];
    struct stopping *stopping;
    uint64_t count;
};

static void begin(struct scene *scene, make_new *make)
{
    struct others *others = &scene->others;
    others->stack = make == lockfree_stack_new;
    CHECK(make(&scene->root, CAPACITY) == LOCKFREE_OK);
    for (int i = 0; i < 2; i++)
        CHECK(lockfree_split(&scene->root, &others->passes[i]) == LOCKFREE_OK);
    for (int i = 0; i < BEFORE; i++)
        CHECK(put(others));
    for (uint64_t i = 0; i < scene->count; i++) {
        CHECK(lockfree_split(&scene->root, &scene->stopping[i].pass) == LOCKFREE_OK);
        CHECK(pthread_create(&scene->threads[i], NULL, calls, &scene->stopping[i]) == 0);
        has_stopped(&scene->stopping[i]);
    }
    alarm(PATIENCE);
}

/* Lets one go on to the end of its call; whether it has put its value. */
static bool let_end(struct scene *scene, uint64_t which)
{
    struct stopping *it = &scene->stopping[which];
    if (is_at(it) == STOPPED)
        say(it, RUNS);
    CHECK(pthread_join(scene->threads[which], NULL) == 0);
    lockfree_answer said = lockfree_until(&it->pass, it->answer);
    CHECK(said.code == LOCKFREE_OK || said.code == (it->puts ? LOCKFREE_FULL : LOCKFREE_EMPTY));
    if (said.code == LOCKFREE_OK && !it->puts)
        meet(&scene->others, said.value);
    CHECK(lockfree_free(&it->pass) == LOCKFREE_OK);
    return said.code == LOCKFREE_OK && it->puts;
}

static void end(struct scene *scene)
{
    struct others *others = &scene->others;
    bool was_put = false;
    go_about(others, scene->count);
    for (uint64_t i = 0; i < scene->count; i++)
        was_put |= let_end(scene, i);
    while (take(others)) {
    }
    alarm(0);
    CHECK(others->taken == others->put && others->met == was_put);
    lockfree_free(&others->passes[0]), lockfree_free(&others->passes[1]), lockfree_free(&scene->root);
}

/* Whether the first of them has stopped, and did not end before. */
static bool stop(make_new *make, struct stopping *stopping, uint64_t count)
{
    struct scene scene = {.stopping = stopping, .count = count};
    begin(&scene, make);
    bool first = is_at(&stopping[0]) == STOPPED;
    end(&scene);
    return first;
}

/* Others call between each few instructions of a call that has a single try; whether it was BUSY. */
static bool disturb(make_new *make, bool puts, long every)
{
    struct stopping one = {.puts = puts, .after = every, .every = every};
    struct scene scene = {.stopping = &one, .count = 1};
    begin(&scene, make);
    while (has_stopped(&one)) {
        put(&scene.others), take(&scene.others);
        say(&one, RUNS);
    }
    bool busy = one.answer.code == LOCKFREE_BUSY;
    end(&scene);
    return busy;
}

/* One that stops after each of its instructions; answers how many there are. */
static long stop_one(make_new *make, bool puts)
{
    for (long after = 1;; after++) {
        struct stopping one = {.puts = puts, .tries = 1, .after = after};
        if (!stop(make, &one, 1))
            return after - 1;
    }
}

int main(void)
{
    const struct sigaction action = {.sa_sigaction = after_instruction, .sa_flags = SA_SIGINFO};
    CHECK(sigaction(SIGTRAP, &action, NULL) == 0 && signal(SIGALRM, too_late) != SIG_ERR);
    make_new *const makes[] = {lockfree_queue_new, lockfree_stack_new, ring_new};
    for (int i = 0; i < 3; i++) {
        const long of_put = stop_one(makes[i], true), of_take = stop_one(makes[i], false);
        CHECK(of_put > 20 && of_take > 20);
        for (int puts = 0; puts < 2; puts++)
            CHECK(disturb(makes[i], puts, 5) + disturb(makes[i], puts, 13) + disturb(makes[i], puts, 30) > 0);
        for (long put_after = 1; put_after <= of_put; put_after += 5)
            for (long take_after = 1 + put_after % 5; take_after <= of_take; take_after += 5) {
                struct stopping two[] = {{.puts = true, .tries = 1, .after = put_after}, {.tries = 1, .after = take_after}};
                stop(makes[i], two, 2);
            }
    }
    puts("passed");
    return 0;
}
