/* ways: plain clang address valgrind */
/* valgrind: 400 */
/* Random sequences of all calls, by one thread, against a model of their codes, values and numbers; half of them with
 * allocations that are refused. The sequences are the same each time.
 * usage: sequences [how many, 100,000] */
#include "lockfree.h"

#include "check.h"
#include <string.h>

enum { SLOTS = 6, CALLS = 60, MOST = 6, ADDED = 9 };

/* A container as C has to see it: its values from the end where they are taken. */
struct model {
    bool stack, ring;
    uint32_t capacity;
    uint32_t passes; /* that a ring can give now */
    uint64_t laps;   /* how often a slot of a ring can be filled; of the others the limit of their tags */
    uint64_t values[MOST];
    uint32_t size;
    uint32_t held; /* cells that a fold holds */
    bool closed, shut;
    uint64_t puts, takes;
    uint32_t handles;
};

enum kind { NONE, ROOT, PASS, FOLD, REST };

/* A handle, and what it has to be. */
struct slot {
    lockfree_handle handle;
    enum kind kind;
    struct model *of;
    uint64_t number;
    uint64_t list[MOST]; /* what a fold has yet to hand out */
    uint32_t count, all;
};

static struct slot slots[SLOTS];
static uint64_t next_value;
static uint64_t seed;
static bool with_refusals;

static uint64_t below(uint64_t bound)
{
    seed ^= seed << 13, seed ^= seed >> 7, seed ^= seed << 17;
    return (seed >> 11) % bound;
}

/* Whether an allocation was refused since `may_refuse`. Calls that take no memory ask too: there it never is. */
static long asked;
static void may_refuse(void) { refused = asked = with_refusals && below(3) == 0 ? 1 + (long)below(4) : 0; }
static bool was_refused(void)
{
    bool was = asked > 0 && refused == 0;
    refused = 0;
    return was;
}

static void is(lockfree_answer answer, uint32_t code, uint64_t value)
{
    CHECK(!was_refused() && answer.code == code && answer.value == value);
}

/* Why the handle in this slot makes no call, if it makes none. */
static uint32_t refusal(const struct slot *slot, bool of_stack)
{
    if (slot->kind == NONE)
        return LOCKFREE_NO_HANDLE;
    if (slot->kind == FOLD)
        return LOCKFREE_UNDER_WAY;
    return slot->kind == PASS && (!of_stack || slot->of->stack) ? LOCKFREE_OK : LOCKFREE_OTHER_HANDLE;
}

static uint64_t number_of_put(struct model *m)
{
    uint64_t number = m->stack ? m->puts + m->takes : m->puts;
    m->puts++;
    return number;
}

static uint64_t number_of_take(struct model *m)
{
    uint64_t number = m->stack ? m->puts + m->takes : m->takes;
    m->takes++;
    return number;
}

static uint32_t room(const struct model *m) { return m->capacity - m->size - m->held; }

static void put_in(struct model *m, uint64_t value)
{
    if (m->stack)
        memmove(m->values + 1, m->values, m->size * sizeof *m->values);
    m->values[m->stack ? 0 : m->size] = value;
    m->size++;
}

static uint64_t take_out(struct model *m)
{
    uint64_t value = m->values[0];
    memmove(m->values, m->values + 1, --m->size * sizeof *m->values);
    return value;
}

static void forget(struct slot *slot)
{
    if (slot->of && --slot->of->handles == 0)
        free(slot->of);
    slot->kind = NONE;
    slot->of = NULL;
}

enum { PASSES = 4 };

/* A limit that a container can be made with, the greatest or of a ring a low one; or one that is none. */
static uint64_t some_limit(bool ring)
{
    const uint64_t least = ring ? 1 : 2, most = ((uint64_t)1 << (ring ? 41 : 42)) - 1;
    switch (below(8)) {
    case 0:
        return least - 1;
    case 1:
        return most + 1;
    default:
        return ring && below(2) ? 1 + below(3) : most;
    }
}

static uint32_t make_in(lockfree_handle *root, const struct model *m, bool limited)
{
    if (m->ring)
        return limited ? lockfree_ring_limited(root, m->capacity, m->laps, PASSES) : lockfree_ring_new(root, m->capacity, PASSES);
    if (limited)
        return (m->stack ? lockfree_stack_limited : lockfree_queue_limited)(root, m->capacity, m->laps);
    return (m->stack ? lockfree_stack_new : lockfree_queue_new)(root, m->capacity);
}

static void make(struct slot *slot)
{
    uint64_t which = below(3);
    bool limited = below(2);
    struct model *m = calloc(1, sizeof *m);
    CHECK(m);
    m->stack = which == 1, m->ring = which == 2, m->passes = PASSES, m->handles = 1;
    m->capacity = (uint32_t)below(MOST + 1);
    const uint64_t usual = ((uint64_t)1 << 41) - 1;
    m->laps = limited ? some_limit(m->ring) : usual;
    const bool bad = m->capacity == 0 || m->laps < (m->ring ? 1 : 2) || m->laps > (m->ring ? usual : 2 * usual + 1);
    may_refuse();
    uint32_t code = make_in(&slot->handle, m, limited);
    bool none = was_refused();
    if (slot->kind != NONE || bad || none) {
        CHECK(code == (slot->kind != NONE ? LOCKFREE_IN_USE : bad ? LOCKFREE_BAD_CAPACITY : LOCKFREE_NO_MEMORY));
        free(m);
        return;
    }
    CHECK(code == LOCKFREE_OK);
    slot->kind = ROOT, slot->of = m;
}

static void split(struct slot *root)
{
    struct slot *pass = &slots[below(SLOTS)];
    if (pass == root)
        return;
    may_refuse();
    uint32_t code = lockfree_split(&root->handle, &pass->handle);
    bool none = was_refused();
    if (pass->kind != NONE || root->kind == NONE || none || root->kind != ROOT) {
        CHECK(code == (pass->kind != NONE ? LOCKFREE_IN_USE : root->kind == NONE ? LOCKFREE_NO_HANDLE : none ? LOCKFREE_NO_MEMORY : LOCKFREE_OTHER_HANDLE));
        return;
    }
    if (root->of->ring && root->of->passes == 0) {
        CHECK(code == LOCKFREE_NO_PASS);
        return;
    }
    CHECK(code == LOCKFREE_OK);
    root->of->passes -= root->of->ring;
    pass->kind = PASS, pass->of = root->of, pass->number = 0;
    root->of->handles++;
}

/* A pass goes to its root, or to what is not its root. */
static void join(struct slot *root)
{
    struct slot *pass = &slots[below(SLOTS)];
    if (pass == root)
        return;
    may_refuse();
    uint32_t code = lockfree_join(&root->handle, &pass->handle);
    CHECK(!was_refused());
    if (root->kind == NONE || pass->kind == NONE) {
        CHECK(code == LOCKFREE_NO_HANDLE);
        return;
    }
    const struct model *a = root->of, *b = pass->of;
    if (root->kind != ROOT || pass->kind == ROOT || pass->kind == REST || a->stack != b->stack || a->ring != b->ring) {
        CHECK(code == LOCKFREE_OTHER_HANDLE);
        return;
    }
    if (pass->kind == FOLD || a != b) {
        CHECK(code == (pass->kind == FOLD ? LOCKFREE_UNDER_WAY : LOCKFREE_OTHER_HANDLE));
        return;
    }
    CHECK(code == LOCKFREE_OK);
    root->of->passes += root->of->ring;
    forget(pass);
}

static void put(struct slot *slot)
{
    struct model *m = slot->of;
    uint64_t value = next_value++;
    uint32_t why = refusal(slot, false);
    may_refuse();
    lockfree_answer answer = lockfree_put(&slot->handle, value, below(3));
    if (why != LOCKFREE_OK) {
        is(answer, why, 0);
        return;
    }
    slot->number = 0;
    if (m->closed || room(m) == 0) {
        is(answer, m->closed ? LOCKFREE_CLOSED : LOCKFREE_FULL, 0);
        return;
    }
    if (m->ring && m->puts == m->laps * m->capacity) {
        is(answer, LOCKFREE_SPENT, 2 * m->laps);
        return;
    }
    put_in(m, value);
    slot->number = number_of_put(m);
    is(answer, LOCKFREE_OK, slot->number);
}

/* Why a take or a fold takes nothing. */
static uint32_t takes_nothing(const struct model *m)
{
    if (m->shut)
        return LOCKFREE_SHUT;
    return m->size > 0 ? LOCKFREE_OK : m->closed ? LOCKFREE_CLOSED : LOCKFREE_EMPTY;
}

static void take(struct slot *slot)
{
    uint32_t why = refusal(slot, false);
    may_refuse();
    lockfree_answer answer = lockfree_take(&slot->handle, below(3));
    if (why == LOCKFREE_OK) {
        slot->number = 0;
        why = takes_nothing(slot->of);
    }
    if (why != LOCKFREE_OK) {
        is(answer, why, 0);
        return;
    }
    slot->number = number_of_take(slot->of);
    is(answer, LOCKFREE_OK, take_out(slot->of));
}

static void mark(struct slot *slot, bool *set, uint32_t before, lockfree_answer (*call)(lockfree_handle *, uint64_t))
{
    uint32_t why = refusal(slot, false);
    may_refuse();
    lockfree_answer answer = call(&slot->handle, below(3));
    if (why == LOCKFREE_OK) {
        slot->number = 0;
        why = *set ? before : LOCKFREE_OK;
        *set = true;
    }
    is(answer, why, 0);
}

static void close_it(struct slot *slot) { mark(slot, slot->of ? &slot->of->closed : NULL, LOCKFREE_CLOSED, lockfree_close); }
static void shut_it(struct slot *slot) { mark(slot, slot->of ? &slot->of->shut : NULL, LOCKFREE_SHUT, lockfree_shut); }

static void look(struct slot *slot)
{
    uint32_t why = refusal(slot, false);
    may_refuse();
    lockfree_answer answer = lockfree_look(&slot->handle, below(3));
    if (why == LOCKFREE_OK) {
        slot->number = 0;
        why = slot->of->size == 0 ? LOCKFREE_EMPTY : LOCKFREE_OK;
    }
    is(answer, why, 0);
}

static void number(struct slot *slot)
{
    uint32_t why = refusal(slot, false);
    may_refuse();
    is(lockfree_number(&slot->handle), why, why == LOCKFREE_OK ? slot->number : 0);
}

/* The next answer of a fold. */
static void hands_out(struct slot *slot, lockfree_answer answer)
{
    if (slot->count > 0) {
        is(answer, LOCKFREE_VALUE, slot->list[slot->all - slot->count--]);
        return;
    }
    is(answer, LOCKFREE_OK, slot->all);
    slot->of->held -= slot->all;
    slot->kind = PASS;
}

static void fold(struct slot *slot)
{
    bool reversed = below(2);
    uint32_t why = refusal(slot, true);
    may_refuse();
    lockfree_answer answer = lockfree_until(&slot->handle, lockfree_fold(&slot->handle, reversed, below(3)));
    if (why == LOCKFREE_OK) {
        slot->number = 0;
        why = takes_nothing(slot->of);
    }
    if (why != LOCKFREE_OK) {
        is(answer, why, 0);
        return;
    }
    struct model *m = slot->of;
    for (uint32_t i = 0; i < m->size; i++)
        slot->list[i] = m->values[reversed ? m->size - 1 - i : i];
    slot->count = slot->all = m->size;
    m->held += m->size, m->size = 0;
    slot->kind = FOLD;
    slot->number = number_of_take(m);
    hands_out(slot, answer);
}

static void go_on(struct slot *slot)
{
    may_refuse();
    lockfree_answer answer = lockfree_until(&slot->handle, lockfree_go_on(&slot->handle, below(3)));
    if (slot->kind == FOLD)
        hands_out(slot, answer);
    else
        is(answer, slot->kind == NONE ? LOCKFREE_NO_HANDLE : slot->kind == PASS ? LOCKFREE_NO_CALL : LOCKFREE_OTHER_HANDLE, 0);
}

static void put_array(struct slot *slot)
{
    struct model *m = slot->of;
    uint64_t values[ADDED];
    uint32_t count = (uint32_t)below(ADDED + 1), why = refusal(slot, true);
    for (uint32_t i = 0; i < count; i++)
        values[i] = next_value++;
    may_refuse();
    lockfree_answer answer = lockfree_put_range(&slot->handle, values, count, below(3));
    if (why != LOCKFREE_OK || count == 0) {
        is(answer, why != LOCKFREE_OK ? why : LOCKFREE_EMPTY, 0);
        slot->number = why != LOCKFREE_OK ? slot->number : 0;
        return;
    }
    slot->number = 0;
    if (m->closed || room(m) == 0) {
        is(answer, m->closed ? LOCKFREE_CLOSED : LOCKFREE_FULL, 0);
        return;
    }
    uint32_t put = count < room(m) ? count : room(m);
    for (uint32_t i = 0; i < put; i++)
        put_in(m, values[i]);
    slot->number = number_of_put(m);
    is(answer, LOCKFREE_OK, put);
}

static void count(struct slot *slot)
{
    uint32_t why = refusal(slot, false);
    why = why == LOCKFREE_OK && slot->of->stack ? (uint32_t)LOCKFREE_OTHER_HANDLE : why;
    may_refuse();
    is(lockfree_count(&slot->handle, below(3)), why, why == LOCKFREE_OK ? slot->of->size : 0);
    slot->number = why == LOCKFREE_OK ? 0 : slot->number;
}

static void gauge(struct slot *slot)
{
    const struct model *m = slot->of;
    uint32_t why = refusal(slot, false);
    may_refuse();
    lockfree_answer answer = lockfree_gauge(&slot->handle, below(3));
    if (why != LOCKFREE_OK) {
        is(answer, why, 0);
        return;
    }
    slot->number = 0;
    is(answer, m->closed ? LOCKFREE_CLOSED : LOCKFREE_OK, m->puts + (m->stack ? m->takes : 0));
}

static void finish(struct slot *slot)
{
    may_refuse();
    lockfree_answer answer = lockfree_finish(&slot->handle);
    if (slot->kind == NONE || (slot->kind != ROOT && slot->kind != REST)) {
        is(answer, slot->kind == NONE ? LOCKFREE_NO_HANDLE : LOCKFREE_OTHER_HANDLE, 0);
        return;
    }
    if (slot->kind == ROOT && slot->of->handles > 1) {
        is(answer, LOCKFREE_SHARED, 0);
        return;
    }
    slot->kind = REST;
    if (slot->of->size == 0)
        is(answer, LOCKFREE_EMPTY, 0);
    else
        is(answer, LOCKFREE_VALUE, take_out(slot->of));
}

static void give_up(struct slot *slot)
{
    may_refuse();
    uint32_t code = lockfree_free(&slot->handle);
    CHECK(!was_refused() && code == (slot->kind == NONE ? LOCKFREE_NO_HANDLE : LOCKFREE_OK));
    forget(slot);
}

/* The handle goes to another place in memory. */
static void move(struct slot *slot)
{
    struct slot *to = &slots[below(SLOTS)], other = *to;
    *to = *slot;
    *slot = other;
}

/* Calls that fill and empty come more often. */
typedef void call(struct slot *slot);
static call *const calls[] = {make, split, split, join, put, put, put, take, take, close_it, shut_it, look, number, fold, go_on, go_on, put_array, put_array, count, gauge, finish, give_up, move};

static void sequence(void)
{
    make(&slots[0]);
    for (int i = 0; i < CALLS; i++) {
        call *next = calls[below(sizeof calls / sizeof *calls)];
        if ((next == close_it || next == shut_it || next == give_up) && below(3) != 0)
            continue;
        next(&slots[below(SLOTS)]);
    }
    for (int i = 0; i < SLOTS; i++)
        if (slots[i].kind != NONE)
            give_up(&slots[i]);
}

int main(int argc, char **argv)
{
    long count = argc > 1 ? atol(argv[1]) : 100000;
    for (long i = 0; i < count; i++) {
        seed = 0x9E3779B97F4A7C15u * (uint64_t)(i + 1);
        with_refusals = i % 2;
        sequence();
    }
    puts("passed");
    return 0;
}
