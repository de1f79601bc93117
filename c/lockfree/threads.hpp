// Which seat a thread calls by: one of each container that it has called, from its first call to
// its end.
#pragma once

#include "core.hpp"

#include <cstddef>
#include <new>
#include <pthread.h>
#include <utility>

// How code in a shared object finds the thread's table. A user may define it for all files of the
// object (docs/cpp.md, "Build and link").
#ifdef LOCKFREE_TLS_INITIAL_EXEC
#define LOCKFREE_TLS [[gnu::tls_model("initial-exec")]]
#else
#define LOCKFREE_TLS
#endif

namespace lockfree {
inline namespace LOCKFREE_NAMES {
namespace detail {

/// A container, and the seat that a thread has of it. Both are null in an empty slot, and neither
/// is in another, so that a call that finds its container need not look whether there is a seat.
struct slot {
    core *of;
    seat *by;
};

/// The seats of a thread: a table of 2^n slots, at most a quarter of them in use, so that most
/// containers are at home. A container's slot is the first one from `home_of` on that is its own,
/// with no empty one before. A place is a distance in bytes from the first slot, since a call then
/// finds a slot with no shift. A thread keeps the core of each container that is in it, so an
/// address names one container, also among those that other shared objects have made.
struct slot_table {
    static constexpr std::size_t step = sizeof(slot);

    slot *slots;
    std::size_t mask;  // of places

    slot &at(std::size_t place) const noexcept {
        return *reinterpret_cast<slot *>(reinterpret_cast<unsigned char *>(slots) +
                                         (place & mask));
    }
    slot *find(const core *of, std::size_t home) const noexcept {
        for (std::size_t place = home;; place += step) {
            slot &known = at(place);
            if (known.of == of) return &known;
            if (!known.of) return nullptr;
        }
    }
    slot &first_empty(std::size_t home) const noexcept {
        std::size_t place = home;
        while (at(place).of) place += step;
        return at(place);
    }
    std::size_t size() const noexcept { return mask / step + 1; }
};

/// The top of a product, since containers often lie at equal distances.
inline std::size_t home_of(const core *of) noexcept {
    return ((word_of(of) * 0x9E3779B97F4A7C15) >> 32) * slot_table::step;
}

/// That of a thread that has called nothing. Nobody writes it.
inline slot no_slot = {nullptr, nullptr};
LOCKFREE_TLS inline thread_local slot_table table_of_thread = {&no_slot, 0};

/// The slot of a container that is not at home, or null. Out of line, so that calls of one that is
/// do not carry it.
[[gnu::noinline]] inline const slot *slot_elsewhere(const core *of, std::size_t home) noexcept {
    return table_of_thread.find(of, home);
}

/// Whether the thread has called yet, and whether its seats have gone back already. This and the
/// table need no destructor, so they outlive the seats: what a thread still calls then, as from
/// destructors of older objects, borrows a seat for each call.
enum class thread_state : unsigned char { fresh, calls, ends };
inline thread_local thread_state state_of_thread = thread_state::fresh;

/// A key of the threads' own data, whose destructors the C library runs after those of thread_local
/// objects.
class key_of_threads {
public:
    explicit key_of_threads(void (*at_end)(void *)) noexcept
        : exists(pthread_key_create(&key, at_end) == 0) {}
    key_of_threads(const key_of_threads &) = delete;
    key_of_threads &operator=(const key_of_threads &) = delete;
    ~key_of_threads() {
        if (exists) pthread_key_delete(key);
    }
    void set(const void *of_thread) const noexcept {
        if (exists) static_cast<void>(pthread_setspecific(key, of_thread));
    }

private:
    pthread_key_t key{};
    const bool exists;
};

/// Owns the thread's table. Its destructor gives the seats back when the thread ends. A thread may
/// make its first call so late that no thread_local object is destroyed any more: in the destructor
/// of a key of pthreads. Then the destructor of our own key gives the seats back.
class seats_of_thread {
public:
    seats_of_thread() noexcept {
        state_of_thread = thread_state::calls;
        at_end().set(this);
    }
    seats_of_thread(const seats_of_thread &) = delete;
    seats_of_thread &operator=(const seats_of_thread &) = delete;
    ~seats_of_thread() {
        // (The key is set only as long as this is to be destroyed: until then the object that this
        // code is in stays loaded.)
        at_end().set(nullptr);
        give_all_back();
    }

    void give_all_back() noexcept {
        state_of_thread = thread_state::ends;
        const slot_table last = std::exchange(table_of_thread, {&no_slot, 0});
        for (std::size_t at = 0; at < last.size(); ++at)
            if (last.slots[at].of) leave(last.slots[at]);
        if (last.slots != &no_slot) delete[] last.slots;
        count = 0;
    }

    /// The thread's seat of a container, which it takes if it has none. OK, NO_MEMORY, NO_PASS.
    std::uint32_t seat_of(core &of, seat *&by) noexcept {
        slot_table &table = table_of_thread;
        if (const slot *const known = table.find(&of, home_of(&of))) {
            by = known->by;
            return LOCKFREE_OK;
        }
        const std::size_t ended = cores_ended.load(std::memory_order_relaxed);
        if (ended - swept_at >= 8 + count / 2) sweep(ended);
        if (4 * (count + 1) > table.size() && !resize(2 * table.size())) return LOCKFREE_NO_MEMORY;
        const std::uint32_t code = of.take_seat(by);
        if (code != LOCKFREE_OK) return code;
        of.add_holder();
        ++count;
        table.first_empty(home_of(&of)) = {&of, by};
        return LOCKFREE_OK;
    }

    /// Empties the slot of a container, and returns its seat. Null if the thread has none.
    seat *take_seat(const core &of) noexcept {
        slot *const known = table_of_thread.find(&of, home_of(&of));
        if (!known) return nullptr;
        seat *const by = std::exchange(known->by, nullptr);
        drop(*known);
        return by;
    }

private:
    static const key_of_threads &at_end() noexcept {
        static const key_of_threads key(
            [](void *of_thread) { static_cast<seats_of_thread *>(of_thread)->give_all_back(); });
        return key;
    }

    static constexpr std::size_t fewest = 16;
    std::size_t count = 0;
    std::size_t swept_at = 0;

    /// Whether there was memory for a table of at least so many slots.
    static bool resize(std::size_t slots) noexcept {
        if (slots < fewest) slots = fewest;
        slot_table made = {new (std::nothrow) slot[slots](), (slots - 1) * slot_table::step};
        if (!made.slots) return false;
        const slot_table last = std::exchange(table_of_thread, made);
        for (std::size_t at = 0; at < last.size(); ++at)
            if (last.slots[at].of) made.first_empty(home_of(last.slots[at].of)) = last.slots[at];
        if (last.slots != &no_slot) delete[] last.slots;
        return true;
    }

    static void leave(const slot &of) noexcept {
        if (of.by) of.of->give_back(of.by);
        of.of->drop_holder();
    }

    /// Empties a slot, and moves those that follow it forward as far as each one's home lets it.
    void drop(slot &at) noexcept {
        leave(at);
        --count;
        const slot_table &table = table_of_thread;
        std::size_t hole = static_cast<std::size_t>(&at - table.slots) * slot_table::step;
        for (std::size_t next = hole + slot_table::step;; next += slot_table::step) {
            slot &moved = table.at(next);
            if (!moved.of) break;
            const std::size_t from_home = (next - home_of(moved.of)) & table.mask;
            if (from_home < ((next - hole) & table.mask)) continue;
            table.at(hole) = moved;
            hole = next;
        }
        table.at(hole) = {nullptr, nullptr};
    }

    /// Forgets the containers that have ended. It is due if as many have ended, of all threads, as
    /// half of those that are here, and 8 more. So after a thread's first call of a container it
    /// keeps fewer that have ended than others, and 16.
    void sweep(std::size_t ended) noexcept {
        swept_at = ended;
        const slot_table &table = table_of_thread;
        for (std::size_t at = 0; at < table.size();) {
            slot &known = table.slots[at];
            if (known.of && known.of->ended()) drop(known);
            else ++at;
        }
        std::size_t slots = table.size();
        while (slots > fewest && 16 * count < slots) slots /= 2;
        if (slots < table.size()) resize(slots);  // (if there is no memory, it stays as it is)
    }
};

inline seats_of_thread &mine() {
    static thread_local seats_of_thread all;
    return all;
}

/// A call that a thread makes after its seats have gone back, and the seat that it has borrowed for
/// it.
struct late_call {
    core *of;
    seat *by;
    late_call *outer;
};
inline thread_local late_call *late_calls = nullptr;

/// The thread as a caller of a container: it has a seat, its own one, or a borrowed one that goes
/// back when this ends. Calls that are made in a late call go by the seat that this one has
/// borrowed.
class caller {
public:
    explicit caller(core &from) noexcept : of(from), late{&from, nullptr, late_calls} {
        if (state_of_thread != thread_state::ends) {
            code = mine().seat_of(of, by);
            return;
        }
        late_call *at = borrowed();
        if (!at) at = late_calls = &late;
        code = at->by ? std::uint32_t{LOCKFREE_OK} : of.take_seat(at->by);
        if (code == LOCKFREE_OK) by = at->by;
    }
    caller(const caller &) = delete;
    caller &operator=(const caller &) = delete;
    ~caller() {
        if (late_calls != &late) return;
        late_calls = late.outer;
        if (late.by) of.give_back(late.by);
    }

private:
    core &of;
    late_call late;

    /// The late call that has borrowed a seat of this container, or null.
    late_call *borrowed() const noexcept {
        for (late_call *at = late_calls; at; at = at->outer)
            if (at->of == &of) return at;
        return nullptr;
    }

public:
    /// OK, NO_MEMORY, NO_PASS.
    std::uint32_t code;
    seat *by = nullptr;
};

/// Takes the thread's seat of a container out of its place, where the next call puts another one.
/// Null if the thread has none.
inline seat *taken_seat(core &of) noexcept {
    if (state_of_thread == thread_state::calls) return mine().take_seat(of);
    for (late_call *at = late_calls; at; at = at->outer)
        if (at->of == &of) return std::exchange(at->by, nullptr);
    return nullptr;
}

}  // namespace detail
}  // namespace LOCKFREE_NAMES
}  // namespace lockfree
