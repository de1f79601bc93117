// What the containers and passes of one container share: the root, the seats, the cells.
#pragma once

#include "cells.hpp"
#include "options.hpp"
#include "status.hpp"

#include <algorithm>
#include <atomic>
#include <cstddef>
#include <memory>
#include <mutex>
#include <new>
#include <utility>

namespace lockfree {
inline namespace LOCKFREE_NAMES {
namespace detail {

/// A pass, and what its thread has at hand. On cache lines of its own: its thread writes it at each
/// call.
struct alignas(64) seat {
    handle pass;
    cells_at_hand cells;
    seat *next_resting = nullptr;
    seat *next_made = nullptr;
    /// How many values it has pushed onto a stack, less those that it has popped. Its thread alone
    /// writes it.
    std::atomic<std::ptrdiff_t> held{0};
    /// For the words of a fold, once it has had one of many values.
    std::unique_ptr<std::uint64_t[]> words;
    /// How many of its calls are in a function of a user now: a call in such a function may go by
    /// the same seat. Whether the pass or container that had the seat has ended meanwhile: then
    /// the last of these calls gives back the seat and the share. Only the thread that calls reads
    /// or writes these two, and calls with words do so only if they run a function.
    std::uint32_t uses = 0;
    bool is_left = false;

    template <kind K> void tally([[maybe_unused]] std::ptrdiff_t change) noexcept {
        if constexpr (K == kind::stack)
            held.store(held.load(std::memory_order_relaxed) + change, std::memory_order_relaxed);
    }
};

/// How many containers have ended, of all threads.
inline std::atomic<std::size_t> cores_ended{0};

/// The shared part of a container. Its seats and values live as long as it has a user: the
/// container, or a pass of `split`. The core itself lives as long as it has a holder: a thread that
/// has called it also is one.
///
/// A seat that is given back is the next caller's, so that only those count that are out at a time.
/// One is always kept back: by this what is left is taken when the container ends, with no memory
/// and no pass.
class core {
public:
    /// A new core with one user, or null and why. OK, NO_MEMORY, BAD_CAPACITY; OTHER_HANDLE if
    /// archive and headers differ.
    template <kind K> static std::uint32_t make(std::size_t room, cell_layout layout,
                                                limits<K> most, core *&to) noexcept {
        if (lockfree_version() / 100 != LOCKFREE_H_VERSION / 100) return LOCKFREE_OTHER_HANDLE;
        core *const made = new (std::nothrow) core(room, layout, most.life);
        if (!made) return LOCKFREE_NO_MEMORY;
        const std::uint32_t code = made->open(most);
        if (code == LOCKFREE_OK) to = made;
        else delete made;
        return code;
    }
    core(const core &) = delete;
    core &operator=(const core &) = delete;

    /// The seat that no caller gets: what is left goes through it when the container ends.
    seat &kept_seat() noexcept { return *kept; }

    const std::size_t room;
    const std::uint64_t life;  // the limit of tags, or of laps
    /// What some call has heard. They change once.
    std::atomic<bool> closed{false}, spent{false};

    /// A seat that nobody has, or why there is none. Its address never changes. OK, NO_MEMORY,
    /// NO_PASS.
    std::uint32_t take_seat(seat *&to) noexcept {
        const std::lock_guard<std::mutex> guard(lock);
        if (!resting) return make_seat(to);
        to = std::exchange(resting, resting->next_resting);
        return LOCKFREE_OK;
    }
    /// Nothing, if the container has ended meanwhile: its seats have, too.
    void give_back(seat *of) noexcept {
        const std::lock_guard<std::mutex> guard(lock);
        if (!ended()) of->next_resting = std::exchange(resting, of);
    }

    void *take_cell(seat &by, bool may_grow) noexcept {
        return cells.take(by.cells, lock, may_grow);
    }
    void give_cell(seat &by, void *cell) noexcept { cells.give(by.cells, cell, lock); }

    /// Says while it lives that a fold has values in hand.
    struct fold_under_way {
        std::atomic<std::uint32_t> &all;
        explicit fold_under_way(std::atomic<std::uint32_t> &of) noexcept : all(of) {
            all.fetch_add(1);
        }
        fold_under_way(const fold_under_way &) = delete;
        fold_under_way &operator=(const fold_under_way &) = delete;
        ~fold_under_way() { all.fetch_sub(1); }
    };
    fold_under_way begin_fold() noexcept { return fold_under_way(folds); }
    bool is_folding() const noexcept { return folds.load(std::memory_order_relaxed) != 0; }

    /// How many values a stack holds: exactly if nobody else calls, else but for calls under way.
    std::size_t held() const noexcept {
        std::ptrdiff_t sum = 0;
        for (const seat *at = made.load(std::memory_order_acquire); at; at = at->next_made)
            sum += at->held.load(std::memory_order_relaxed);
        return sum < 0 ? 0 : std::min(static_cast<std::size_t>(sum), room);
    }

    void add_user() noexcept { users.fetch_add(1, std::memory_order_relaxed); }
    /// Whether it was the last one, who then calls `end`.
    bool drop_user() noexcept { return users.fetch_sub(1, std::memory_order_acq_rel) == 1; }
    bool has_one_user() const noexcept { return users.load(std::memory_order_acquire) == 1; }
    void add_holder() noexcept { holders.fetch_add(1, std::memory_order_relaxed); }
    void drop_holder() noexcept {
        if (holders.fetch_sub(1, std::memory_order_acq_rel) == 1) delete this;
    }
    bool ended() const noexcept { return has_ended.load(std::memory_order_relaxed); }

    /// Hands the word of each value that is left to `use`, with a seat, while others may still
    /// call: as many as fit.
    template <class F> void take_left(F &&use) noexcept {
        for (std::size_t count = 0; count < room; ++count) {
            const lockfree_answer answer = detail::take(kept->pass);
            if (answer.code != LOCKFREE_OK) break;
            gets(this);
            kept->tally<kind::stack>(-1);
            use(*kept, answer.value);
        }
    }

    /// The same, when nobody calls any more, of all that is left, also if it is spent or shut. Then
    /// no pass is left, and each call says closed. `use` may throw: then the remaining values stay
    /// for the next call.
    template <class F> void finish(F &&use) {
        {
            const std::lock_guard<std::mutex> guard(lock);
            finished = true;
            for (seat *at = made.load(std::memory_order_acquire); at; at = at->next_made) {
                root.join(at->pass);
                at->held.store(0, std::memory_order_relaxed);
            }
        }
        gets(this);
        for (;;) {
            const lockfree_answer answer = detail::defined(lockfree_finish(&root));
            if (answer.code != LOCKFREE_VALUE) break;
            use(*kept, answer.value);
        }
        closed.store(true);
        spent.store(true);  // (its life is over)
    }

    /// Frees all, when no value is left and nobody calls any more. The holder that the last user is
    /// goes, too.
    void end() noexcept {
        {
            const std::lock_guard<std::mutex> guard(lock);
            has_ended.store(true, std::memory_order_relaxed);
            free_all();
        }
        cores_ended.fetch_add(1, std::memory_order_relaxed);
        drop_holder();
    }

private:
    core(std::size_t capacity, cell_layout layout, std::uint64_t whole_life) noexcept
        : room(capacity), life(whole_life), cells(layout) {}
    ~core() { free_all(); }

    std::mutex lock;
    handle root;
    cell_store cells;
    seat *kept = nullptr;     // the seat that no thread gets
    seat *resting = nullptr;  // those that nobody has
    std::atomic<seat *> made{nullptr};  // all of them
    seat *half_made = nullptr;          // one that lacks something, for which there was no memory
    bool finished = false;              // no pass can be had any more
    std::atomic<std::uint32_t> folds{0};
    std::atomic<bool> has_ended{false};  // written under the lock
    std::atomic<std::uint32_t> users{1}, holders{1};

    template <kind K> std::uint32_t make_root(limits<K> most) noexcept {
        const auto capacity = static_cast<std::uint32_t>(room);
        if constexpr (K == kind::queue) return lockfree_queue_limited(&root, capacity, most.life);
        else if constexpr (K == kind::stack)
            return lockfree_stack_limited(&root, capacity, most.life);
        else if (most.passes >= UINT32_MAX) return LOCKFREE_BAD_CAPACITY;
        else
            return lockfree_ring_limited(&root, capacity, most.life,
                                         callers_of(most));  // one is kept back
    }

    /// How many seats a ring has passes for; 0 of a queue and a stack.
    template <kind K> static std::uint32_t callers_of(limits<K> most) noexcept {
        if constexpr (K == kind::ring) return static_cast<std::uint32_t>(most.passes) + 1;
        else return 0;
    }

    template <kind K> std::uint32_t open(limits<K> most) noexcept {
        if (room > UINT32_MAX) return LOCKFREE_BAD_CAPACITY;
        std::uint32_t code = make_root(most);
        if (code == LOCKFREE_OK) code = cells.open(room, callers_of(most));
        if (code == LOCKFREE_OK) code = make_seat(kept);
        return code == LOCKFREE_OK ? cells.add_for(room, kept->cells) : code;
    }

    /// What is made of a seat before memory is refused is the next caller's: a pass that is freed
    /// would not come again.
    std::uint32_t make_seat(seat *&to) noexcept {
        if (!half_made && !(half_made = begin_seat())) return LOCKFREE_NO_MEMORY;
        std::uint32_t code = LOCKFREE_OK;
        if (half_made->pass.is_empty() && !finished) code = lockfree_split(&root, &half_made->pass);
        if (code == LOCKFREE_OK) code = cells.join(half_made->cells, kept != nullptr);
        if (code == LOCKFREE_OK) to = std::exchange(half_made, nullptr);
        return code;
    }
    seat *begin_seat() noexcept {
        seat *const begun = new (std::nothrow) seat;
        if (!begun) return nullptr;
        begun->next_made = made.load(std::memory_order_relaxed);
        made.store(begun, std::memory_order_release);
        return begun;
    }

    void free_all() noexcept {
        for (seat *at = made.exchange(nullptr); at;) delete std::exchange(at, at->next_made);
        resting = half_made = nullptr;
        cells.clear();
        root.free();
    }
};

}  // namespace detail
}  // namespace LOCKFREE_NAMES
}  // namespace lockfree
