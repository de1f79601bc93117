// What the two ends of an spsc_queue share: the cells of values that are no word themselves.
//
// Value number n, counted from 0, lies in cell n mod (capacity + 2). So no end tells the other one
// where a value lies, and the producer makes a value in its place before it knows of a free slot.
// Why no end writes a cell that the other one may still touch, if P values were pushed and C popped:
//
// - The producer makes value P. Its cell was that of value P - capacity - 2. Since value P - 1 found
//   a slot, value P - capacity - 1 had been popped by then; and the consumer destroys a value before
//   it pops the next one. So the old value was destroyed, and the push that found the slot has seen
//   it.
// - Of a range it makes value P + i in its place only while more than i slots are free. Then value
//   P + i - capacity has been popped, so the one of the same cell was destroyed long before.
// - The consumer touches the values C to P - 1, since it has seen that they were pushed, and value
//   C - 1 while a function of a user has it. With value P that are at most capacity + 2 numbers one
//   after another, so each has a cell of its own. A reference that `front` returns is to value C.
// - A function that has value C - 1 may pop. Were C raised then, P could be, and value C - 1 would
//   not be covered. So what is popped in a function is taken out of its cells, and its slots are
//   given back when the function has ended (`ahead`). `consume_all` takes all its values so.
// - Whether a function returns or throws, its value is destroyed before the next pop. If a value's
//   constructor throws, nothing was pushed, and the next value is made in the same cell.
// - What is left is destroyed by the consumer when it leaves, and what is pushed after that by the
//   last end that leaves, since no other end is there then.
#pragma once

#include "values.hpp"

#include <algorithm>
#include <atomic>
#include <cassert>
#include <cstddef>
#include <cstdint>
#include <new>
#include <thread>
#include <type_traits>
#include <utility>

namespace lockfree {
inline namespace LOCKFREE_NAMES {
namespace detail {

/// What one end alone reads and writes.
struct alignas(64) spsc_side {
    std::size_t at = 0;     // the cell of its next value
    std::size_t ahead = 0;  // of the consumer: values that are out of their cells and not popped
    bool in_use = false;    // whether a function of a user runs and has a value in its cell
    alignas(std::uint64_t) unsigned char front[sizeof(std::uint64_t)] = {};  // the word, for `front`
    /// The thread whose call this end makes. Builds without NDEBUG write it.
    std::atomic<std::thread::id> caller{};
};

/// What is made once for both ends.
class spsc_shared {
public:
    /// Null if there is no memory.
    template <class T> static spsc_shared *make(std::size_t room) noexcept {
        const std::size_t count = goes_by_value<T> ? 0 : room + 2;
        if (count > (PTRDIFF_MAX - first<T>()) / sizeof(T)) return nullptr;
        void *const memory =
            ::operator new(first<T>() + count * sizeof(T), align_of<T>(), std::nothrow);
        return memory ? ::new (memory) spsc_shared(room, count) : nullptr;
    }
    spsc_shared(const spsc_shared &) = delete;
    spsc_shared &operator=(const spsc_shared &) = delete;

    /// One end has left. With the last one go the values that are left.
    template <class T> void leave() noexcept {
        if (ends.fetch_sub(1, std::memory_order_acq_rel) != 1) return;
        if constexpr (!goes_by_value<T>)
            for (; out.at != in.at; out.at = after(out.at)) cell<T>(out.at)->~T();
        end<T>();
    }
    template <class T> void end() noexcept {
        this->~spsc_shared();
        ::operator delete(static_cast<void *>(this), align_of<T>());
    }

    template <class T> void *place(std::size_t at) noexcept {
        return reinterpret_cast<unsigned char *>(this) + first<T>() + at * sizeof(T);
    }
    template <class T> T *cell(std::size_t at) noexcept {
        return std::launder(static_cast<T *>(place<T>(at)));
    }
    std::size_t after(std::size_t at) const noexcept { return at + 1 == count ? 0 : at + 1; }

    const std::size_t room;

private:
    spsc_shared(std::size_t capacity, std::size_t cells) noexcept : room(capacity), count(cells) {}
    ~spsc_shared() = default;

    template <class T> static constexpr std::align_val_t align_of() noexcept {
        return std::align_val_t(std::max(alignof(spsc_shared), alignof(T)));
    }
    /// Where the first cell lies.
    template <class T> static constexpr std::size_t first() noexcept {
        return (sizeof(spsc_shared) + alignof(T) - 1) / alignof(T) * alignof(T);
    }

    const std::size_t count;  // of cells
    std::atomic<std::uint32_t> ends{2};

public:
    spsc_side in, out;
};

/// Checks, while a call of an end is made, that no other thread makes one. Functions of a user may
/// call again in the same thread. Of two threads that mark an end at a time, one finds the mark of
/// the other one when it begins or its own one gone when it ends; so plain loads and stores will do.
/// (Two classes, so that what one of them marks the same one clears, also if a program has files
/// with NDEBUG and files without.)
template <bool Checks> class spsc_caller {
public:
    explicit spsc_caller(spsc_side *) noexcept {}
};
template <> class spsc_caller<true> {
public:
    explicit spsc_caller(spsc_side *of) noexcept : side(of) {
        if (!side) return;
        const std::thread::id found = marked();
        if (found == mine) side = nullptr;
        else mark(std::thread::id(), found, mine);
    }
    spsc_caller(const spsc_caller &) = delete;
    spsc_caller &operator=(const spsc_caller &) = delete;
    ~spsc_caller() {
        if (side) mark(mine, marked(), std::thread::id());
    }

private:
    spsc_side *side;
    const std::thread::id mine = std::this_thread::get_id();

    std::thread::id marked() const noexcept { return side->caller.load(std::memory_order_relaxed); }
    void mark([[maybe_unused]] std::thread::id expected, [[maybe_unused]] std::thread::id found,
              std::thread::id by) noexcept {
        assert(found == expected &&
               "lockfree: one end of an spsc_queue is called by two threads at a time");
        side->caller.store(by, std::memory_order_relaxed);
    }
};
#ifdef NDEBUG
using one_caller = spsc_caller<false>;
#else
using one_caller = spsc_caller<true>;
#endif

/// The handle of one end, and its share of what both ends have. Both are empty in an end that was
/// moved from: then the library says that there is no handle, and the calls say closed.
struct spsc_end {
    handle of;
    spsc_shared *shared = nullptr;

    void swap(spsc_end &other) noexcept {
        of.swap(other.of);
        std::swap(shared, other.shared);
    }
    std::size_t room_of() const noexcept { return shared ? shared->room : 0; }
    spsc_side *in() const noexcept { return shared ? &shared->in : nullptr; }
    spsc_side *out() const noexcept { return shared ? &shared->out : nullptr; }
    // What ThreadSanitizer is told: a push orders what its thread did before the pop of its value,
    // and a pop orders it before the push that gets the slot.
    void gives_pushes() const noexcept { gives(in()); }
    void gets_pushes() const noexcept { gets(in()); }
    void gives_pops() const noexcept { gives(out()); }
    void gets_pops() const noexcept { gets(out()); }
};

/// Says while it lives that a function of a user runs in a call that has a value in its cell.
class spsc_in_use {
public:
    explicit spsc_in_use(spsc_side &of) noexcept : side(of) { side.in_use = true; }
    spsc_in_use(const spsc_in_use &) = delete;
    spsc_in_use &operator=(const spsc_in_use &) = delete;
    ~spsc_in_use() { side.in_use = false; }

private:
    spsc_side &side;
};

/// A value in its cell, which is destroyed if it is not pushed; if it was made of an rvalue it is
/// moved back before.
template <class T, bool Returns> struct spsc_unless_pushed {
    T *value;
    T *from;
    ~spsc_unless_pushed() noexcept(!Returns || moves_back<T>) {
        if (!value) return;
        const ends<T> end(*value);
        if constexpr (Returns) detail::move_back(*value, *from);
    }
};

/// How many values of a range go through the library by one call.
inline constexpr std::size_t spsc_batch = 32;
inline constexpr std::uint64_t spsc_no_words[spsc_batch] = {};

/// Whether an array of T is one of the library's words.
template <class T> constexpr bool is_word_type() noexcept {
    if constexpr (std::is_integral_v<T> && sizeof(T) == sizeof(std::uint64_t))
        return std::is_same_v<std::make_unsigned_t<T>, std::uint64_t>;
    else return false;
}

}  // namespace detail
}  // namespace LOCKFREE_NAMES
}  // namespace lockfree
