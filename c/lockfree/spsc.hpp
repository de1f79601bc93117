// A queue for one producer and one consumer, and its two ends.
#pragma once

#include "containers.hpp"
#include "spsc_calls.hpp"

#include <cstddef>
#include <cstdint>
#include <memory>
#include <type_traits>
#include <utility>

namespace lockfree {
inline namespace LOCKFREE_NAMES {
namespace detail {

/// Makes both ends.
struct spsc_maker {
    template <class T> static std::uint32_t open(spsc_pushes<T> &producer, spsc_pops<T> &consumer,
                                                 std::size_t room) noexcept {
        static_assert(std::is_object_v<T> && !std::is_const_v<T> && !std::is_volatile_v<T> &&
                          !std::is_array_v<T>,
                      "lockfree: values are of an object type, with no const or volatile, and no "
                      "array");
        static_assert(std::is_move_constructible_v<T>,
                      "lockfree: a value is moved out when it is popped, so its type must move");
        static_assert(std::is_nothrow_destructible_v<T>,
                      "lockfree: the destructor of a value throws nothing");
        if (lockfree_version() / 100 != LOCKFREE_H_VERSION / 100) return LOCKFREE_OTHER_HANDLE;
        if (room == 0 || room > UINT32_MAX) return LOCKFREE_BAD_CAPACITY;
        spsc_shared *const shared = spsc_shared::make<T>(room);
        if (!shared) return LOCKFREE_NO_MEMORY;
        const std::uint32_t code = lockfree_spsc_new(&producer.by.of, &consumer.by.of,
                                                     static_cast<std::uint32_t>(room));
        if (code == LOCKFREE_OK) producer.by.shared = consumer.by.shared = shared;
        else shared->end<T>();
        return code;
    }
    template <class End> static void swap(End &one, End &other) noexcept { one.by.swap(other.by); }
};

}  // namespace detail

/// The end that pushes, for one thread at a time. It moves, and has no copy. When it ends it leaves:
/// the consumer pops what is left, and is then told that it is closed. An end that is empty says
/// closed.
template <class T> class spsc_producer : public detail::spsc_pushes<T> {
public:
    using value_type = T;
    using size_type = std::size_t;

    spsc_producer() noexcept = default;
    spsc_producer(spsc_producer &&other) noexcept { swap(other); }
    spsc_producer &operator=(spsc_producer &&other) noexcept {
        spsc_producer(std::move(other)).swap(*this);
        return *this;
    }
    void swap(spsc_producer &other) noexcept { this->by.swap(other.by); }
    /// Whether it is not empty.
    explicit operator bool() const noexcept { return this->by.shared != nullptr; }
    std::size_t capacity() const noexcept { return this->by.room_of(); }
    /// Whether the consumer has left, or this end. Until no slot is free, pushes go on all the same.
    bool is_closed() const noexcept { return this->room_now().code != LOCKFREE_OK; }
    bool is_lock_free() const noexcept { return true; }
    static constexpr bool is_always_lock_free = true;
};

/// The end that pops, as spsc_producer. When it ends it leaves: what is left is destroyed, and once
/// no slot is free the producer is told that it is closed.
template <class T> class spsc_consumer : public detail::spsc_pops<T> {
public:
    using value_type = T;
    using size_type = std::size_t;

    spsc_consumer() noexcept = default;
    spsc_consumer(spsc_consumer &&other) noexcept { swap(other); }
    spsc_consumer &operator=(spsc_consumer &&other) noexcept {
        spsc_consumer(std::move(other)).swap(*this);
        return *this;
    }
    void swap(spsc_consumer &other) noexcept { this->by.swap(other.by); }
    explicit operator bool() const noexcept { return this->by.shared != nullptr; }
    std::size_t capacity() const noexcept { return this->by.room_of(); }
    bool is_lock_free() const noexcept { return true; }
    static constexpr bool is_always_lock_free = true;
};

/// The two ends of a new ring, of which a thread each may have one by value.
///
///     auto [producer, consumer] = lockfree::spsc<T>(1024);
template <class T> struct [[nodiscard]] spsc_ends {
    spsc_producer<T> producer;
    spsc_consumer<T> consumer;
};
/// Room for exactly so many values, 1 to 4,294,967,295. std::bad_alloc, std::invalid_argument,
/// std::logic_error.
template <class T> spsc_ends<T> spsc(std::size_t room) {
    spsc_ends<T> made;
    detail::throw_for(detail::spsc_maker::open(made.producer, made.consumer, room));
    return made;
}
/// The same, with two empty ends if it could not be made.
template <class T> spsc_ends<T> try_spsc(std::size_t room) noexcept {
    spsc_ends<T> made;
    static_cast<void>(detail::spsc_maker::open(made.producer, made.consumer, room));
    return made;
}

/// A bounded queue into which one thread at a time pushes, and from which one thread at a time pops:
/// first in, first out. Its calls are those of the two ends, each to be made by the thread of that
/// end: close, write_available and full by the producer's; empty, size and is_closed by the
/// consumer's. Options: capacity<N>, or none and the capacity for the constructor.
template <class T, class... Options> class spsc_queue
    : public detail::spsc_pushes<T>, public detail::spsc_pops<T> {
    using given = detail::options<Options...>;
    static_assert(given::sound());
    static_assert(!given::sizes || (given::size >= 1 && given::size <= UINT32_MAX),
                  "lockfree: a capacity of an spsc_queue is 1 to 4,294,967,295");
    static constexpr bool sized = given::sizes;

public:
    using value_type = T;
    using size_type = std::size_t;
    using producer = spsc_producer<T>;
    using consumer = spsc_consumer<T>;
    using limits = detail::no_limits;
    using opened = spsc_ends<T>;

    /// With capacity<N>. Takes all memory. The exceptions of `spsc`.
    template <bool Sized = sized, class = std::enable_if_t<Sized>> spsc_queue() {
        detail::throw_for(detail::spsc_maker::open<T>(*this, *this, given::size));
    }
    /// Without it.
    template <bool Sized = sized, class = std::enable_if_t<!Sized>>
    explicit spsc_queue(size_type room) {
        detail::throw_for(detail::spsc_maker::open<T>(*this, *this, room));
    }
    /// Boost's with an allocator, and refused when compiled.
    template <class Alloc, class = std::enable_if_t<detail::is_allocator<Alloc>>>
    explicit spsc_queue(const Alloc &) {
        static_assert(detail::never_compiled<Alloc>, LOCKFREE_NO_ALLOCATOR);
    }
    template <class Alloc, class = std::enable_if_t<detail::is_allocator<Alloc>>>
    spsc_queue(size_type, const Alloc &) {
        static_assert(detail::never_compiled<Alloc>, LOCKFREE_NO_ALLOCATOR);
    }
    explicit spsc_queue(detail::adopted<opened> by_make) noexcept {
        detail::spsc_maker::swap<detail::spsc_pushes<T>>(*this, by_make.from.producer);
        detail::spsc_maker::swap<detail::spsc_pops<T>>(*this, by_make.from.consumer);
    }
    spsc_queue(const spsc_queue &) = delete;
    spsc_queue &operator=(const spsc_queue &) = delete;

    /// How many values fit: exactly as many as were asked for.
    std::size_t capacity() const noexcept {
        return detail::spsc_pushes<T>::by.room_of();
    }
    /// True: no call waits, takes a lock or memory, and each is wait-free, but for those that wait.
    bool is_lock_free() const noexcept { return true; }
    static constexpr bool is_always_lock_free = true;

private:
    template <class Container, class... Room>
    friend std::unique_ptr<Container> detail::make(Room... room) noexcept;
    template <class> friend class lockfree::blocking;

    static std::uint32_t make_core(opened &to, size_type room, limits) noexcept {
        return detail::spsc_maker::open(to.producer, to.consumer, room);
    }
    static std::uint32_t make_core(opened &to, limits none) noexcept {
        return make_core(to, given::size, none);
    }
    static void drop(opened &) noexcept {}
    bool is_made() const noexcept { return true; }
};

}  // namespace LOCKFREE_NAMES
}  // namespace lockfree
