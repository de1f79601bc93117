// The calls of the two ends of an spsc_queue.
#pragma once

#include "spsc_ends.hpp"
#include "status.hpp"

#include <cassert>
#include <cstddef>
#include <cstdint>
#include <iterator>
#include <optional>
#include <type_traits>
#include <utility>

namespace lockfree {
inline namespace LOCKFREE_NAMES {
namespace detail {

template <class Out, class = void> inline constexpr bool is_output = false;
template <class Out> inline constexpr bool
    is_output<Out, std::void_t<typename std::iterator_traits<Out>::iterator_category>> = true;

/// What a value may be popped into: not an output iterator, which takes a T too.
template <class T, class U> constexpr bool is_place() noexcept {
    if constexpr (std::is_array_v<U> || !goes_into<T, U>) return false;
    else return std::is_convertible_v<T &&, U> || !is_output<U>;
}

/// The calls of the producer: one thread makes them, one at a time. None waits but those that say
/// so, none takes memory or a lock, and each ends within a number of steps of its own, whatever
/// other threads do; a range takes steps for each value. They throw what functions of T and of
/// iterators throw. Such a function may call again, but not move or destroy what it was called
/// from; a value that it pushes while a value that is no word is made is refused as full.
template <class T> class spsc_pushes : protected spsc_pushing<T> {
    using base = spsc_pushing<T>;
    static constexpr bool ok(status what) noexcept { return what == status::ok; }

public:
    /// Pushes a copy. False if no slot is free, or it is closed. If a constructor throws, nothing is
    /// pushed.
    [[gnu::always_inline]] bool push(const T &value) { return ok(try_push(value)); }
    /// Pushes by move. If it is refused, the value is moved back, as by a queue's push.
    [[gnu::always_inline]] bool push(T &&value) { return ok(try_push(std::move(value))); }
    template <class D, class = std::enable_if_t<is_unreturnable<T, D>>>
    bool push(D &&value) = delete;
    /// Makes the value of these arguments in its place.
    template <class... Args> bool emplace(Args &&...args) {
        return ok(try_emplace(std::forward<Args>(args)...));
    }
    /// Pushes the first values of an array, as many as slots are free; returns how many.
    std::size_t push(const T *values, std::size_t count) { return try_push(values, count).count; }
    template <std::size_t N> std::size_t push(const T (&values)[N]) { return push(values, N); }
    /// Pushes a range from its front, as many as slots are free; returns the first value that was
    /// not pushed, which was not read. If a function of the range throws, those before are pushed.
    template <class It> It push(It begin, It end) { return try_push(begin, end).next; }
    template <class R> auto push_range(R &&range) { return try_push_range(range).next; }

    /// The same calls, which return why not: full, or closed: by close, or since the consumer has
    /// left and no slot is free.
    [[gnu::always_inline]] status
    try_push(const T &value) noexcept(std::is_nothrow_copy_constructible_v<T>) {
        return base::put(tries_once, value);
    }
    [[gnu::always_inline]] status try_push(T &&value) noexcept(moves_without_throwing<T>) {
        return base::put(tries_once, std::move(value));
    }
    template <class D, class = std::enable_if_t<is_unreturnable<T, D>>>
    status try_push(D &&value) = delete;
    template <class... Args> status try_emplace(Args &&...args) noexcept(
        is_one_rvalue<T, Args...> ? moves_without_throwing<T>
                                  : std::is_nothrow_constructible_v<T, Args...>) {
        return base::put(tries_once, std::forward<Args>(args)...);
    }
    batch try_push(const T *values, std::size_t count) {
        batch pushed{0, status::ok};
        pushed.what = base::put_array(values, count, pushed.count);
        return pushed;
    }
    template <class It> put_range_result<It> try_push(It begin, It end) {
        return push_until(begin, end);
    }
    template <class R> auto try_push_range(R &&range) {
        auto begin = detail::begin_of(range);
        auto end = detail::end_of(range);
        return push_until(begin, end);
    }

    /// Push once a slot is free, as a queue's calls of these names: they spin, then yield, then
    /// sleep. `stopped` if the stop says so before; never `full`.
    template <class Stop = const never_stops>
    status push_wait(const T &value, Stop &&stop = never_stops()) {
        return emplace_wait_until(stop, value);
    }
    template <class Stop = const never_stops>
    status push_wait(T &&value, Stop &&stop = never_stops()) {
        return emplace_wait_until(stop, std::move(value));
    }
    template <class D, class... Stop, class = std::enable_if_t<is_unreturnable<T, D>>>
    status push_wait(D &&value, Stop &&...) = delete;
    template <class... Args> status emplace_wait(Args &&...args) {
        return emplace_wait_until(never_stops(), std::forward<Args>(args)...);
    }
    template <class Stop, class... Args> status emplace_wait_until(Stop &&stop, Args &&...args) {
        auto again = detail::waits_for(detail::asks(stop));
        return base::put(again, std::forward<Args>(args)...);
    }

    /// No push follows. The consumer pops what is left, and is then told that it is closed. Whether
    /// this call closed it.
    bool close() noexcept { return ok(try_close()); }
    status try_close() noexcept {
        const one_caller caller(this->by.in());
        this->by.gives_pushes();
        return status_of((lockfree_spsc_close)(&this->by.of));
    }
    /// How many slots are free: so many pushes are not refused. 0 after close.
    std::size_t write_available() const noexcept { return room_now().value; }
    bool full() const noexcept { return write_available() == 0; }

protected:
    spsc_pushes() noexcept = default;
    lockfree_answer room_now() const noexcept {
        const one_caller caller(this->by.in());
        return const_cast<spsc_pushes &>(*this).room();
    }

private:
    friend struct waits_of;
    friend struct spsc_maker;
    template <class It, class End> put_range_result<It> push_until(It &begin, End &end) {
        std::size_t count = 0;
        return push_until(begin, end, count);
    }
    template <class It, class End>
    put_range_result<It> push_until(It &begin, End &end, std::size_t &count) {
        const status what = base::put_all(begin, end, count);
        return {std::move(begin), what};
    }
};

/// The calls of the consumer, for one thread, with the same promises. A function that gets a value
/// may pop too; the slots of what it pops are free once it has ended.
template <class T> class spsc_pops : protected spsc_popping<T> {
    using base = spsc_popping<T>;
    static constexpr bool ok(status what) noexcept { return what == status::ok; }

public:
    /// Moves the oldest value into `to`, by assignment, or by making a U of it. False if there is
    /// none. The value is lost if its move throws.
    template <class U, class = std::enable_if_t<is_place<T, U>()>>
    [[gnu::always_inline]] bool pop(U &to) {
        return ok(try_pop(to));
    }
    [[nodiscard]] std::optional<T> pop() { return try_pop(); }
    [[nodiscard]] std::optional<T> pop(uses_optional_t) { return try_pop(); }
    /// Pops up to `most` values, to an array or another iterator; returns how many.
    template <class Out> std::size_t pop(Out to, std::size_t most) {
        return try_pop(std::move(to), most).count;
    }
    template <std::size_t N> std::size_t pop(T (&to)[N]) { return pop(&to[0], N); }
    /// Pops the values that are there now to an iterator; returns how many.
    template <class Out, class = std::enable_if_t<!std::is_convertible_v<T &&, Out>>,
              class = std::enable_if_t<is_output<Out>>>
    std::size_t pop(Out to) {
        return pop(std::move(to), read_available());
    }

    /// The same calls, which return why not: empty; or closed, if the producer has left and nothing
    /// is left.
    template <class U, class = std::enable_if_t<is_place<T, U>()>>
    [[gnu::always_inline]] status try_pop(U &to) noexcept(goes_into_without_throwing<T, U>) {
        return base::take([&](T &value) { detail::assign(value, to); });
    }
    [[nodiscard]] std::optional<T> try_pop() noexcept(std::is_nothrow_move_constructible_v<T>) {
        std::optional<T> to;
        static_cast<void>(base::take([&](T &value) { to.emplace(std::move(value)); }));
        return to;
    }
    template <class Out> batch try_pop(Out to, std::size_t most) { return take_to(to, most); }

    /// Pop once there is a value, as a queue's calls of these names. Never `empty`.
    template <
        class U, class Stop = const never_stops,
        class = std::enable_if_t<is_place<T, U>() && !std::is_integral_v<std::decay_t<Stop>>>>
    status pop_wait(U &to, Stop &&stop = never_stops()) {
        auto again = detail::waits_for(detail::asks(stop));
        return base::take_wait(again, [&](T &value) { detail::assign(value, to); });
    }
    [[nodiscard]] std::optional<T> pop_wait() { return pop_wait_until(never_stops()); }
    template <class Stop> [[nodiscard]] std::optional<T> pop_wait_until(Stop &&stop) {
        auto again = detail::waits_for(detail::asks(stop));
        std::optional<T> to;
        static_cast<void>(
            base::take_wait(again, [&](T &value) { to.emplace(std::move(value)); }));
        return to;
    }
    /// Waits for a first value, and then pops up to `most`.
    template <class Out, class Stop = const never_stops>
    batch pop_wait(Out to, std::size_t most, Stop &&stop = never_stops()) {
        auto again = detail::waits_for(detail::asks(stop));
        return take_waiting(to, most, again);
    }

    /// Pops the oldest value and hands it to `use`, as T&& if `use` takes that, else as T&: where
    /// it lies, if it is no word. False if there was none. The value is destroyed when `use` returns
    /// or throws. Its slot is free before `use` begins.
    template <class F> bool consume_one(F &&use) { return ok(try_consume_one(use)); }
    template <class F>
    status try_consume_one(F &&use) noexcept(uses_without_throwing<T, F>) {
        return base::take([&](T &value) { detail::hand_over(use, value); });
    }
    /// The same of the values that are there now; returns how many. If `use` throws, those that it
    /// has not got stay. Of values that are no words the slots come free after 32, or at the end.
    template <class F> std::size_t consume_all(F &&use) { return try_consume_all(use).count; }
    template <class F>
    batch try_consume_all(F &&use) noexcept(uses_without_throwing<T, F>) {
        return base::take_many(SIZE_MAX, [&](T &value) { detail::hand_over(use, value); });
    }
    /// Destroys the values that are there now.
    void reset() noexcept { static_cast<void>(base::take_many(SIZE_MAX, [](T &) {})); }

    /// The oldest value, which stays: it is valid until the next pop. There is one. A T that is a
    /// word is a const copy, until the next such call; any other one may be changed.
    auto &front() const noexcept {
        auto *const first = try_front();
        assert(first && "lockfree: the front of an empty spsc_queue");
        return *first;
    }
    /// The same, or null if there is none.
    [[nodiscard]] auto *try_front() const noexcept {
        return const_cast<spsc_pops &>(*this).first();
    }
    /// How many values there are: so many pops are not refused.
    std::size_t read_available() const noexcept { return size_now().value; }
    std::size_t size() const noexcept { return read_available(); }
    bool empty() const noexcept { return read_available() == 0; }
    /// Whether the producer has left, or closed. What is left can be popped.
    bool is_closed() const noexcept { return size_now().code != LOCKFREE_OK; }

protected:
    spsc_pops() noexcept = default;

private:
    friend struct waits_of;
    friend struct spsc_maker;
    lockfree_answer size_now() const noexcept {
        const one_caller caller(this->by.out());
        return const_cast<spsc_pops &>(*this).base::size();
    }
    batch take_to(T *&to, std::size_t most) { return base::take_array(to, most); }
    template <class Out> batch take_to(Out &to, std::size_t most) {
        return base::take_many(most, assigns_to(to));
    }
    template <class Out, class Again> batch take_waiting(Out &to, std::size_t most, Again &again) {
        if (most == 0) return {0, status::ok};
        auto use = assigns_to(to);
        const status first = base::take_wait(again, use);
        if (first != status::ok) return {0, first};
        batch taken = base::take_many(most - 1, use);
        ++taken.count;
        return taken;
    }
    template <class Out> static auto assigns_to(Out &to) {
        return [&to](T &value) {
            *to = std::move(value);
            (void)++to;
        };
    }
};

}  // namespace detail
}  // namespace LOCKFREE_NAMES
}  // namespace lockfree
