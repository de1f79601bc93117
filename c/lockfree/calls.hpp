// The calls of containers and of passes. `Me::with` finds the seat for a call.
#pragma once

#include "gauges.hpp"
#include "values.hpp"
#include "waiting.hpp"

#include <cstddef>
#include <functional>
#include <optional>
#include <type_traits>
#include <utility>

namespace lockfree {
inline namespace LOCKFREE_NAMES {
namespace detail {

/// Whether a T goes into a U, by assignment or by making one of it: as Boost's pop.
template <class T, class U> inline constexpr bool goes_into =
    std::is_assignable_v<U &, T &&> || std::is_constructible_v<U, T &&>;
template <class T, class U> inline constexpr bool goes_into_without_throwing =
    std::is_assignable_v<U &, T &&>
        ? std::is_nothrow_assignable_v<U &, T &&>
        : std::is_nothrow_constructible_v<U, T &&> && std::is_nothrow_move_assignable_v<U>;
template <class T, class U> void assign(T &from, U &to) {
    if constexpr (std::is_assignable_v<U &, T &&>) to = std::move(from);
    else {
        static_assert(std::is_constructible_v<U, T &&>,
                      "lockfree: a value of this container cannot be made into that");
        to = static_cast<U>(std::move(from));
    }
}

/// To a function that takes an rvalue or a value by move; else by reference.
template <class T, class F> void hand_over(F &use, T &value) {
    if constexpr (std::is_invocable_v<F &, T &&>)
        static_cast<void>(std::invoke(use, std::move(value)));
    else static_cast<void>(std::invoke(use, value));
}

/// Whether a push by move throws nothing, also if it is refused. (The value that is its own word is
/// copied as bytes.)
template <class T> inline constexpr bool moves_without_throwing =
    goes_by_value<T> || (std::is_nothrow_move_constructible_v<T> && moves_back<T>);
/// Whether a function that gets a value throws nothing.
template <class T, class F> inline constexpr bool uses_without_throwing =
    std::is_invocable_v<F &, T &&> ? std::is_nothrow_invocable_v<F &, T &&>
                                   : std::is_nothrow_invocable_v<F &, T &>;

struct waits_of;

/// What a call by a seat returns: a status, or an answer with a word in it.
template <class F> using result_of_call = std::invoke_result_t<F &, core &, seat &>;
/// That of a call for which there is no seat: NO_MEMORY, NO_PASS. Out of line, so that it comes in
/// the registers in which the library returns.
template <class Result> [[gnu::cold, gnu::noinline]] Result not_made(std::uint32_t code) noexcept {
    if constexpr (std::is_same_v<Result, status>) return status_of(code);
    else return {0, code};
}

/// The calls that all containers and their passes have, beside those of gauges.hpp and bulk.hpp.
/// Any number of threads may call a container at a time, and one thread a pass. A thread's first
/// call of a container takes a lock and memory. The others take neither, but for what
/// is_lock_free() and cells.hpp name. Each push and pop of one value takes effect at one moment,
/// and fails to end only while compare-and-swaps of other threads succeed: both are proved of the
/// archive's calls, and docs/proof.md says how.
///
/// Calls that return no status and whose names do not begin with try_ throw std::bad_alloc or
/// std::length_error if a thread's first call finds no memory or no pass (pop_wait throws neither).
/// Each has a form that begins with try_ and throws nothing of its own. Exceptions of the value's
/// own functions pass to the caller; then nothing is pushed.
template <class Me, class T, kind K> class calls {
public:
    /// Pushes a copy. False if it is full, closed or spent.
    [[gnu::always_inline]] bool push(const T &value) { return said(try_push(value)); }
    /// Pushes by move, always. False as above; the value is then moved back, by its move
    /// assignment. If it has none, it is made anew in its place; but not if it is a part of an
    /// object of a derived class, which then is as a move leaves it. A value that throws while it
    /// is moved back is lost; if it is made anew, that ends the program.
    [[gnu::always_inline]] bool push(T &&value) { return said(try_push(std::move(value))); }
    template <class D, class = std::enable_if_t<is_unreturnable<T, D>>>
    bool push(D &&value) = delete;
    /// The same as push: each container here is bounded.
    bool bounded_push(const T &value) { return push(value); }
    bool bounded_push(T &&value) { return push(std::move(value)); }
    template <class D, class = std::enable_if_t<is_unreturnable<T, D>>>
    bool bounded_push(D &&value) = delete;
    /// Makes the value of these arguments in its place. If it is refused the value ends; a single
    /// argument that is an rvalue of T is moved back, and what else was given as an rvalue is used
    /// up.
    template <class... Args> bool emplace(Args &&...args) {
        return said(try_emplace(std::forward<Args>(args)...));
    }

    /// Moves the next value into `to`, by assignment, or by making a U of it. False if it is empty,
    /// shut or spent. The value is lost if its move throws.
    template <class U, class = std::enable_if_t<goes_into<T, U>>>
    [[gnu::always_inline]] bool pop(U &to) {
        return said(try_pop(to));
    }
    [[nodiscard]] std::optional<T> pop(uses_optional_t) {
        std::optional<T> to;
        said(pop_into(to));
        return to;
    }
    [[nodiscard]] std::optional<T> pop() { return pop(uses_optional); }

    /// The same calls, which return why not: full, closed, spent; empty, closed, shut, spent;
    /// no_memory, no_pass. They are noexcept if the functions of T (and of `to`) that they call are.
    [[gnu::always_inline]] status
    try_push(const T &value) noexcept(std::is_nothrow_copy_constructible_v<T>) {
        return make(tries_once, value);
    }
    [[gnu::always_inline]] status try_push(T &&value) noexcept(moves_without_throwing<T>) {
        return move(tries_once, value);
    }
    template <class D, class = std::enable_if_t<is_unreturnable<T, D>>>
    status try_push(D &&value) = delete;
    template <class... Args> status try_emplace(Args &&...args) noexcept(
        is_one_rvalue<T, Args...> ? moves_without_throwing<T>
                                  : std::is_nothrow_constructible_v<T, Args...>) {
        return put(tries_once, std::forward<Args>(args)...);
    }
    template <class U, class = std::enable_if_t<goes_into<T, U>>>
    [[gnu::always_inline]] status try_pop(U &to) noexcept(goes_into_without_throwing<T, U>) {
        return take([&](T &value) { detail::assign(value, to); });
    }
    /// Nothing for any of these reasons.
    [[nodiscard]] std::optional<T> try_pop() noexcept(std::is_nothrow_move_constructible_v<T>) {
        std::optional<T> to;
        static_cast<void>(pop_into(to));
        return to;
    }

    /// Push once there is room, pop once there is a value: they spin, then yield, then sleep, for
    /// 50 microseconds at first and for 1 millisecond at last; lockfree/blocking.hpp has calls that
    /// are woken. `stopped` if the stop says so before: a std::stop_token, a time_point, a
    /// duration, or a function that says true when it is to stop, which is asked after each try.
    /// Never `full`, never `empty`; else as the calls above.
    template <class Stop = const never_stops>
    status push_wait(const T &value, Stop &&stop = never_stops()) {
        auto again = detail::waits_for(detail::asks(stop));
        return make(again, value);
    }
    template <class Stop = const never_stops>
    status push_wait(T &&value, Stop &&stop = never_stops()) {
        auto again = detail::waits_for(detail::asks(stop));
        return move(again, value);
    }
    template <class D, class... Stop, class = std::enable_if_t<is_unreturnable<T, D>>>
    status push_wait(D &&value, Stop &&...) = delete;
    /// As emplace; the value is made once, before the wait.
    template <class... Args> status emplace_wait(Args &&...args) {
        return emplace_wait_until(never_stops(), std::forward<Args>(args)...);
    }
    template <class Stop, class... Args> status emplace_wait_until(Stop &&stop, Args &&...args) {
        auto again = detail::waits_for(detail::asks(stop));
        return put(again, std::forward<Args>(args)...);
    }
    template <
        class U, class Stop = const never_stops,
        class = std::enable_if_t<goes_into<T, U> && !std::is_integral_v<std::decay_t<Stop>>>>
    status pop_wait(U &to, Stop &&stop = never_stops()) {
        auto again = detail::waits_for(detail::asks(stop));
        return take_wait(again, [&](T &value) { detail::assign(value, to); });
    }
    /// The next value, or nothing if the container ends, the stop says so, or the thread's first
    /// call finds no memory or no pass. Use pop_wait(to) to tell these apart.
    [[nodiscard]] std::optional<T> pop_wait() { return pop_wait_until(never_stops()); }
    template <class Stop> [[nodiscard]] std::optional<T> pop_wait_until(Stop &&stop) {
        auto again = detail::waits_for(detail::asks(stop));
        std::optional<T> to;
        static_cast<void>(take_wait(again, [&](T &value) { to.emplace(std::move(value)); }));
        return to;
    }

    /// Takes the next value and hands it to `use`, as T&& if `use` takes that, else as T&. Returns
    /// false if there was none. The value is destroyed when `use` returns or throws. `use` may call
    /// the container or pass, and it may move or destroy it: then what it had goes back when this
    /// call returns. So may, here and in all calls, each function of a T, of an iterator or of a
    /// stop that the call runs.
    template <class F> bool consume_one(F &&use) { return said(try_consume_one(use)); }
    template <class F>
    status try_consume_one(F &&use) noexcept(uses_without_throwing<T, F>) {
        return take([&](T &value) { detail::hand_over(use, value); });
    }
    /// Takes values until there is none, and returns how many there were. It ends early if `use`
    /// destroys the container or pass, or makes the thread leave the container.
    template <class F> std::size_t consume_all(F &&use) {
        const batch taken = try_consume_all(use);
        throw_if_not_made(taken.what);
        return taken.count;
    }
    /// The same, with what ended it: empty, closed, shut, spent, no_memory, no_pass; `stopped` if
    /// `use` did.
    template <class F>
    batch try_consume_all(F &&use) noexcept(uses_without_throwing<T, F>) {
        return take_up_to(SIZE_MAX, [&](T &value) { detail::hand_over(use, value); });
    }

protected:
    /// Takes up to `most` values by one pass.
    template <class F> batch take_up_to(std::size_t most, F &&use) {
        batch taken{0, status::ok};
        const status what = me().with([&](core &of, seat &by) {
            taken = detail::take_many<T, K>(of, by, most, use);
            return status::ok;
        });
        return what == status::ok ? taken : batch{0, what};
    }
    /// Takes a value, and tries again as long as `again()` returns true.
    template <class Again, class F> status take_wait(Again &again, F &&use) {
        return me().with([&](core &of, seat &by) {
            return detail::take_waiting<T, K>(of, by, again, use);
        });
    }

private:
    friend struct waits_of;
    [[gnu::always_inline]] static bool said(status what) {
        if (__builtin_expect(what == status::ok, 1)) return true;
        throw_if_not_made(what);
        return false;
    }
    Me &me() noexcept { return static_cast<Me &>(*this); }

    /// A value that is its own word needs no cell, so its push and its pop are one call of the
    /// library each, which runs no function of a user. (Where such a function makes the word, the
    /// seat is there before: that function may destroy this object.) A call that does not end with
    /// that goes on out of line, where it looks for its seat again: so one that does has to keep
    /// neither the seat nor the core. The word goes in and out by value, so that it stays in a
    /// register.
    template <class Again> [[gnu::always_inline]] status put_one(Again &again, std::uint64_t word) {
        if constexpr (waits<Again>) {
            return heard(again, me().with([&again, word](core &of, seat &by) {
                return detail::put_word<T, K>(of, by, word, again);
            }));
        } else {
            return me().with([this, word](core &of, seat &by) {
                gives(&of);
                const std::uint32_t code = begin_put(by.pass, word).code;
                if (__builtin_expect(code == LOCKFREE_OK, 1)) {
                    by.template tally<K>(1);
                    return status::ok;
                }
                return is_plain(code) ? static_cast<status>(code) : put_on(word, code);
            });
        }
    }
    [[gnu::cold, gnu::noinline]] status put_on(std::uint64_t word, std::uint32_t code) noexcept {
        return me().with([word, code](core &of, seat &by) {
            return detail::put_begun<T, K>(of, by, word, code, tries_once);
        });
    }
    /// The word, or the status that is the code of the answer.
    [[gnu::always_inline]] lockfree_answer take_one() noexcept {
        return me().with([this](core &of, seat &by) {
            const lockfree_answer answer = begin_take(by.pass);
            if (__builtin_expect(answer.code == LOCKFREE_OK, 1)) {
                gets(&of);
                by.template tally<K>(-1);
                return answer;
            }
            return is_plain(answer.code) ? answer : take_on(answer);
        });
    }
    [[gnu::cold, gnu::noinline]] lockfree_answer take_on(lockfree_answer begun) noexcept {
        return me().with([begun](core &of, seat &by) {
            const lockfree_answer answer = detail::whole(by.pass, begun);
            if (answer.code != LOCKFREE_OK)
                return lockfree_answer{0, static_cast<std::uint32_t>(refused(of, answer.code))};
            gets(&of);
            by.template tally<K>(-1);
            return answer;
        });
    }
    template <class Again, class... Args>
    [[gnu::always_inline]] status make(Again &again, Args &&...args) {
        if constexpr (is_plain_word<T, Args...>) {
            const T value(std::forward<Args>(args)...);
            return put_one(again, detail::word_of_value(value));
        } else {
            return heard(again, me().with([&](core &of, seat &by) {
                return detail::put_made<T, K>(of, by, again, std::forward<Args>(args)...);
            }));
        }
    }
    template <class Again> [[gnu::always_inline]] status move(Again &again, T &value) {
        if constexpr (goes_by_value<T>) {
            return put_one(again, detail::word_of_value(value));
        } else {
            return heard(again, me().with([&](core &of, seat &by) {
                return detail::put_moved<T, K>(of, by, again, value);
            }));
        }
    }
    template <class Again, class... Args> status put(Again &again, Args &&...args) {
        if constexpr (is_one_rvalue<T, Args...>) return move(again, args...);
        else return make(again, std::forward<Args>(args)...);
    }
    /// A call that waits is full only because it was stopped.
    template <class Again> static status heard(Again &, status what) noexcept {
        return waits<Again> && what == status::full ? status::stopped : what;
    }
    template <class F> [[gnu::always_inline]] status take(F &&use) {
        if constexpr (goes_by_value<T>) {
            const lockfree_answer answer = take_one();
            if (answer.code != LOCKFREE_OK) return static_cast<status>(answer.code);
            detail::use_own_word<T>(answer.value, use);
            return status::ok;
        } else {
            return take_from_cell(use);
        }
    }
    template <class F> status take_from_cell(F &use) {
        return me().with([&](core &of, seat &by) {
            const in_use<T> user(of, by);
            return detail::take_in_use<T, K>(of, by, use);
        });
    }
    status pop_into(std::optional<T> &to) {
        return take([&](T &value) { to.emplace(std::move(value)); });
    }
};

}  // namespace detail
}  // namespace LOCKFREE_NAMES
}  // namespace lockfree
