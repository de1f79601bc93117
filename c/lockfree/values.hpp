// Values of any type through a core: as the word itself, or in a cell whose address is the word.
#pragma once

#include "core.hpp"
#include "waiting.hpp"

#include <cstddef>
#include <cstdint>
#include <cstring>
#include <memory>
#include <new>
#include <type_traits>
#include <utility>

namespace lockfree {
inline namespace LOCKFREE_NAMES {
namespace detail {

template <class T> void drop_user(core &of) noexcept;

/// Gives back a seat and a share of its core. If a function of a user runs in a call by that seat,
/// then that call does so when it ends.
template <class T> [[gnu::noinline]] void leave(core &of, seat *by) noexcept {
    if (by && by->uses != 0) {
        by->is_left = true;
        return;
    }
    if (by) {
        by->is_left = false;
        of.give_back(by);
    }
    detail::drop_user<T>(of);
}

/// Says while it lives that a call by this seat runs functions of a user, which may end the pass or
/// the container of the seat.
template <class T> class in_use {
public:
    in_use(core &from, seat &with) noexcept : of(from), by(with) { ++by.uses; }
    in_use(const in_use &) = delete;
    in_use &operator=(const in_use &) = delete;
    ~in_use() {
        if (--by.uses == 0 && __builtin_expect(by.is_left, 0)) detail::leave<T>(of, &by);
    }

private:
    core &of;
    seat &by;
};

/// Destroys a value when it goes out of scope.
template <class T> class ends {
public:
    explicit ends(T &of) noexcept : value(of) {}
    ends(const ends &) = delete;
    ends &operator=(const ends &) = delete;
    ~ends() { value.~T(); }

private:
    T &value;
};

/// A cell in hand, which goes back to the free ones if it is not given away.
class held_cell {
public:
    held_cell(core &from, seat &with) noexcept : of(from), by(with) {}
    held_cell(core &from, seat &with, std::uint64_t word) noexcept
        : of(from), by(with), place(place_of<void>(word)) {}
    held_cell(const held_cell &) = delete;
    held_cell &operator=(const held_cell &) = delete;
    ~held_cell() {
        if (place) of.give_cell(by, place);
    }
    /// Gets a free cell. If none is free one is made, unless a fold has values in hand: then it is
    /// full, and tries again as long as `again()` returns true. Returns ok, full or no_memory.
    template <class Again> status find(Again &again) {
        for (;;) {
            const bool folding = of.is_folding();
            place = of.take_cell(by, !folding);
            if (__builtin_expect(place != nullptr, 1)) return status::ok;
            if (!folding) return status::no_memory;
            if (!again() || by.is_left) return status::full;
        }
    }
    void *at() const noexcept { return place; }
    std::uint64_t word() const noexcept { return word_of(place); }
    void given_away() noexcept { place = nullptr; }

private:
    core &of;
    seat &by;
    void *place = nullptr;
};

/// Whether a refused rvalue is moved back with no exception. A value that throws while it is moved
/// back is lost.
template <class T> inline constexpr bool moves_back = std::is_move_assignable_v<T>
                                                          ? std::is_nothrow_move_assignable_v<T>
                                                          : std::is_nothrow_move_constructible_v<T>;

/// Whether a T is known to be no part of an object of a derived class. `made` is one that was made
/// here. If T has virtual functions, a derived object has another table of them, at its begin. If
/// it has none, a T that the caller hands over as an rvalue is taken for a whole one; rvalues of
/// derived classes do not get here.
template <class T>
bool is_complete([[maybe_unused]] const T &of, [[maybe_unused]] const T &made) noexcept {
    if constexpr (std::is_polymorphic_v<T> && !std::is_final_v<T>) {
        const void *const of_it = std::addressof(of), *const of_made = std::addressof(made);
        return std::memcmp(of_it, of_made, sizeof(void *)) == 0;
    } else {
        return true;
    }
}

/// Back into the caller's object: by assignment, or if there is none by making it anew in its
/// place. That is not done to a part of a derived object: it stays as the move left it.
template <class T> void move_back(T &from, T &to) {
    if constexpr (std::is_move_assignable_v<T>) {
        to = std::move(from);
    } else if (detail::is_complete(to, from)) {
        [&]() noexcept {  // (there is nothing to go back to, once the old one has ended)
            to.~T();
            ::new (static_cast<void *>(std::addressof(to))) T(std::move(from));
        }();
    }
}

/// Whether D is a class derived from T of which an rvalue must not be pushed as a T: it could not
/// be moved back.
template <class T, class D> inline constexpr bool is_unreturnable =
    !std::is_same_v<T, D> && std::is_base_of_v<T, D> && !std::is_move_assignable_v<T> &&
    !std::is_polymorphic_v<T>;

/// The word that a value is.
template <class T> std::uint64_t word_of_value(const T &value) noexcept {
    std::uint64_t word = 0;
    std::memcpy(&word, std::addressof(value), sizeof value);
    return defined(word);
}

/// Hands the value that is this word to `use`.
template <class T, class F> void use_own_word(std::uint64_t word, F &&use) {
    alignas(T) unsigned char bytes[sizeof(T)];
    std::memcpy(bytes, &word, sizeof bytes);
    use(*std::launder(reinterpret_cast<T *>(bytes)));
}

/// Hands the value that a word stands for to `use`, and destroys it, also if `use` throws. Callers
/// say that the seat is in use, unless the value is its own word: then no seat is needed after the
/// word is here.
template <class T, class F> void use_word(core &of, seat &by, std::uint64_t word, F &&use) {
    if constexpr (goes_by_value<T>) {
        detail::use_own_word<T>(word, use);
    } else {
        const held_cell cell(of, by, word);
        T &value = *std::launder(static_cast<T *>(cell.at()));
        const ends<T> end(value);
        use(value);
    }
}

/// A refusal that tells something of the container's life, which the core keeps in mind. Out of
/// line, so that calls that succeed do not carry it.
[[gnu::cold, gnu::noinline]] inline status noted(core &of, std::uint32_t code) noexcept {
    if (code == LOCKFREE_CLOSED) {
        gets(&of);
        of.closed.store(true, std::memory_order_release);
    }
    if (code == LOCKFREE_SPENT) of.spent.store(true, std::memory_order_release);
    return status_of(code);
}
/// Whether a code is that of a call that is done, or refused for now: then it is its status, and
/// there is nothing to keep in mind.
constexpr bool is_plain(std::uint32_t code) noexcept { return code <= LOCKFREE_EMPTY; }
inline status refused(core &of, std::uint32_t code) noexcept {
    return is_plain(code) ? static_cast<status>(code) : detail::noted(of, code);
}

/// A put that succeeded. It counts here, while the seat is surely this call's: if a function of a
/// user has left the seat, it goes back before the call returns.
template <kind K> status put_done(seat &by) noexcept {
    by.tally<K>(1);
    return status::ok;
}

/// Whether a call tries again once it was refused.
template <class Again> inline constexpr bool waits = !std::is_same_v<Again, decltype(tries_once)>;

/// Goes on with a put that was refused with `code`: while the container is full, it tries again as
/// long as `again()` returns true, and the pass or container is there.
template <class T, kind K, class Again> [[gnu::noinline]] status
put_again(core &of, seat &by, std::uint64_t word, std::uint32_t code, Again &again) {
    const in_use<T> user(of, by);
    while (code == LOCKFREE_FULL && again() && !by.is_left) {
        gives(&of);
        code = put(by.pass, word).code;
        if (code == LOCKFREE_OK) return put_done<K>(by);
    }
    return refused(of, code);
}
/// Goes on with a put that has been answered with `code`, and is not done: to its end, and again
/// while the container is full, as long as `again()` returns true. Out of line, so that calls that
/// succeed do not carry it.
template <class T, kind K, class Again> [[gnu::noinline]] status
put_begun(core &of, seat &by, std::uint64_t word, std::uint32_t code,
          Again &again) noexcept(!waits<Again>) {
    code = detail::whole(by.pass, {0, code}).code;
    if (code == LOCKFREE_OK) return put_done<K>(by);
    if constexpr (waits<Again>) return detail::put_again<T, K>(of, by, word, code, again);
    else return refused(of, code);
}
/// Puts a word; while the container is full, it tries again as long as `again()` returns true.
template <class T, kind K, class Again> [[gnu::always_inline]] inline status
put_word(core &of, seat &by, std::uint64_t word, Again &again) {
    gives(&of);
    const std::uint32_t code = begin_put(by.pass, word).code;
    if (__builtin_expect(code == LOCKFREE_OK, 1)) return put_done<K>(by);
    if (!waits<Again> && is_plain(code)) return static_cast<status>(code);
    return detail::put_begun<T, K>(of, by, word, code, again);
}

/// Whether a value is its own word, and no function of a user runs when it is made of these.
template <class T, class... Args> inline constexpr bool is_plain_word =
    goes_by_value<T> && std::is_trivially_constructible_v<T, Args...>;

/// Puts a value that is made of `args`, in its place if it lies in a cell. Its constructor, and the
/// conversions of `args`, are functions of a user, so the seat is in use.
template <class T, kind K, class Again, class... Args>
inline status put_made(core &of, seat &by, Again &again, Args &&...args) {
    const in_use<T> user(of, by);
    if constexpr (goes_by_value<T>) {
        const T value(std::forward<Args>(args)...);
        return detail::put_word<T, K>(of, by, detail::word_of_value(value), again);
    } else {
        held_cell cell(of, by);
        if (const status found = cell.find(again); found != status::ok) return found;
        T *const value = ::new (cell.at()) T(std::forward<Args>(args)...);
        struct unless_put {
            T *value;
            ~unless_put() {
                if (value) value->~T();
            }
        } made{value};
        const status what = detail::put_word<T, K>(of, by, cell.word(), again);
        if (what != status::ok) return what;
        made.value = nullptr;
        cell.given_away();
        return what;
    }
}

/// Puts a value by moving it; if it is refused, or `again` throws, it is moved back.
template <class T, kind K, class Again>
inline status put_moved(core &of, seat &by, Again &again, T &value) {
    if constexpr (goes_by_value<T>) {
        return detail::put_word<T, K>(of, by, detail::word_of_value(value), again);
    } else {
        const in_use<T> user(of, by);
        held_cell cell(of, by);
        if (const status found = cell.find(again); found != status::ok) return found;
        struct unless_put {
            T *moved;
            T &from;
            ~unless_put() noexcept(moves_back<T>) {
                if (!moved) return;
                const ends<T> end(*moved);
                detail::move_back(*moved, from);
            }
        } made{::new (cell.at()) T(std::move(value)), value};
        const status what = detail::put_word<T, K>(of, by, cell.word(), again);
        if (what != status::ok) return what;
        made.moved = nullptr;
        cell.given_away();
        return what;
    }
}

/// Whether these are one rvalue of T, which is moved back if it is refused.
template <class T, class... Args> inline constexpr bool is_one_rvalue = false;
template <class T, class Arg> inline constexpr bool is_one_rvalue<T, Arg> = std::is_same_v<Arg, T>;

/// Puts a value: an rvalue of T by moving it, else one that is made of `args`.
template <class T, kind K, class Again, class... Args>
status put_value(core &of, seat &by, Again &again, Args &&...args) {
    if constexpr (is_one_rvalue<T, Args...>)
        return detail::put_moved<T, K>(of, by, again, args...);
    else return detail::put_made<T, K>(of, by, again, std::forward<Args>(args)...);
}

/// Takes a value by a seat that is in use, and hands it to `use`.
template <class T, kind K, class F>
[[gnu::always_inline]] inline status take_in_use(core &of, seat &by, F &&use) {
    const lockfree_answer answer = detail::take(by.pass);
    if (answer.code != LOCKFREE_OK) return refused(of, answer.code);
    gets(&of);
    by.tally<K>(-1);
    detail::use_word<T>(of, by, answer.value, use);
    return status::ok;
}

/// Takes up to `most` values, one after another, and hands them to `use`. `stopped` if `use` or a
/// destructor has ended the pass or the container.
template <class T, kind K, class F>
batch take_many(core &of, seat &by, std::size_t most, F &&use) {
    const in_use<T> user(of, by);
    batch taken{0, status::ok};
    for (; taken.count < most; ++taken.count) {
        taken.what = by.is_left ? status::stopped : detail::take_in_use<T, K>(of, by, use);
        if (taken.what != status::ok) break;
    }
    return taken;
}

/// Takes a value, and hands it to `use`; while the container is empty, it tries again as long as
/// `again()` returns true. Nothing comes any more if the container was known to be spent before a
/// try that found it empty.
template <class T, kind K, class Again, class F>
status take_waiting(core &of, seat &by, Again &again, F &&use) {
    const in_use<T> user(of, by);
    for (;;) {
        const bool was_spent = of.spent.load(std::memory_order_acquire);
        const status what = detail::take_in_use<T, K>(of, by, use);
        if (what != status::empty) return what;
        if (was_spent) return status::spent;
        if (!again() || by.is_left) return status::stopped;
    }
}

/// Destroys what is left, as far as it can still be taken.
template <class T> void end_left(core &of) noexcept {
    if constexpr (!goes_by_value<T>)
        of.take_left(
            [&](seat &by, std::uint64_t word) { detail::use_word<T>(of, by, word, [](T &) {}); });
}

/// Drops a user; with the last one all values end, and then the seats and cells.
template <class T> void drop_user(core &of) noexcept {
    if (!of.drop_user()) return;
    if constexpr (!goes_by_value<T>)
        of.finish(
            [&](seat &by, std::uint64_t word) { detail::use_word<T>(of, by, word, [](T &) {}); });
    of.end();
}

}  // namespace detail
}  // namespace LOCKFREE_NAMES
}  // namespace lockfree
