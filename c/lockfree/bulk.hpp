// Calls with many values: of a stack a range goes in at once, of a queue and a ring one value after
// another.
#pragma once

#include "calls.hpp"

#include <algorithm>
#include <array>
#include <cstddef>
#include <cstdint>
#include <iterator>
#include <memory>
#include <new>
#include <optional>
#include <type_traits>
#include <utility>

namespace lockfree {
inline namespace LOCKFREE_NAMES {
namespace detail {

/// Whether a range can be read twice. C++20's views say so by their concept, and have a lower
/// category, or none. Move iterators say so by their category, and have a lower concept in C++20.
template <class It, class = void> inline constexpr bool has_forward_category = false;
template <class It> inline constexpr bool has_forward_category<
    It, std::void_t<typename std::iterator_traits<It>::iterator_category>> =
    std::is_base_of_v<std::forward_iterator_tag,
                      typename std::iterator_traits<It>::iterator_category>;
template <class It, class = void> inline constexpr bool has_forward_concept = false;
template <class It>
inline constexpr bool has_forward_concept<It, std::void_t<typename It::iterator_concept>> =
    std::is_base_of_v<std::forward_iterator_tag, typename It::iterator_concept>;
template <class It> inline constexpr bool reads_twice =
    has_forward_category<It> || has_forward_concept<It>;

/// The words of a range: of up to 64 with no memory for them. Those that are not put end here, or
/// go back to the range, if it gave them by rvalue.
template <class T, class It> class range_words {
public:
    range_words(core &from, seat &with, It begin, std::size_t most) noexcept
        : of(from), by(with), first(begin),
          many(most > few.size() ? new (std::nothrow) std::uint64_t[most] : nullptr),
          room(many ? most : std::min(most, few.size())) {}
    range_words(const range_words &) = delete;
    range_words &operator=(const range_words &) = delete;
    ~range_words() noexcept(moves_back<T>) {
        if constexpr (!goes_by_value<T>) {
            const ends_rest end{*this};
            give_back();
        }
    }

    /// Makes values of the front of the range. Not `ok` if it stops before `room`.
    status collect() {
        for (It at = first; count < room; (void)++at, ++count) {
            std::uint64_t &word = words()[count] = 0;
            if constexpr (goes_by_value<T>) {
                const T value(*at);
                word = detail::word_of_value(value);
            } else {
                held_cell cell(of, by);
                const status found = cell.find(tries_once);
                if (found != status::ok) return found;
                ::new (cell.at()) T(*at);
                word = cell.word();
                cell.given_away();
            }
        }
        return status::ok;
    }

    /// Puts what was made, as many as fit.
    status put_all() noexcept {
        gives(&of);
        const lockfree_answer answer =
            detail::defined(lockfree_push_range(&by.pass, words(), count));
        if (answer.code != LOCKFREE_OK) return detail::refused(of, answer.code);
        put_count = static_cast<std::size_t>(answer.value);
        by.tally<kind::stack>(static_cast<std::ptrdiff_t>(put_count));
        return put_count == count ? status::ok : status::full;
    }
    std::size_t made() const noexcept { return count; }
    std::size_t put() const noexcept { return put_count; }

private:
    using reference = typename std::iterator_traits<It>::reference;
    core &of;
    seat &by;
    const It first;
    std::array<std::uint64_t, 64> few;
    const std::unique_ptr<std::uint64_t[]> many;
    const std::size_t room;
    std::size_t count = 0;
    std::size_t put_count = 0;

    struct ends_rest {
        range_words &of;
        ~ends_rest() {
            while (of.count > of.put_count)
                detail::use_word<T>(of.of, of.by, of.words()[--of.count], [](T &) {});
        }
    };

    std::uint64_t *words() noexcept { return many ? many.get() : few.data(); }

    void give_back() {
        if constexpr (std::is_same_v<reference, T &&>) {
            It at = first;
            for (std::size_t i = 0; i < count; (void)++at, ++i) {
                if (i < put_count) continue;
                T &&from = *at;
                detail::move_back(*std::launder(place_of<T>(words()[i])), from);
            }
        }
    }
};

/// Puts a range at once, and tells how many of it. `ok` if all of them. The functions of its
/// iterators are a user's, so they run while the seat is in use.
template <class T, class It, class End>
status put_range(core &of, seat &by, const It &begin, End &end, std::size_t &put) {
    const in_use<T> user(of, by);
    std::size_t most = 0;
    It rest = begin;
    for (; rest != end && most < of.room; (void)++rest) ++most;
    if (most == 0) return status::ok;
    range_words<T, It> range(of, by, begin, most);
    const status made = range.collect();
    if (range.made() == 0) return made;
    const status what = range.put_all();
    put = range.put();
    if (what != status::ok || made != status::ok) return what != status::ok ? what : made;
    return put < most ? status::no_memory : rest == end ? status::ok : status::full;
}

/// Puts a range one value after another, from `begin` on, which is then at the first that was not
/// put. `stopped` if a function of T or of an iterator has ended the pass or the container.
template <class T, kind K, class It, class End>
status put_each(core &of, seat &by, It &begin, End &end, std::size_t &put) {
    const in_use<T> user(of, by);
    for (; begin != end; (void)++begin, (void)++put) {
        if (by.is_left) return status::stopped;
        const status what = detail::put_value<T, K>(of, by, tries_once, *begin);
        if (what != status::ok) return what;
    }
    return status::ok;
}

/// The ends of a range, also of one whose end is of another type, by std::begin or by its own.
template <class R> constexpr auto begin_of(R &range) {
    using std::begin;
    return begin(range);
}
template <class R> constexpr auto end_of(R &range) {
    using std::end;
    return end(range);
}

/// The calls of all containers with many values.
template <class Me, class T, kind K> class bulk {
public:
    /// Pushes the values of a range from its front, as many as there is room for. Returns the first
    /// that was not pushed. Values that the range gives by rvalue and that are not pushed are moved
    /// back into it.
    ///
    /// A stack takes them all at once: other threads see all of them or none, and the last one is
    /// on top. That takes memory for more than 64 values; large ranges of several threads at a time
    /// may take memory for cells. A range that can be read only once, and each range of a queue or a
    /// ring, goes in one value after another, so that others may see a part.
    template <class It> It push(It begin, It end) {
        std::size_t count = 0;
        const auto result = push_until(begin, end, count);
        if (count == 0) throw_if_not_made(result.what);
        return result.next;
    }
    template <class It> It bounded_push(It begin, It end) { return push(begin, end); }
    /// The same, with the reason if not all were pushed: full, closed, spent, no_memory, no_pass;
    /// `stopped` if a function of T or of an iterator has destroyed the container or pass.
    template <class It> put_range_result<It> try_push(It begin, It end) {
        std::size_t count = 0;
        return push_until(begin, end, count);
    }
    /// The same of a range as a whole, such as a container or a view of C++20, also if its end is a
    /// sentinel of another type. The iterator that it returns is one of `range`.
    template <class R> auto push_range(R &&range) {
        std::size_t count = 0;
        auto result = push_all_of(range, count);
        if (count == 0) throw_if_not_made(result.what);
        return std::move(result.next);
    }
    template <class R> auto try_push_range(R &&range) {
        std::size_t count = 0;
        return push_all_of(range, count);
    }

    /// Takes up to `most` values, one after another, and assigns them to `to`, to the next place of
    /// it, and so on. Returns how many it took.
    template <class Out> std::size_t pop(Out to, std::size_t most) {
        const batch taken = take_to(to, most);
        if (taken.count == 0) throw_if_not_made(taken.what);
        return taken.count;
    }
    /// The same, with the reason if there were fewer: empty, closed, shut, spent, no_memory,
    /// no_pass; `stopped` if a function of T has destroyed the container or pass.
    template <class Out> batch try_pop(Out to, std::size_t most) { return take_to(to, most); }
    /// Waits for a first value as pop_wait(to, stop) does, and then takes up to `most` values
    /// without waiting. Returns how many it took, and why not more: `empty` if no more were there,
    /// and if it took none `stopped`, closed, shut, spent, no_memory or no_pass.
    template <class Out, class Stop = const never_stops>
    batch pop_wait(Out to, std::size_t most, Stop &&stop = never_stops()) {
        auto again = detail::waits_for(detail::asks(stop));
        return take_waiting(to, most, again);
    }

private:
    friend struct waits_of;
    Me &me() noexcept { return static_cast<Me &>(*this); }
    template <class Out> static auto assigns_to(Out &to) {
        return [&to](T &value) {
            *to = std::move(value);
            (void)++to;
        };
    }

    // Iterators come by reference, and the ends of a range are asked for while the seat is in use:
    // a function of theirs may destroy this object.

    /// `count` is how many were pushed.
    template <class It, class End>
    put_range_result<It> push_until(It &begin, End &end, std::size_t &count) {
        const status what = me().with(
            [&](core &of, seat &by) { return push_by(of, by, begin, end, count); });
        return {std::move(begin), what};
    }
    template <class R> auto push_all_of(R &range, std::size_t &count) {
        using iterator = decltype(detail::begin_of(range));
        std::optional<iterator> begin;
        const status what = me().with([&](core &of, seat &by) {
            const in_use<T> user(of, by);
            begin.emplace(detail::begin_of(range));
            auto end = detail::end_of(range);
            return push_by(of, by, *begin, end, count);
        });
        if (!begin) begin.emplace(detail::begin_of(range));
        return put_range_result<iterator>{std::move(*begin), what};
    }
    template <class It, class End>
    static status push_by(core &of, seat &by, It &begin, End &end, std::size_t &count) {
        if constexpr (K == kind::stack && reads_twice<It>) {
            const status what = detail::put_range<T>(of, by, begin, end, count);
            for (std::size_t i = 0; i < count; ++i) (void)++begin;
            return what;
        } else {
            return detail::put_each<T, K>(of, by, begin, end, count);
        }
    }

    template <class Out> batch take_to(Out &to, std::size_t most) {
        return me().take_up_to(most, assigns_to(to));
    }
    template <class Out, class Again> batch take_waiting(Out &to, std::size_t most, Again &again) {
        if (most == 0) return {0, status::ok};
        auto use = assigns_to(to);
        batch taken{0, status::ok};
        const status what = me().with([&](core &of, seat &by) {
            const in_use<T> user(of, by);
            const status first = detail::take_waiting<T, K>(of, by, again, use);
            if (first != status::ok) return first;
            taken = detail::take_many<T, K>(of, by, most - 1, use);
            ++taken.count;
            return status::ok;
        });
        return what == status::ok ? taken : batch{0, what};
    }
};

}  // namespace detail
}  // namespace LOCKFREE_NAMES
}  // namespace lockfree
