// How values go in at one end of an spsc_queue, and come out at the other one.
#pragma once

#include "bulk.hpp"
#include "spsc_cells.hpp"
#include "values.hpp"
#include "waiting.hpp"

#include <algorithm>
#include <cassert>
#include <cstddef>
#include <cstdint>
#include <cstring>
#include <memory>
#include <new>
#include <optional>
#include <type_traits>
#include <utility>

namespace lockfree {
inline namespace LOCKFREE_NAMES {
namespace detail {

/// How the producer pushes.
template <class T> class spsc_pushing {
protected:
    spsc_end by;

    spsc_pushing() noexcept = default;
    ~spsc_pushing() {
        if (!by.shared) return;
        {
            const one_caller caller(by.in());
            assert(!by.shared->in.in_use && "lockfree: a function ends the producer that calls it");
            by.gives_pushes();
            by.of.free();
        }
        by.shared->template leave<T>();
    }

    /// Puts a word. While there is no free slot, it tries again as long as `again()` returns true.
    template <class Again>
    [[gnu::always_inline]] status put_word(Again &again, std::uint64_t word) {
        const std::uint32_t code = put_once(word);
        if (__builtin_expect(code == LOCKFREE_OK, 1)) return status::ok;
        if constexpr (waits<Again>) return put_again(again, word, code);
        else return status_of(code);
    }

    /// Pushes a value that is made of `args`. A single rvalue of T is moved back if it is refused.
    template <class Again, class... Args>
    [[gnu::always_inline]] status put(Again &again, Args &&...args) {
        const one_caller caller(by.in());
        if constexpr (goes_by_value<T>) {
            const T value(std::forward<Args>(args)...);
            return put_word(again, detail::word_of_value(value));
        } else {
            return put_in_cell(again, std::forward<Args>(args)...);
        }
    }

    /// Pushes a range from `begin` on, which is then at the first value that was not pushed.
    template <class It, class End> status put_all(It &begin, End &end, std::size_t &count) {
        const one_caller caller(by.in());
        while (begin != end) {
            const lockfree_answer free = room();
            if (free.value == 0)
                return free.code == LOCKFREE_OK ? status::full : status_of(free.code);
            if (!goes_by_value<T> && by.shared->in.in_use) return status::full;
            count += put_some(std::min<std::size_t>(free.value, spsc_batch), begin, end);
        }
        return status::ok;
    }
    /// The same of an array, which goes in as it is if its values are words.
    status put_array(const T *&from, std::size_t most, std::size_t &count) {
        const T *const end = from + most;
        if constexpr (is_word_type<T>()) {
            const one_caller caller(by.in());
            while (from != end) {
                const lockfree_answer answer =
                    put_many(reinterpret_cast<const std::uint64_t *>(from), most - count);
                if (answer.code != LOCKFREE_OK) return status_of(answer.code);
                from += answer.value;
                count += answer.value;
            }
            return status::ok;
        } else {
            return put_all(from, end, count);
        }
    }

    lockfree_answer room() noexcept {
        const lockfree_answer free = defined((lockfree_spsc_room)(&by.of));
        by.gets_pops();
        return free;
    }

private:
    [[gnu::always_inline]] std::uint32_t put_once(std::uint64_t word) noexcept {
        by.gives_pushes();
        const std::uint32_t code = defined((lockfree_spsc_push)(&by.of, word)).code;
        by.gets_pops();
        return code;
    }
    template <class Again> [[gnu::noinline]] status
    put_again(Again &again, std::uint64_t word, std::uint32_t code) {
        while (code == LOCKFREE_FULL && again()) code = put_once(word);
        return code == LOCKFREE_FULL ? status::stopped : status_of(code);
    }
    lockfree_answer put_many(const std::uint64_t *words, std::size_t count) noexcept {
        by.gives_pushes();
        const lockfree_answer answer =
            defined((lockfree_spsc_push_many)(&by.of, words, count));
        by.gets_pops();
        return answer;
    }

    /// A function of T that pushes by the same end while its value is made finds it full, since the
    /// value has the next cell; it would wait in vain.
    template <class Again, class... Args> status put_in_cell(Again &again, Args &&...args) {
        if (!by.shared) return status::closed;
        spsc_side &side = by.shared->in;
        if (side.in_use) return waits<Again> ? status::stopped : status::full;
        const spsc_in_use user(side);
        constexpr bool returns = is_one_rvalue<T, Args...>;
        T *from = nullptr;
        if constexpr (returns) from = (std::addressof(args), ...);
        T *const value =
            ::new (by.shared->template place<T>(side.at)) T(std::forward<Args>(args)...);
        spsc_unless_pushed<T, returns> made{value, from};
        const status what = put_word(again, 0);
        if (what != status::ok) return what;
        made.value = nullptr;
        side.at = by.shared->after(side.at);
        return what;
    }

    /// Pushes up to `most` values, for which slots are free; also those that were made before a
    /// function of the range throws. Returns how many.
    template <class It, class End>
    std::size_t put_some(std::size_t most, It &begin, End &end) {
        if constexpr (!goes_by_value<T>) return put_cells(most, begin, end);
        else if constexpr (reads_twice<It>) return put_words(most, begin, end);
        else {
            const T value(*begin);
            if (put_once(detail::word_of_value(value)) != LOCKFREE_OK) return 0;
            (void)++begin;
            return 1;
        }
    }
    /// (A function of the range may push words, too, and then fewer slots are free.)
    template <class It, class End>
    std::size_t put_words(std::size_t most, It &begin, End &end) {
        struct made_words {
            spsc_pushing &to;
            std::size_t count = 0;
            std::uint64_t words[spsc_batch];
            explicit made_words(spsc_pushing &of) noexcept : to(of) {}
            ~made_words() { push(); }
            std::size_t push() noexcept {
                return to.put_many(words, std::exchange(count, 0)).value;
            }
        } made(*this);
        It at = begin;
        for (; made.count < most && at != end; (void)++at) {
            const T value(*at);
            made.words[made.count++] = detail::word_of_value(value);
        }
        const std::size_t count = made.count, pushed = made.push();
        if (pushed == count) begin = std::move(at);
        else
            for (std::size_t i = 0; i < pushed; ++i) (void)++begin;
        return pushed;
    }
    template <class It, class End>
    std::size_t put_cells(std::size_t most, It &begin, End &end) {
        struct made_values {
            spsc_pushing &to;
            const spsc_in_use user;
            std::size_t count = 0;
            explicit made_values(spsc_pushing &of) noexcept : to(of), user(of.by.shared->in) {}
            ~made_values() { to.put_many(spsc_no_words, count); }
        } made(*this);
        spsc_side &side = by.shared->in;
        while (made.count < most && begin != end) {
            ::new (by.shared->template place<T>(side.at)) T(*begin);
            ++made.count;
            side.at = by.shared->after(side.at);
            (void)++begin;
        }
        return made.count;
    }
};

/// How the consumer pops.
template <class T> class spsc_popping {
protected:
    spsc_end by;

    spsc_popping() noexcept = default;
    ~spsc_popping() {
        if (!by.shared) return;
        {
            const one_caller caller(by.out());
            assert(!by.shared->out.in_use && "lockfree: a function ends the consumer that calls it");
            if constexpr (!goes_by_value<T>)
                static_cast<void>(take_many(SIZE_MAX, [](T &) {}));
            by.gives_pops();
            by.of.free();
        }
        by.shared->template leave<T>();
    }

    /// Pops a value, and hands it to `use`.
    template <class F> [[gnu::always_inline]] status take(F &&use) {
        const one_caller caller(by.out());
        if constexpr (goes_by_value<T>) {
            const lockfree_answer answer = pop_once();
            if (__builtin_expect(answer.code != LOCKFREE_OK, 0)) return status_of(answer.code);
            detail::use_own_word<T>(answer.value, use);
            return status::ok;
        } else {
            return take_from_cell(use);
        }
    }
    template <class Again, class F> [[gnu::noinline]] status take_wait(Again &again, F &&use) {
        for (;;) {
            const status what = take(use);
            if (what != status::empty) return what;
            if (!again()) return status::stopped;
        }
    }

    /// Pops up to `most` of the values that are there now, and hands them to `use`.
    template <class F> batch take_many(std::size_t most, F &&use) {
        const one_caller caller(by.out());
        const lockfree_answer there = size();
        batch taken{0, status::ok};
        const auto counted = [&](T &value) {
            ++taken.count;
            use(value);
        };
        if constexpr (goes_by_value<T>) {
            while (taken.count < std::min<std::uint64_t>(most, there.value))
                if (take(counted) != status::ok) break;
        } else if (by.shared) {
            take_cells(most, there.value, counted, taken.count);
        }
        if (taken.count < most) taken.what = none_of(there.code);
        return taken;
    }
    /// The same into an array.
    batch take_array(T *to, std::size_t most) {
        if constexpr (goes_by_value<T> && std::is_trivially_copy_assignable_v<T>) {
            const one_caller caller(by.out());
            return pop_array(to, most);
        } else {
            return take_many(most, [&](T &value) { *to++ = std::move(value); });
        }
    }

    /// How many values there are, and LOCKFREE_CLOSED if no more come.
    lockfree_answer size() noexcept {
        lockfree_answer there = defined((lockfree_spsc_size)(&by.of));
        by.gets_pushes();
        if (by.shared) there.value -= by.shared->out.ahead;
        return there;
    }
    static status none_of(std::uint32_t code) noexcept {
        return code == LOCKFREE_OK ? status::empty : status_of(code);
    }

    /// The oldest value, or null. A word is copied into the place for it.
    auto *first() noexcept {
        const one_caller caller(by.out());
        if constexpr (goes_by_value<T>) {
            const lockfree_answer answer = defined((lockfree_spsc_front)(&by.of));
            by.gets_pushes();
            if (answer.code != LOCKFREE_OK) return static_cast<const T *>(nullptr);
            unsigned char *const place = by.shared->out.front;
            std::memcpy(place, &answer.value, sizeof(T));
            return std::launder(reinterpret_cast<const T *>(place));
        } else {
            if (size().value == 0) return static_cast<T *>(nullptr);
            return by.shared->template cell<T>(by.shared->out.at);
        }
    }

private:
    [[gnu::always_inline]] lockfree_answer pop_once() noexcept {
        by.gives_pops();
        const lockfree_answer answer = defined((lockfree_spsc_pop)(&by.of));
        by.gets_pushes();
        return answer;
    }
    lockfree_answer pop_many(std::uint64_t *words, std::size_t count) noexcept {
        by.gives_pops();
        const lockfree_answer answer = defined((lockfree_spsc_pop_many)(&by.of, words, count));
        by.gets_pushes();
        detail::written(words, answer.value * sizeof *words);
        return answer;
    }

    batch pop_array(T *to, std::size_t most) noexcept {
        batch taken{0, status::ok};
        while (taken.count < most) {
            lockfree_answer answer;
            if constexpr (is_word_type<T>()) {
                answer = pop_many(reinterpret_cast<std::uint64_t *>(to + taken.count),
                                  most - taken.count);
            } else {
                std::uint64_t words[spsc_batch];
                answer = pop_many(words, std::min(most - taken.count, spsc_batch));
                for (std::size_t i = 0; i < answer.value; ++i)
                    std::memcpy(to + taken.count + i, &words[i], sizeof(T));
            }
            if (answer.code != LOCKFREE_OK) {
                taken.what = status_of(answer.code);
                break;
            }
            taken.count += answer.value;
        }
        return taken;
    }

    /// While it lives functions of a user have values in their cells. Then it pops what they took.
    class using_cells {
    public:
        explicit using_cells(spsc_popping &of) noexcept : from(of), user(of.by.shared->out) {}
        ~using_cells() { pop_taken(); }
        /// Returns how many.
        std::size_t pop_taken() noexcept {
            std::size_t &ahead = from.by.shared->out.ahead, popped = 0;
            while (ahead > 0) {
                std::uint64_t words[spsc_batch];
                const std::size_t some = std::min(ahead, spsc_batch);
                static_cast<void>(from.pop_many(words, some));
                ahead -= some;
                popped += some;
            }
            return popped;
        }

    private:
        spsc_popping &from;
        const spsc_in_use user;
    };

    template <class F> void use_next(F &use) {
        spsc_side &side = by.shared->out;
        T &value = *by.shared->template cell<T>(side.at);
        side.at = by.shared->after(side.at);
        const ends<T> end(value);
        use(value);
    }
    template <class F> status take_from_cell(F &use) {
        if (!by.shared) return status::closed;
        if (by.shared->out.in_use) return take_ahead(use);
        const lockfree_answer answer = pop_once();
        if (__builtin_expect(answer.code != LOCKFREE_OK, 0)) return status_of(answer.code);
        const using_cells user(*this);
        use_next(use);
        return status::ok;
    }
    /// In a function of a user.
    template <class F> status take_ahead(F &use) {
        const lockfree_answer there = size();
        if (there.value == 0) return none_of(there.code);
        ++by.shared->out.ahead;
        use_next(use);
        return status::ok;
    }
    /// Functions may pop some of these values themselves.
    template <class F>
    void take_cells(std::size_t most, std::size_t there, F &use, const std::size_t &count) {
        if (by.shared->out.in_use) {
            for (; there > 0 && count < most; --there)
                if (take_ahead(use) != status::ok) return;
            return;
        }
        spsc_side &side = by.shared->out;
        using_cells user(*this);
        while (count < most && side.ahead < there) {
            ++side.ahead;
            use_next(use);
            if (side.ahead >= spsc_batch) there -= std::min(there, user.pop_taken());
        }
    }
};

}  // namespace detail
}  // namespace LOCKFREE_NAMES
}  // namespace lockfree
