// A stack's calls that take all values at once.
#pragma once

#include "calls.hpp"

#include <algorithm>
#include <array>
#include <cstddef>
#include <cstdint>
#include <memory>
#include <new>
#include <utility>

namespace lockfree {
inline namespace LOCKFREE_NAMES {
namespace detail {

/// All values of a stack, taken at once. Their words are collected before the first one is handed
/// out: then the stack has all of its room again, a value's cell is free as soon as it was handed
/// out, and calls in the function go by the same seat. 64 words lie here, more of them in memory
/// that the seat keeps for the next fold. If there is no memory for these, the stack keeps the
/// places of the values until the last one is handed out, and calls in the function go by a pass
/// that is borrowed from a seat that nobody has. A fold goes to its end even if its values are not
/// wanted any more.
template <class T> class fold {
public:
    fold(core &from, seat &with, bool reversed) noexcept
        : user(from, with), of(from), by(with), under_way(of.begin_fold()),
          answer(detail::whole(by.pass, (lockfree_fold)(&by.pass, reversed, UINT64_MAX))) {
        gets(&of);
        if (answer.code == LOCKFREE_VALUE) collect();
        else static_cast<void>(detail::refused(of, answer.code));
        if (answer.code == LOCKFREE_VALUE) borrow();
    }
    fold(const fold &) = delete;
    fold &operator=(const fold &) = delete;
    ~fold() {
        while (next([](T &) {})) {}
        if (other) of.give_back(other);
        if (!by.words) by.words = std::move(many);
    }
    /// Hands the next value to `use`; whether there was one.
    template <class F> bool next(F &&use) {
        if (handed_out == count && answer.code != LOCKFREE_VALUE) return false;
        const std::uint64_t word = handed_out < count ? words[handed_out++] : next_word();
        detail::use_word<T>(of, by, word, use);
        return true;
    }

private:
    const in_use<T> user;
    core &of;
    seat &by;
    seat *other = nullptr;  // whose pass has the fold under way
    const core::fold_under_way under_way;
    lockfree_answer answer;
    std::array<std::uint64_t, 64> few;
    std::unique_ptr<std::uint64_t[]> many;
    std::uint64_t *words = few.data();
    std::size_t count = 0;
    std::size_t handed_out = 0;

    std::uint64_t next_word() noexcept {
        handle &pass = other ? other->pass : by.pass;
        const std::uint64_t word = answer.value;
        answer = detail::whole(pass, (lockfree_go_on)(&pass, UINT64_MAX));
        by.tally<kind::stack>(-1);
        return word;
    }

    void collect() noexcept {
        std::size_t room = few.size();
        for (; answer.code == LOCKFREE_VALUE; words[count++] = next_word()) {
            if (count < room) continue;
            many = std::move(by.words);
            if (!many) many.reset(new (std::nothrow) std::uint64_t[of.room]);
            if (!many) return;
            words = std::copy_n(few.data(), count, many.get()) - count;
            room = of.room;
        }
    }

    /// If no seat can be had either, calls in the function are refused: no_memory.
    void borrow() noexcept {
        if (of.take_seat(other) == LOCKFREE_OK) by.pass.swap(other->pass);
    }
};

template <class Me, class T> class folds {
public:
    /// Takes all values at once, and hands them to `use` from the top down, as consume_one does.
    /// Returns how many there were. `use` may call the stack, and finds all of its room free: a
    /// value that it pushes back fits. For more than 64 values the call takes memory, once for each
    /// pass (8 bytes for each value that fits). If there is none, the stack keeps the room of all
    /// of them until this call returns, and calls of `use` borrow a pass under a lock. If `use` throws, the values that
    /// it has not got end. Values in hand that lie in cells keep these: if the others are in use, a
    /// push is full.
    template <class F> std::size_t consume_all_atomic(F &&use) {
        return said(try_consume_all_atomic(use));
    }
    /// From the bottom up.
    template <class F> std::size_t consume_all_atomic_reversed(F &&use) {
        return said(try_consume_all_atomic_reversed(use));
    }
    /// The same, without exceptions of their own: `ok`, or no_memory, no_pass.
    template <class F> batch try_consume_all_atomic(F &&use) { return fold_all(false, use); }
    template <class F> batch try_consume_all_atomic_reversed(F &&use) {
        return fold_all(true, use);
    }

private:
    static std::size_t said(batch result) {
        throw_if_not_made(result.what);
        return result.count;
    }
    template <class F> batch fold_all(bool reversed, F &use) {
        std::size_t count = 0;
        const status what = static_cast<Me &>(*this).with([&](core &of, seat &by) {
            fold<T> values(of, by, reversed);
            while (values.next([&](T &value) { detail::hand_over(use, value); })) ++count;
            return status::ok;
        });
        return {count, what};
    }
};

}  // namespace detail
}  // namespace LOCKFREE_NAMES
}  // namespace lockfree
