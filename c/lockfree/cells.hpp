// The cells of a container: they hold the values that are no word themselves.
//
// Free cells hang in chains of one length: 16 for small values, 2 for those of 256 bytes, and 1
// from 1 KiB on. Whole chains lie in a second container of the library, one word each. A caller
// keeps fewer than two chains at hand: a push takes a cell from them, a pop puts one there. So one
// call in a chain's length moves a chain, and none does while pushes and pops take turns.
//
// For a ring the second container is a ring too, for the same number of callers, and with a slot
// for each chain. So it lasts as long. For a queue and a stack it is a stack, which makes at most
// one move for each value that is pushed, and one for each chain that is made. Chains of 1 move
// twice as often, so there it is a ring for 64 callers, which lasts longer than they do. If chains
// do not fit, or the stack is spent first, they are listed under the container's lock; a caller
// that has no way to the ring gets its chains under the lock, too.
//
// Why no push lacks a cell: there are as many cells as values fit, and three chains more for each
// caller. A caller has at most two of them, with the cell in hand. So if one has none, some chain
// is free. Of chains of 1 there are two more for each caller, which has one of them at hand or in
// hand, or two if a function of consume_one pushes. Two uses can still empty all chains: functions
// of consume_one that call again, deeper than this, and several large ranges at once. Then one more
// chain is made. That takes memory, and the chain stays. While a fold has values in hand none is
// made: a push that finds no cell is full.
#pragma once

#include "library.hpp"

#include <algorithm>
#include <atomic>
#include <cstddef>
#include <mutex>
#include <new>
#include <type_traits>
#include <utility>

namespace lockfree {
inline namespace LOCKFREE_NAMES {
namespace detail {

/// Whether a T is itself the word that goes through the library.
template <class T> inline constexpr bool goes_by_value = std::is_trivially_copyable_v<T> &&
                                                         std::is_move_constructible_v<T> &&
                                                         sizeof(T) <= sizeof(std::uint64_t);

/// A free cell. The first one of a chain also has the next chain, if chains are listed.
struct link {
    link *next;
    link *next_chain;
};

/// Room for a value, or a free cell.
template <class T> union cell {
    link free;
    T value;
    cell() noexcept : free{} {}
    ~cell() {}
};

/// The size of cells, and how many a chain has. All zero for values that need no cells.
struct cell_layout {
    std::size_t size;
    std::size_t align;
    std::uint32_t chain;
};
constexpr std::uint32_t chain_length(std::size_t size) noexcept {
    return size >= 1024  ? 1
           : size >= 256 ? 2
           : size <= 32  ? 16
                         : static_cast<std::uint32_t>(512 / size);
}
template <class T> constexpr cell_layout layout_of() noexcept {
    if constexpr (goes_by_value<T>) return {0, 0, 0};
    else return {sizeof(cell<T>), alignof(cell<T>), chain_length(sizeof(cell<T>))};
}

/// The free cells that one caller has at hand: `some`, fewer than a chain, and `chain`, a whole one
/// or none.
struct cells_at_hand {
    handle way;  // a pass of the container of chains
    link *some = nullptr;
    link *chain = nullptr;
    std::uint32_t count = 0;    // of `some`
    bool keeps_a_chain = true;  // not of the seat that only takes
    bool has_chains = false;
};

/// All cells of a container. `take` and `give` are for many threads, each with its cells at hand;
/// the remaining functions are called under the container's lock.
class cell_store {
public:
    explicit cell_store(cell_layout of) noexcept : layout(of) {}
    cell_store(const cell_store &) = delete;
    cell_store &operator=(const cell_store &) = delete;
    ~cell_store() { clear(); }

    /// Makes the container of chains, for a ring's number of callers, or for any if that is 0. OK,
    /// NO_MEMORY.
    std::uint32_t open(std::size_t values, std::uint32_t callers) noexcept {
        if (layout.chain == 0) return LOCKFREE_OK;
        const std::size_t of_callers = chains_of_caller() * (callers ? callers : planned);
        const std::uint32_t ways = callers ? callers : planned + 2;
        const std::size_t most = most_of_ring - ways;  // (more are listed)
        const auto room =
            static_cast<std::uint32_t>(std::min(chains_for(values) + of_callers, most));
        if (callers) return lockfree_ring_new(&chains, room, ways);
        if (layout.chain > 1) return lockfree_stack_new(&chains, room);
        shares_a_way = true;
        const std::uint32_t code = lockfree_ring_new(&chains, room, ways);
        return code == LOCKFREE_OK ? lockfree_split(&chains, &shared_way) : code;
    }

    /// A way to the chains for who comes, and some chains more. What is there already, if memory
    /// was refused before, stays. OK, NO_MEMORY, NO_PASS.
    std::uint32_t join(cells_at_hand &by, bool is_caller) noexcept {
        if (layout.chain == 0 || by.has_chains) return LOCKFREE_OK;
        by.keeps_a_chain = is_caller;
        std::uint32_t code =
            by.way.is_empty() ? lockfree_split(&chains, &by.way) : std::uint32_t{LOCKFREE_OK};
        if (code == LOCKFREE_NO_PASS && shares_a_way) code = LOCKFREE_OK;
        if (code == LOCKFREE_OK && (is_caller || layout.chain > 1))
            code = add(chains_of_caller(), by);
        by.has_chains = code == LOCKFREE_OK;
        return code;
    }

    /// Makes cells for a capacity of `values`. Returns OK or NO_MEMORY.
    std::uint32_t add_for(std::size_t values, cells_at_hand &by) noexcept {
        return layout.chain == 0 ? std::uint32_t{LOCKFREE_OK} : add(chains_for(values), by);
    }

    /// A free cell. Null if there is none, and it may not grow or has no memory.
    void *take(cells_at_hand &by, std::mutex &lock, bool may_grow) noexcept {
        if (!by.some && !refill(by, lock, may_grow)) return nullptr;
        link *const at = by.some;
        by.some = at->next;
        --by.count;
        return at;
    }

    void give(cells_at_hand &by, void *free, std::mutex &lock) noexcept {
        by.some = ::new (free) link{by.some, nullptr};
        if (__builtin_expect(++by.count == layout.chain, 0)) put_away(by, lock);
    }

    /// Ends all cells.
    void clear() noexcept {
        shared_way.free();
        chains.free();
        while (blocks) {
            block *const last = std::exchange(blocks, blocks->next);
            ::operator delete(last->bytes, std::align_val_t(layout.align));
        }
    }

private:
    /// This many callers' chains fit, if their number is not known. The chains of others are listed
    /// under the lock.
    static constexpr std::uint32_t planned = 64;
    /// What the capacity and the passes of a ring are together at most.
    static constexpr std::size_t most_of_ring = 1048575;

    /// Memory of some chains; it lies behind their cells.
    struct block {
        void *bytes;
        block *next;
    };

    const cell_layout layout;
    handle chains;
    handle shared_way;  // of those that have none, under the lock
    bool shares_a_way = false;
    block *blocks = nullptr;
    link *listed = nullptr;
    std::atomic<bool> has_listed{false};  // whether it ever had one

    std::size_t chains_of_caller() const noexcept { return layout.chain == 1 ? 2 : 3; }
    std::size_t chains_for(std::size_t values) const noexcept {
        return (values + layout.chain - 1) / layout.chain;
    }

    /// Makes chains. The first one comes to hand if there is none.
    std::uint32_t add(std::size_t count, cells_at_hand &by) noexcept {
        link *made = make(count);
        if (!made) return LOCKFREE_NO_MEMORY;
        while (made) {
            link *const chain = std::exchange(made, made->next_chain);
            if (by.keeps_a_chain && !by.chain) by.chain = chain;
            else if (!store(by, chain)) list(chain);
        }
        return LOCKFREE_OK;
    }

    /// New chains, one list of them; null if there is no memory.
    link *make(std::size_t count) noexcept {
        const std::size_t size = count * layout.chain * layout.size;
        void *const memory =
            ::operator new(size + sizeof(block), std::align_val_t(layout.align), std::nothrow);
        if (!memory) return nullptr;
        auto *const bytes = static_cast<unsigned char *>(memory);
        blocks = ::new (bytes + size) block{bytes, blocks};
        link *all = nullptr;
        for (std::size_t at = size; at > 0;) {
            link *chain = ::new (bytes + (at -= layout.size)) link{nullptr, nullptr};
            for (std::uint32_t i = 1; i < layout.chain; ++i)
                chain = ::new (bytes + (at -= layout.size)) link{chain, nullptr};
            chain->next_chain = std::exchange(all, chain);
        }
        return all;
    }

    /// Gets a chain into `some`, if one is free or can be made.
    [[gnu::noinline]] bool refill(cells_at_hand &by, std::mutex &lock, bool may_grow) noexcept {
        link *chain = std::exchange(by.chain, nullptr);
        if (!chain) chain = find(by, lock);
        if (!chain && may_grow) {
            const std::lock_guard<std::mutex> guard(lock);
            chain = make(1);
        }
        if (!chain) return false;
        by.some = chain;
        by.count = layout.chain;
        return true;
    }

    /// A free chain, from the container of chains or from the list. While one is free a try fails
    /// only if others move chains from one to the other meanwhile.
    link *find(cells_at_hand &by, std::mutex &lock) noexcept {
        const bool has_way = !by.way.is_empty();
        for (int tries = 0; tries < 64; ++tries) {
            if (link *const chain = has_way ? take_stored(by.way) : nullptr) return chain;
            if (has_way && !has_listed.load()) break;
            const std::lock_guard<std::mutex> guard(lock);
            if (listed) return std::exchange(listed, listed->next_chain);
            link *const chain = has_way ? nullptr : take_stored(shared_way);
            if (chain || !has_way) return chain;
        }
        return nullptr;
    }
    link *take_stored(handle &way) noexcept {
        const lockfree_answer answer = detail::take(way);
        gets(this);
        return answer.code == LOCKFREE_OK ? place_of<link>(answer.value) : nullptr;
    }

    /// `some` is a whole chain: it stays at hand, and the chain that was at hand goes back to the
    /// stored ones.
    [[gnu::noinline]] void put_away(cells_at_hand &by, std::mutex &lock) noexcept {
        link *const whole_one = std::exchange(by.some, nullptr);
        by.count = 0;
        link *const back = by.keeps_a_chain ? std::exchange(by.chain, whole_one) : whole_one;
        if (!back || store(by, back)) return;
        const std::lock_guard<std::mutex> guard(lock);
        list(back);
    }

    bool store(cells_at_hand &by, link *chain) noexcept {
        gives(this);
        return put(by.way, word_of(chain)).code == LOCKFREE_OK;
    }
    void list(link *chain) noexcept {
        chain->next_chain = std::exchange(listed, chain);
        has_listed.store(true);
    }
};

}  // namespace detail
}  // namespace LOCKFREE_NAMES
}  // namespace lockfree
