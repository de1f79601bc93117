// Makes one call of the C++ header again and again on one thread, so that tests/instructions can
// count its instructions and stores.
//
// usage: instructions KIND BY CALLS TIMES
//   KIND   stack, queue, ring or spsc, with room for 4,096 values
//   BY     container, or pass: one of split(); of spsc the container alone
//   CALLS  pair (a push and a pop in turn, of an empty container), refused-push (of a full one),
//          refused-pop (of an empty one), or pair-of-16-bytes (values that lie in cells)
//   TIMES  how often; 0 makes what a run makes once
//
// The status is 0 if each call was answered as it has to be.

#include <lockfree.hpp>

#include <cstdint>
#include <cstdio>
#include <cstdlib>
#include <cstring>

namespace {

constexpr std::size_t room = 4096;

struct two_words {
    std::uint64_t first, second;
};

template <class By> [[gnu::noinline]] bool pairs(By &by, std::uint64_t times) {
    bool right = true;
    for (std::uint64_t i = 0; i < times; ++i) {
        std::uint64_t out = 0;
        right &= by.push(i) && by.pop(out) && out == i;
    }
    return right;
}

template <class By> [[gnu::noinline]] bool pairs_of_two_words(By &by, std::uint64_t times) {
    bool right = true;
    for (std::uint64_t i = 0; i < times; ++i) {
        two_words out{};
        right &= by.push(two_words{i, i}) && by.pop(out) && out.second == i;
    }
    return right;
}

template <class By> [[gnu::noinline]] bool refused_pushes(By &by, std::uint64_t times) {
    bool right = true;
    for (std::uint64_t i = 0; i < times; ++i) right &= !by.push(i);
    return right;
}

template <class By> [[gnu::noinline]] bool refused_pops(By &by, std::uint64_t times) {
    bool right = true;
    std::uint64_t out = 0;
    for (std::uint64_t i = 0; i < times; ++i) right &= !by.pop(out);
    return right;
}

template <class By> bool repeated(By &by, const char *calls, std::uint64_t times) {
    if (std::strcmp(calls, "pair") == 0) return pairs(by, times);
    if (std::strcmp(calls, "refused-pop") == 0) return refused_pops(by, times);
    if (std::strcmp(calls, "refused-push") != 0) return false;
    for (std::uint64_t i = 0; i < room; ++i)
        if (!by.push(i)) return false;
    return refused_pushes(by, times);
}

/// A container of `kind`, with values of 8 bytes or of 16.
template <template <class, class...> class Kind>
bool made_and_called(bool by_pass, const char *calls, std::uint64_t times) {
    if (std::strcmp(calls, "pair-of-16-bytes") == 0) {
        Kind<two_words, lockfree::capacity<room>> container;
        auto pass = container.split();
        return by_pass ? pairs_of_two_words(pass, times) : pairs_of_two_words(container, times);
    }
    Kind<std::uint64_t, lockfree::capacity<room>> container;
    auto pass = container.split();
    return by_pass ? repeated(pass, calls, times) : repeated(container, calls, times);
}

/// The same of an spsc_queue, which has no passes.
bool spsc_called(const char *calls, std::uint64_t times) {
    if (std::strcmp(calls, "pair-of-16-bytes") == 0) {
        lockfree::spsc_queue<two_words, lockfree::capacity<room>> queue;
        return pairs_of_two_words(queue, times);
    }
    lockfree::spsc_queue<std::uint64_t, lockfree::capacity<room>> queue;
    return repeated(queue, calls, times);
}

bool called(const char *kind, bool by_pass, const char *calls, std::uint64_t times) {
    if (std::strcmp(kind, "spsc") == 0) return !by_pass && spsc_called(calls, times);
    if (std::strcmp(kind, "stack") == 0)
        return made_and_called<lockfree::stack>(by_pass, calls, times);
    if (std::strcmp(kind, "queue") == 0)
        return made_and_called<lockfree::queue>(by_pass, calls, times);
    return std::strcmp(kind, "ring") == 0 &&
           made_and_called<lockfree::ring_queue>(by_pass, calls, times);
}

}  // namespace

int main(int words, char **word) {
    if (words != 5) {
        std::fputs("usage: instructions KIND BY CALLS TIMES\n", stderr);
        return 2;
    }
    const bool by_pass = std::strcmp(word[2], "pass") == 0;
    return called(word[1], by_pass, word[3], std::strtoull(word[4], nullptr, 10)) ? 0 : 1;
}
