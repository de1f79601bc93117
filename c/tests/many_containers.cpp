// A thread that has called many containers: a push and a pop take hardly more instructions than by a thread that has called
// 16, whichever containers these are; nothing takes memory after a thread's first call; and a thread keeps little of those
// that have ended. Counts instructions by the processor's trap flag.
#include "lockfree.hpp"
#include "check.hpp"

#include <csignal>
#include <cstddef>
#include <memory>
#include <new>
#include <thread>
#include <vector>

namespace {

std::atomic<long> requests{0}, blocks{0};

void *taken(std::size_t size, std::size_t align = alignof(std::max_align_t)) {
    ++requests;
    ++blocks;
    if (void *const at = std::aligned_alloc(align, (size + align - 1) / align * align)) return at;
    std::abort();
}
void given(void *at) noexcept {
    if (at) --blocks;
    std::free(at);
}

}  // namespace

void *operator new(std::size_t size) { return taken(size); }
void *operator new(std::size_t size, std::align_val_t align) { return taken(size, static_cast<std::size_t>(align)); }
void operator delete(void *at) noexcept { given(at); }
void operator delete(void *at, std::size_t) noexcept { given(at); }
void operator delete(void *at, std::align_val_t) noexcept { given(at); }
void operator delete(void *at, std::size_t, std::align_val_t) noexcept { given(at); }

namespace {

volatile long instructions = 0;

extern "C" void count_instruction(int) { instructions = instructions + 1; }

/// How many instructions of this thread a call takes, and a few more.
template <class F> long instructions_of(F &&call) {
    struct sigaction counts {};
    counts.sa_handler = count_instruction;
    CHECK(sigaction(SIGTRAP, &counts, nullptr) == 0);
    instructions = 0;
    asm volatile("leaq -128(%%rsp), %%rsp; pushfq; orq $0x100, (%%rsp); popfq; leaq 128(%%rsp), %%rsp" ::: "memory", "cc");
    call();
    asm volatile("leaq -128(%%rsp), %%rsp; pushfq; andq $-0x101, (%%rsp); popfq; leaq 128(%%rsp), %%rsp" ::: "memory", "cc");
    return instructions;
}

using queue = lockfree::queue<int, lockfree::capacity<1>>;

/// Makes containers, of which a new thread calls each `step`th one, then each of these again. The instructions of 64 pushes
/// and pops, and how many requests for memory there were after the first calls.
struct measured {
    long instructions;
    long requests;
};
measured pairs(std::size_t made, std::size_t step) {
    std::vector<std::unique_ptr<queue>> all;
    for (std::size_t i = 0; i < made; ++i) all.push_back(std::make_unique<queue>());
    measured of{};
    std::thread([&] {
        int out = 0;
        for (std::size_t i = 0; i < made; i += step) CHECK(all[i]->push(1) && all[i]->pop(out));
        const long before = requests;
        for (std::size_t i = 0; i < made; i += step) CHECK(all[i]->push(1) && all[i]->pop(out));
        bool went = true;
        const std::size_t called = (made + step - 1) / step;
        of.instructions = instructions_of([&] {
            for (std::size_t i = 0; i < 64; ++i) {
                queue &some = *all[i * 7919 % called * step];
                went = some.push(3) && some.pop(out) && out == 3 && went;
            }
        });
        CHECK(went);
        of.requests = requests - before;
    }).join();
    return of;
}

void calls_cost_the_same() {
    const measured few = pairs(16, 1), many = pairs(12000, 1), each_64th = pairs(12000, 64);
    std::printf("%ld, %ld and %ld instructions\n", few.instructions, many.instructions, each_64th.instructions);
    CHECK(few.requests == 0 && many.requests == 0 && each_64th.requests == 0);
    CHECK(few.instructions > 64 * 100);  // (so they are counted)
    CHECK(many.instructions * 2 <= few.instructions * 3 && each_64th.instructions * 2 <= few.instructions * 3);
}

/// Containers that others have ended are forgotten at the next first calls: all but 16, and as many as there are others.
void ended_containers_are_forgotten() {
    stage steps;
    std::vector<std::unique_ptr<queue>> all;
    const auto make = [&](std::size_t count) {
        for (std::size_t i = 0; i < count; ++i) all.push_back(std::make_unique<queue>());
    };
    make(2);
    long before = 0;
    std::thread calls([&] {
        const auto call_each = [&] { for (auto &some : all) CHECK(some->push(1)); };
        call_each();
        steps.reach(1);
        steps.await(2);
        call_each();
        steps.reach(3);
        steps.await(4);
        call_each();
        steps.reach(5);
        steps.await(6);
    });
    steps.await(1);
    before = blocks;
    make(3000);
    for (std::size_t i = 2; i < all.size(); ++i) CHECK(all[i]->empty());
    all.erase(all.begin(), all.begin() + 2);
    steps.reach(2);
    steps.await(3);
    all.clear();
    make(2);
    steps.reach(4);
    steps.await(5);
    CHECK(blocks <= before + 40);
    steps.reach(6);
    calls.join();
}

}  // namespace

int main() {
    calls_cost_the_same();
    ended_containers_are_forgotten();
    std::puts("passed");
}
