// Values that are not small: frames of 64 KiB lie in the queue itself, and a push moves one in. If copying them takes too
// long, put std::unique_ptr<frame> instead: then 8 bytes move, and who made the frame has taken its memory.
#include <lockfree.hpp>
#include <array>
#include <cstdio>
#include <memory>
#include <thread>
#include <utility>

struct frame {
    long number = 0;
    std::array<unsigned char, 65536> pixels{};
};

int main() {
    // memory: 4 frames, and two for each thread that calls
    const auto frames = std::make_unique<lockfree::ring_queue<frame, lockfree::capacity<4>>>();
    lockfree::ring_queue<std::unique_ptr<frame>, lockfree::capacity<4>> shown;   // only pointers
    std::thread camera([&] {
        const auto next = std::make_unique<frame>();
        for (next->number = 1; next->number <= 100; ++next->number)
            if (frames->push_wait(*next) != lockfree::status::ok) return;
        frames->close();
    });
    std::thread filter([&] {
        auto next = std::make_unique<frame>();
        while (frames->pop_wait(*next) == lockfree::status::ok)
            if (shown.push_wait(std::exchange(next, std::make_unique<frame>())) != lockfree::status::ok) return;
        shown.close();
    });
    long sum = 0;
    while (const auto next = shown.pop_wait()) sum += (*next)->number;
    camera.join();
    filter.join();
    std::printf("%ld\n", sum);
}
