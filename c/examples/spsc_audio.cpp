// A mixer, and a sound card's thread that must never wait: one thread at each end of an spsc_queue. Blocks of sound lie in the
// queue's own memory: the mixer makes each one where it lies, and the callback reads it there.
#include <lockfree.hpp>
#include <algorithm>
#include <array>
#include <cstddef>
#include <cstdio>
#include <thread>
#include <utility>

struct block {
    std::array<float, 256> samples;
    explicit block(float volume) { samples.fill(volume); }
};

/// What the sound card's thread calls for each block that it plays. It owns its end.
struct player {
    lockfree::spsc_consumer<block> blocks;
    int played = 0;
    void callback(float *to, std::size_t count) noexcept {
        const auto plays = [&](const block &next) { std::copy_n(next.samples.begin(), count, to); };
        if (blocks.consume_one(plays)) ++played;
        else std::fill_n(to, count, 0.0F);                  // nothing there in time: silence
    }
};

int main() {
    auto [producer, consumer] = lockfree::spsc<block>(8);   // takes all memory here
    std::thread sound([card = player{std::move(consumer)}]() mutable {
        std::array<float, 256> out;
        while (!(card.blocks.is_closed() && card.blocks.empty())) {
            card.callback(out.data(), out.size());
            std::this_thread::yield();                      // (a real card calls in its own time)
        }
        std::printf("%d\n", card.played);
    });
    for (int i = 0; i < 100;)
        if (producer.emplace(0.5F)) ++i;                    // made in its place
        else std::this_thread::yield();                     // full: the mixer is ahead by 8 blocks
    producer.close();                                       // or its destructor does
    sound.join();
}
