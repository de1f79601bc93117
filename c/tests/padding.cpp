// Under MemorySanitizer, with values that have bytes between their members: nothing is reported.
#include "lockfree.hpp"

#include <cstdlib>

namespace {

struct padded {
    char small;
    int number;
};

template <class Container> void all() {
    Container container(4);
    padded out;
    padded one;
    one.small = 'a';
    one.number = 7;
    if (!container.push(one) || !container.emplace(one) || !container.pop(out) || out.number != 7) std::abort();
    if (container.empty() || container.is_closed()) std::abort();
}

/// The same of an spsc_queue, and of arrays, which the library writes.
void all_of_spsc() {
    all<lockfree::spsc_queue<padded>>();
    lockfree::spsc_queue<unsigned long> words(4);
    lockfree::spsc_queue<padded> both(4);
    unsigned long numbers[4];
    padded values[3];
    for (padded &value : values) value.small = 'a', value.number = 7;
    if (words.push(numbers, 2) != 2 || both.push(values) != 3) std::abort();
    numbers[0] = 0;
    padded out[4];
    if (words.pop(numbers) != 2 || both.pop(out, 2) != 2 || out[1].small != 'a' || both.front().number != 7) std::abort();
    if (numbers[1] == 1 && words.empty()) std::abort();  // (it was never written, and is not read but as a word)
}

}  // namespace

int main() {
    all<lockfree::bounded_queue<padded>>();
    all<lockfree::bounded_stack<padded>>();
    all<lockfree::ring_queue<padded>>();
    all_of_spsc();
}
