// over Boost: runs
// over lockfree: runs
#include "containers.hpp"

#include <type_traits>

void take(int);

int main() {
    using queue = lf::queue<int, lf::capacity<64>>;
    using stack = lf::stack<int, lf::capacity<64>>;
    static_assert(std::is_same_v<queue::value_type, int> && std::is_same_v<stack::value_type, int>);
    static_assert(std::is_same_v<queue::size_type, std::size_t> && std::is_same_v<stack::size_type, std::size_t>);
    static_assert(!std::is_copy_constructible_v<queue> && !std::is_copy_assignable_v<stack>);
    static_assert(std::is_default_constructible_v<queue> && std::is_default_constructible_v<stack>);
    queue made;
    static_assert(std::is_same_v<decltype(made.push(1)), bool> && std::is_same_v<decltype(made.consume_one(take)), bool>);
    static_assert(std::is_same_v<decltype(made.consume_all(take)), std::size_t>);
}
