// With -fno-exceptions and -fno-rtti: what a program needs that throws nothing.
#include "lockfree.hpp"
#include "check.hpp"

#include <string>
#include <utility>

namespace {

using lockfree::status;

template <class Container> void all() {
    CHECK(!lockfree::make<Container>(0) && !lockfree::make<Container>(2000000));
    const auto container = lockfree::make<Container>(2);
    CHECK(container);
    auto pass = container->try_split();
    std::string out, kept(40, 'k');
    CHECK(pass && pass.try_push("a") == status::ok && container->try_emplace(std::size_t{2}, 'b') == status::ok);
    CHECK(container->try_push(std::move(kept)) == status::full && kept.size() == 40);
    CHECK(pass.try_pop(out) == status::ok && container->pop_wait(out) == status::ok && container->try_pop(out) == status::empty);
    CHECK(container->close() && container->push_wait(kept) == status::closed);
}

void all_of_spsc() {
    using queue = lockfree::spsc_queue<std::string>;
    CHECK(!lockfree::make<queue>(0) && !lockfree::try_spsc<std::string>(0).producer);
    const auto made = lockfree::make<queue>(1);
    auto [producer, consumer] = lockfree::try_spsc<std::string>(1);
    std::string out, kept(40, 'k');
    CHECK(made && made->push("a") && !made->push(std::move(kept)) && kept.size() == 40 && made->pop(out) && out == "a");
    CHECK(producer.try_push(kept) == status::ok && producer.close() && consumer.pop_wait(out) == status::ok && out == kept);
    CHECK(consumer.try_pop(out) == status::closed && consumer.consume_all([](std::string &) {}) == 0);
}

}  // namespace

int main() {
    all_of_spsc();
    all<lockfree::bounded_queue<std::string>>();
    all<lockfree::bounded_stack<std::string>>();
    all<lockfree::ring_queue<std::string>>();
    std::puts("passed");
}
