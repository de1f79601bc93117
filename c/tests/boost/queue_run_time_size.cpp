// over Boost: runs
// over lockfree: runs
#include "containers.hpp"

struct order {
    int client;
    double price;
};

int main() {
    lf::queue<order, lf::fixed_sized<true>> queue(16);
    for (int i = 0; i < 16; ++i) CHECK(queue.push(order{i, i / 2.0}));
    order out{};
    for (int i = 0; i < 16; ++i) CHECK(queue.pop(out) && out.client == i && out.price == i / 2.0);
    CHECK(queue.empty());
}
