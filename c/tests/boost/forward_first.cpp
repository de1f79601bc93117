// over Boost: runs
// over lockfree: runs
#include <boost/lockfree/lockfree_forward.hpp>

namespace {

struct holds_a_queue {
    boost::lockfree::queue<int, boost::lockfree::capacity<4>> *queue;  // declared, not defined yet
};

}  // namespace

#include "containers.hpp"

int main() {
    lf::queue<int, lf::capacity<4>> queue;
    const holds_a_queue holds{&queue};
    CHECK(holds.queue->push(1));
}
