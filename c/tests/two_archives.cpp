// Two shared objects, each with an archive of its own, of different forms: no archive gets a handle of
// the other. Each object has a stand-in in front of its archive (-DSTAND_IN) that knows the handles
// it has made. Built with -DOBJECT it is an object; the program gets two of them as words.
#if defined(STAND_IN)
#include <lockfree.h>

#include <cstdio>
#include <cstdlib>
#include <mutex>
#include <set>

namespace {
std::mutex lock;
std::set<const void *> known;
const void *made(const lockfree_handle *handle) {
    const std::lock_guard<std::mutex> guard(lock);
    return *known.insert(handle->at).first;
}
void check(const lockfree_handle *handle) {
    const std::lock_guard<std::mutex> guard(lock);
    if (!handle->full || known.count(handle->at)) return;
    std::fputs("a handle of another archive\n", stderr);
    std::_Exit(1);
}
}  // namespace

extern "C" {
std::uint32_t inner_lockfree_queue_limited(lockfree_handle *, std::uint32_t, std::uint64_t);
std::uint32_t inner_lockfree_split(lockfree_handle *, lockfree_handle *);
lockfree_answer inner_lockfree_put(lockfree_handle *, std::uint64_t, std::uint64_t);
lockfree_answer inner_lockfree_take(lockfree_handle *, std::uint64_t);
std::uint32_t lockfree_queue_limited(lockfree_handle *root, std::uint32_t capacity, std::uint64_t most) {
    const std::uint32_t code = inner_lockfree_queue_limited(root, capacity, most);
    if (code == LOCKFREE_OK) made(root);
    return code;
}
std::uint32_t lockfree_split(lockfree_handle *root, lockfree_handle *pass) {
    check(root);
    const std::uint32_t code = inner_lockfree_split(root, pass);
    if (code == LOCKFREE_OK) made(pass);
    return code;
}
lockfree_answer lockfree_put(lockfree_handle *pass, std::uint64_t value, std::uint64_t tries) {
    check(pass);
    return inner_lockfree_put(pass, value, tries);
}
lockfree_answer lockfree_take(lockfree_handle *pass, std::uint64_t tries) {
    check(pass);
    return inner_lockfree_take(pass, tries);
}
}
#elif defined(OBJECT)
#include "lockfree.hpp"

extern "C" __attribute__((visibility("default"))) bool makes_and_calls() {
    lockfree::queue<long, lockfree::capacity<4>> queue;
    auto pass = queue.split();
    long out = 0;
    return queue.push(1) && pass.push(2) && pass.pop(out) && out == 1 && queue.pop(out) && out == 2;
}
#else
#include "check.hpp"

#include <dlfcn.h>

int main(int count, char **words) {
    CHECK(count == 3);
    for (int i = 1; i < 3; ++i) {
        void *const opened = dlopen(words[i], RTLD_NOW | RTLD_GLOBAL);
        if (!opened) std::puts(dlerror());
        CHECK(opened);
        const auto call = reinterpret_cast<bool (*)()>(dlsym(opened, "makes_and_calls"));
        CHECK(call && call());
    }
    std::puts("passed");
}
#endif
