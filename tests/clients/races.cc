// ThreadSanitizer: two threads that write one number, the second surely after the first; of a global
// variable, and of the heap through templates.
#include <atomic>
#include <cstring>
#include <functional>
#include <thread>
static long shared_number;
static std::atomic<int> turn{0};
template <class T> inline void add(T *number, T more) { *number += more; }
struct Counter {
    long count = 0;
    void raise(int by) { add(&count, static_cast<long>(by)); }
};
static void in_turn(int mine, const std::function<void()> &work) {
    while (turn.load(std::memory_order_relaxed) != mine) std::this_thread::yield();
    work();
    turn.store(mine + 1, std::memory_order_relaxed);
}
static void race(const std::function<void()> &work) {
    std::thread first([&] { in_turn(0, work); });
    std::thread second([&] { in_turn(1, work); });
    first.join();
    second.join();
}
int main(int count, char **words) {
    if (count > 1 && !strcmp(words[1], "heap")) {
        Counter *counter = new Counter;
        race([&] { counter->raise(1); });
        delete counter;
    } else {
        race([] { add(&shared_number, 2L); });
    }
    return 0;
}
