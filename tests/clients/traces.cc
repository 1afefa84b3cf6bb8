// Prints its own stack by boost::stacktrace, which starts addr2line.
#include <boost/stacktrace.hpp>
#include <iostream>
namespace traces {
template <class T> [[gnu::noinline]] int deepest(T number) {
    std::cout << boost::stacktrace::stacktrace();
    return static_cast<int>(number) + 1;
}
[[gnu::noinline]] int middle(int number) { return deepest<long>(number) + 1; }
}  // namespace traces
int main(int count, char **) { return traces::middle(count) > 100; }
