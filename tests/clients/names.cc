// Functions whose names demanglers write differently, and such that compilers split or specialize. It needs no library.
using size_t = decltype(sizeof 0);
volatile int count;
extern "C" __attribute__((noinline)) void stop(int x) { count = x; }
namespace {
struct Hidden { __attribute__((noinline)) int go(int x) { return count += x; } };
template <class T> __attribute__((noinline)) T twice(T x) { return x + x + count; }
}
template <class... Types> struct Pack {
    static __attribute__((noinline)) int size(Types... all) { return sizeof...(all) + count; }
};
template <class T, int n> struct Box {
    T held[n];
    __attribute__((noinline)) T &at(size_t i) { return held[i + count]; }
};
struct Base { virtual int turn(int x) const { return x + count; } };
struct Other { virtual int back(int x) { return x - count; } };
struct Both : Base, Other {
    int turn(int x) const override { return x * count; }
    int back(int x) override { return x + 2; }
};
static __attribute__((noinline)) int rare(int x) {
    if (__builtin_expect(x > 100, 0)) {
        for (int i = 0; i < x; i++) stop(i * count);
        stop(x);
    }
    return x + count;
}
static __attribute__((noinline)) int constant(int x, int y) { return x * count + y * y; }
template <class F> __attribute__((noinline)) int call(F f, int x) { return f(x) + f(x + 1); }
__attribute__((noinline)) int (Base::*choose(int x))(int) const { return x ? &Base::turn : nullptr; }
static Box<Box<int, 3>, 4> box;
static Both both;
int run(int x) {
    auto plain = [](int y) { return y + count; };
    auto held = [x](int y) {
        struct Local { int z; int get() { return z * count; } };
        return Local{x + y}.get();
    };
    Base &base = both;
    Other &other = both;
    return call(plain, x) + call(held, x) + twice(x) + int(twice(long(x))) + Pack<>::size() +
        Pack<int, char>::size(x, 'a') + box.at(1).at(2) + base.turn(x) + other.back(x) + rare(x) + rare(2 * x) +
        constant(x, 3) + constant(2 * x, 3) + Hidden().go(x) + (base.*choose(x))(x);
}
int main(int argc, char **) { return run(argc); }
