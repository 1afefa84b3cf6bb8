// Work for perf and gperftools: sums, sorts and lookups, in functions that are inlined in one another.
#include <algorithm>
#include <cmath>
#include <cstdlib>
#include <map>
#include <string>
#include <vector>
namespace work {
static inline double mix(double x, int i) { return std::sqrt(x * x + i) / (1 + (i & 3)); }
template <class T> [[gnu::noinline]] T fold(const std::vector<T> &all, int rounds) {
    T sum = 0;
    for (int round = 0; round < rounds; round++)
        for (size_t i = 0; i < all.size(); i++) sum += mix(all[i], static_cast<int>(i) ^ round);
    return sum;
}
struct Sorter {
    int sign;
    [[gnu::noinline]] void run(std::vector<double> &all) const {
        std::sort(all.begin(), all.end(), [this](double a, double b) { return sign * a < sign * b; });
    }
};
[[gnu::noinline]] static size_t count(const std::vector<double> &all) {
    std::map<std::string, size_t> counts;
    for (double number : all) counts[std::to_string(static_cast<int>(number) % 100)]++;
    return counts.size();
}
}  // namespace work
int main(int words, char **) {
    std::vector<double> all(20000);
    double sum = 0;
    for (int round = 0; round < 60 * words; round++) {
        for (size_t i = 0; i < all.size(); i++) all[i] = (i * 7919 + round) % 10007;
        sum += work::fold(all, 20);
        work::Sorter{round & 1 ? 1 : -1}.run(all);
        sum += static_cast<double>(work::count(all));
    }
    return sum < 0;
}
