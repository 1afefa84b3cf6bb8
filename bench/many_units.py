"""Writes a C++ program of many units of very different sizes, as large programs are made of: a few large units and many
small ones. The word says how many units: unit1.cc and so on, and main.cc, which calls each."""
import sys

PLAIN = '''
struct Node%(part)d { Node%(part)d *next; int key; long sum; };
static inline int step%(part)d(const Node%(part)d *node) { return node ? node->key * %(part)d + 1 : 0; }
static inline int walk%(part)d(const Node%(part)d *node) {
    int sum = 0;
    for (; node; node = node->next) sum += node->key > 3 ? step%(part)d(node) : step%(part)d(node->next) - 1;
    return sum;
}
int part%(part)d(int count) {
    Node%(part)d last{nullptr, count, 0}, first{&last, count ^ %(part)d, 1};
    return walk%(part)d(&first) + step%(part)d(&last);
}
'''

LISTS = '''
struct Item%(part)d { int key; std::vector<long> sums; };
int part%(part)d(int count) {
    std::vector<Item%(part)d> items;
    for (int i = 0; i < count; i++) items.push_back(Item%(part)d{i * %(part)d, {i, count}});
    std::sort(items.begin(), items.end(), [](const Item%(part)d &p, const Item%(part)d &q) { return q.key < p.key; });
    return items.empty() ? 0 : items.back().key;
}
'''

MAPS = '''
struct Entry%(part)d { int key; std::string name; std::map<std::string, std::vector<int>> places; };
int part%(part)d(int count) {
    std::unordered_map<std::string, Entry%(part)d> found;
    for (int i = 0; i < count; i++) {
        Entry%(part)d entry{i, std::to_string(i + %(part)d), {}};
        entry.places[entry.name].push_back(i);
        found[entry.name] = entry;
    }
    std::ostringstream out;
    for (auto &pair : found) out << pair.first << pair.second.key;
    return static_cast<int>(found.size() + out.str().size());
}
'''

KINDS = ((PLAIN, ()), (LISTS, ('algorithm', 'vector')), (MAPS, ('map', 'sstream', 'string', 'unordered_map', 'vector')))


def unit(number, parts):
    """The source of a unit, of so many parts."""
    text, headers = KINDS[number % 3]
    lines = [f'#include <{header}>\n' for header in headers]
    lines.append(f'namespace n{number} {{')
    lines += [text % {'part': part} for part in range(parts)]
    calls = ' + '.join(f'part{part}(count)' for part in range(parts))
    lines.append(f'int run(int count) {{ return {calls}; }}\n}}\n')
    return ''.join(lines)


count = int(sys.argv[1])
for number in range(1, count + 1):
    with open(f'unit{number}.cc', 'w') as out:
        # the nth largest has one part by n of what the largest has
        out.write(unit(number, 1 + 400 // (number + 7)))
with open('main.cc', 'w') as out:
    out.writelines(f'namespace n{number} {{ int run(int); }}\n' for number in range(1, count + 1))
    out.write('int main(int argc, char **) { return 0\n')
    out.writelines(f'+ n{number}::run(argc)\n' for number in range(1, count + 1))
    out.write('; }\n')
