// frames FILE ADDRESS..: the functions at addresses of a file, in C++.
#include <cstdlib>
#include <iostream>
#include <string>
#include <vector>

#include "a2l.h"
#include "a2l_file.h"

struct Handle : a2l {
    Handle() : a2l{} {}
    ~Handle() { a2l_close(this); }
    Handle(const Handle &) = delete;
};

int main(int count, char **words) {
    a2l_file file{};
    if (count < 2 || !a2l_file_map(words[1], &file)) return 2;
    Handle handle;
    a2l_refusal refusal{};
    if (a2l_open(file.bytes, file.length, 1024, &handle, &refusal) != A2L_DONE) return 2;
    std::vector<std::uint64_t> addresses(1);
    for (int i = 2; i < count; i++) addresses.insert(addresses.end() - 1, std::strtoull(words[i], nullptr, 16));
    if (a2l_find_frames(&handle, addresses.data(), addresses.size() - 1) != A2L_DONE) return 3;
    for (std::size_t i = 0; i + 1 < addresses.size(); i++) {
        a2l_frame frame{};
        char path[4096];
        for (std::size_t j = 0; a2l_frame_at(&handle, i, j, path, sizeof path, &frame) == A2L_DONE; j++)
            std::cout << std::string(frame.name, frame.name_length) << " at "
                      << std::string(path, frame.location.path_length) << ":" << frame.location.line << "\n";
    }
}
