// What a disk does with commits: COUNT times BYTES are written into a file that is there already, one write behind the
// other and from its begin again, each waited for by fdatasync. Prints the writes a second.
// usage: overwrite FILE BYTES COUNT
#include <chrono>
#include <cstdio>
#include <cstdlib>
#include <fcntl.h>
#include <string>
#include <unistd.h>

// the bytes of the file: more than a checkpoint lets the trail's log grow to
constexpr long SIZE = 8 << 20;

static void demand(bool is_so, const char *what) {
    if (is_so) return;
    perror(what);
    exit(1);
}

int main(int count, char **words) {
    if (count != 4) {
        fprintf(stderr, "overwrite FILE BYTES COUNT\n");
        return 2;
    }
    long bytes = atol(words[2]), writes = atol(words[3]);
    int file = open(words[1], O_RDWR | O_CREAT | O_TRUNC, 0600);
    demand(file >= 0, words[1]);
    std::string all(SIZE, 'x');
    demand(write(file, all.data(), SIZE) == SIZE && fsync(file) == 0, words[1]);
    auto begun = std::chrono::steady_clock::now();
    for (long k = 0, at = 0; k < writes; k++, at = at + 2 * bytes > SIZE ? 0 : at + bytes) {
        all[k % bytes]++;
        demand(pwrite(file, all.data(), bytes, at) == bytes && fdatasync(file) == 0, words[1]);
    }
    std::chrono::duration<double> took = std::chrono::steady_clock::now() - begun;
    printf("writes %ld per_second %.0f\n", writes, writes / took.count());
    return 0;
}
