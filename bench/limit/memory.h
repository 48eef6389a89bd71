// Memory that is freed all at once.
#pragma once

#include <cstddef>
#include <cstdio>
#include <cstdlib>
#include <vector>

namespace {

[[noreturn]] void fail(const char *message) {
    fprintf(stderr, "limit: %s\n", message);
    exit(9);
}

// Hands out pieces of large chunks. `clear` frees all pieces, and keeps the chunks for the next ones.
class Arena {
public:
    // The most bytes of one piece.
    static const size_t SIZE = 1 << 18;

    void *piece(size_t size) {
        size = (size + 7) & ~size_t(7);
        if (at >= chunks.size() || used + size > SIZE) next_chunk(size);
        void *found = chunks[at] + used;
        used += size;
        return found;
    }

    template <class T> T *many(size_t count) { return static_cast<T *>(piece(count * sizeof(T))); }

    void clear() { at = used = 0; }

private:
    std::vector<char *> chunks;
    size_t at = 0, used = 0;

    void next_chunk(size_t size) {
        if (size > SIZE) fail("a piece of memory is too large");
        if (at < chunks.size()) at++;
        if (at >= chunks.size()) chunks.push_back(static_cast<char *>(malloc(SIZE)));
        at = chunks.size() - 1;
        used = 0;
    }
};

// What lasts to the end of the running transaction, and what lasts for good.
Arena transaction_memory, lasting_memory;

}  // namespace
