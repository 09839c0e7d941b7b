// Standard input in blocks of whole lines, and standard output in their order.
#pragma once
#include <atomic>
#include <condition_variable>
#include <mutex>
#include "bytes.hpp"

constexpr size_t BLOCK = 1 << 18;

struct Block {
    Bytes bytes;
    size_t place = 0;
    uint64_t before = 0; // lines before it
};

class Ends {
    std::mutex in, out;
    std::condition_variable turned;
    Bytes rest;
    size_t places = 0;
    uint64_t lines = 0;
    std::atomic<size_t> turn{0};
    bool ended = false;

    static void write_all(Bytes &bytes) {
        for (size_t at = 0; at < bytes.len;) {
            ssize_t n = write(1, bytes.data + at, bytes.len - at);
            if (n <= 0) stop(4, "write");
            at += n;
        }
        bytes.len = 0;
    }

  public:
    bool take(Block &block) {
        std::lock_guard<std::mutex> held(in);
        if (ended) return false;
        Bytes &b = block.bytes;
        std::swap(b, rest);
        rest.len = 0;
        size_t cut = 0;
        while (!cut && !ended) {
            ssize_t n = read(0, b.room(std::max(BLOCK, b.len)), std::max(BLOCK, b.len));
            if (n < 0) stop(4, "read");
            ended = n == 0;
            if (const void *lf = memrchr(b.data + b.len, '\n', n)) cut = (const char *)lf + 1 - b.data;
            b.len += n;
        }
        if (!cut) cut = b.len;
        rest.put(string_view(b.data + cut, b.len - cut));
        b.len = cut;
        block.place = places++;
        block.before = lines;
        lines += count_lines(b.data, b.len);
        return true;
    }

    // Writes what is there of a block's answer, where its turn has come.
    void flush(const Block &block, Bytes &bytes) {
        if (turn.load(std::memory_order_acquire) == block.place) write_all(bytes);
    }

    // Waits for the block's turn, and writes the rest of its answer.
    void give(const Block &block, Bytes &bytes, bool good) {
        std::unique_lock<std::mutex> held(out);
        turned.wait(held, [&] { return turn == block.place; });
        write_all(bytes);
        if (!good) stop(3, "a line is no document");
        turn++;
        turned.notify_all();
    }
};
