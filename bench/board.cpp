// The steps of boards as plain atomic words: how many queues, how many packets in each, whether all complete on one signal (1) or on none (0), at
// most how many packets of each queue, and how many boards. All boards are made ahead, and a thread for each queue walks them. For bench/board.
#include <algorithm>
#include <atomic>
#include <cstdint>
#include <cstdlib>
#include <memory>
#include <thread>
#include <vector>

using Word = std::atomic<uint64_t>;
using Board = std::unique_ptr<Word[]>;

static void take(Word &queue, Word *signal, size_t packets) {
    for (size_t p = 0; p < packets; p++) {
        queue.fetch_add(1);  // launch
        queue.fetch_add(1);  // enter
        if (signal)
            signal->fetch_sub(1);  // complete
        else
            queue.fetch_add(1);
    }
}

static void walk(std::vector<Board> &boards, size_t queue, size_t signal, bool counted, size_t packets) {
    for (auto &board : boards) take(board[queue], counted ? &board[signal] : nullptr, packets);
}

int main(int count, char **words) {
    if (count != 6) return 1;
    size_t queues = strtoul(words[1], nullptr, 10), packets = strtoul(words[2], nullptr, 10), turns = strtoul(words[5], nullptr, 10);
    bool counted = strtoul(words[3], nullptr, 10);
    packets = std::min<size_t>(packets, strtoul(words[4], nullptr, 10));
    std::vector<Board> boards;
    for (size_t turn = 0; turn < turns; turn++) {
        boards.push_back(std::make_unique<Word[]>(queues + 1));
        boards.back()[queues] = queues * 1024;
    }
    std::vector<std::thread> threads;
    for (size_t q = 1; q < queues; q++) threads.emplace_back(walk, std::ref(boards), q, queues, counted, packets);
    walk(boards, 0, queues, counted, packets);
    for (auto &thread : threads) thread.join();
}
