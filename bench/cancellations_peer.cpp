// What cancellations of single files cost a plain C++ program: rows with their texts on the heap, and the files that wait in a std::set in the
// order of queue, priority and number, without counts. The jobs, links, activities, priorities and orders are those of crates/benches.
// "rows alone" looks the row's link, activity and priority up and changes the row, and takes nothing out of the set.
// Where Abseil is there (Debian's libabsl-dev), its B-tree is a third side, absl::btree_set.
// Build and run: g++ -O2 -std=c++17 -o /tmp/cancellations_peer bench/cancellations_peer.cpp && /tmp/cancellations_peer
#include <algorithm>
#include <chrono>
#include <cstdint>
#include <cstdio>
#include <set>
#include <string>
#include <tuple>
#include <vector>
#if __has_include("absl/container/btree_set.h")
#include "absl/container/btree_set.h"
#define HAS_ABSEIL 1
#endif

using Waiter = std::tuple<uint16_t, uint16_t, uint16_t, int64_t, uint32_t>;

struct Row {
    std::string source, source_path, dest, dest_path, activity;
    uint32_t job, priority, state;
    uint64_t not_before, size, attempt, finished;
};

constexpr uint32_t FILES = 200;
constexpr int ROUNDS = 5;
static const char *const ACTIVITIES[] = {"default", "urgent", "bulk", "default"};

// A text that lies on the heap, as those of a desk's rows do.
static std::string on_heap(std::string text) {
    text.reserve(32);
    return text;
}

static uint16_t place(const std::vector<std::string> &names, const std::string &name) {
    return uint16_t(std::find(names.begin(), names.end(), name) - names.begin());
}

template <typename Set> struct Desk {
    std::vector<std::string> ends, activities;
    std::vector<Row> rows;
    Set waiting;

    explicit Desk(uint32_t jobs) : activities{"default", "urgent", "bulk"} {
        for (const char *side : {"https://s", "https://d"})
            for (int end = 0; end < 4; end++) ends.push_back(side + std::to_string(end));
        for (uint32_t file = 0; file < jobs * FILES; file++) {
            uint32_t job = file / FILES, index = file % FILES, link = index % 16;
            std::string path = "data/" + std::to_string(job) + "/" + std::to_string(index);
            rows.push_back({on_heap("https://s" + std::to_string(link % 4)), on_heap(path),
                            on_heap("https://d" + std::to_string(link / 4)), on_heap(path),
                            on_heap(ACTIVITIES[index / 16 % 4]), job, 1 + job % 5, 0, 0, 0, 0, 0});
            waiting.insert(waiter(file));
        }
    }

    Waiter waiter(uint32_t file) const {
        const Row &row = rows[file];
        return {place(ends, row.source), place(ends, row.dest), place(activities, row.activity), -int64_t(row.priority), file};
    }

    void cancel(uint32_t file, bool takes_out) {
        Waiter found = waiter(file);
        if (takes_out) waiting.erase(found);
        rows[file].state = 4 + std::get<0>(found) + std::get<1>(found) + std::get<2>(found);
    }
};

static double nanoseconds() {
    return double(std::chrono::steady_clock::now().time_since_epoch().count());
}

// The file that is cancelled in a turn: every second one, anywhere, or the first fifty of ten jobs.
static uint32_t file_of(int order, uint32_t files, uint32_t turn) {
    if (order == 0) return turn * 2 % files;
    if (order == 1) return uint32_t(uint64_t(turn) * 7919 % files);
    return turn % 10 * FILES + turn / 10;
}

template <typename Set> static double measured(int order, bool takes_out, uint32_t jobs) {
    Desk<Set> desk(jobs);
    uint32_t count = order == 2 ? 500 : jobs * FILES / 2;
    double spent = 0;
    for (uint32_t turn = 0; turn < count; turn++) {
        double begun = nanoseconds();
        desk.cancel(file_of(order, jobs * FILES, turn), takes_out);
        spent += nanoseconds() - begun;
    }
    return spent / count / 1000;
}

template <typename Set> static void print_times(const char *side, int order, bool takes_out) {
    static const char *const names[] = {"every second file in turn", "half of the files anywhere", "the first 500"};
    static const uint32_t jobs[] = {10, 100, 1000};
    double least[3] = {1e9, 1e9, 1e9};
    for (int round = 0; round < ROUNDS; round++)
        for (int size = 0; size < 3; size++) least[size] = std::min(least[size], measured<Set>(order, takes_out, jobs[size]));
    printf("%s, %s: %.2f, %.2f, %.2f us at 2,000, 20,000, 200,000; ratio %.2f\n", side, names[order],
           least[0], least[1], least[2], least[2] / least[0]);
}

int main() {
    for (int order = 0; order < 3; order++) {
        print_times<std::set<Waiter>>("rows alone", order, false);
        print_times<std::set<Waiter>>("std::set", order, true);
#ifdef HAS_ABSEIL
        print_times<absl::btree_set<Waiter>>("absl::btree_set", order, true);
#endif
    }
}
