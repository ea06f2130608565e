// Every function of the header from C++: each is called, and what it answers is used by the next. The expected answers are
// the manual's, for a fresh table of three processes and COME and GO of process 1.
#include "layout.h"
#include "check.h"

#include <algorithm>
#include <array>
#include <string>
#include <vector>

namespace {

using Table = std::array<zaguypo_row, 3>;
using Image = std::array<uint32_t, ZAGUYPO_IMAGE_WORDS(3)>;

struct Words {
    uint32_t come, go;
};

// together, apart
Words put_together() {
    const zaguypo_word come = zaguypo_together(2, 1, 0), go = zaguypo_together(4, 1, 0);
    check("together", come.refusal == 0 && come.word == 0x20010000 && go.word == 0x40010000);
    const zaguypo_parts parts = zaguypo_apart(go.word);
    check("apart", parts.refusal == 0 && parts.kind == 4 && parts.process == 1 && parts.argument == 0);
    return {come.word, go.word};
}

// fresh, step, run_rows, census, rounds
void step_rows(const Words &words) {
    Table rows{};
    check("fresh", zaguypo_fresh(rows.data(), rows.size()) == 0 && rows[0].location == 10 && rows[2].location == 10);
    const zaguypo_stepped stepped =
        zaguypo_step(rows.data(), rows.size(), words.come, ZAGUYPO_ACT_SAFE, ZAGUYPO_TURN_WRITE_SAFE);
    check("step", stepped.refusal == 0 && rows[1].location == 20);
    check("step, no cell", stepped.cell.access == 0 && stepped.cell.variable == 0 && stepped.cell.index == 0);
    zaguypo_tally tally{};
    const zaguypo_ran ran =
        zaguypo_run_rows(rows.data(), rows.size(), &words.go, 1, &tally, ZAGUYPO_ACT_SAFE, ZAGUYPO_TURN_WRITE_SAFE);
    check("run_rows", ran.taken == 1 && ran.refusal == 0 && rows[1].location == 21 && rows[1].est == 5);
    check("run_rows, act of 1 written", ran.cell.access == 2 && ran.cell.variable == 1 && ran.cell.index == 1);
    check("tally", tally.words == 1 && tally.comes == 0 && tally.arrivals == 0);
    const zaguypo_figures figures = zaguypo_census(rows.data(), rows.size());
    check("census", figures.refusal == 0 && figures.critical == 0 && figures.waiting == 1);
    check("census at k", figures.below[2] == 0 && figures.below[3] == 1 && figures.held[0] == 0 && figures.held[1] == 1);
    const zaguypo_rounded rounded = zaguypo_rounds(rows.data(), rows.size());
    check("rounds", rounded.refusal == 0 && rounded.rounds == 6 && rounded.occupied == 1 && rows[1].location == 30);
    const zaguypo_rounded again = zaguypo_rounds(rows.data(), rows.size());
    check("no more rounds", again.refusal == 0 && again.rounds == 0 && again.occupied == 1 && rows[1].location == 30);
}

// passes of processes 2 and 0 over those that compete, and 15
void count_passes(const Words &words) {
    Table rows{};
    zaguypo_fresh(rows.data(), rows.size());
    for (uint32_t word : {words.come, words.go, words.come + 0x10000, words.go + 0x10000})
        check("accepted",
              zaguypo_step(rows.data(), rows.size(), word, ZAGUYPO_ACT_SAFE, ZAGUYPO_TURN_WRITE_SAFE).refusal == 0);
    check("passes", rows[2].passes[1] == 1 && rows[2].passes[0] == 0 && rows[1].passes[2] == 0);
    rows[0].location = 20, rows[0].passes[2] = 65535;
    const zaguypo_stepped stepped =
        zaguypo_step(rows.data(), rows.size(), words.go - 0x10000, ZAGUYPO_ACT_SAFE, ZAGUYPO_TURN_WRITE_SAFE);
    check("15", stepped.refusal == 15 && stepped.cell.access == 0);
    check("15, rows", rows[0].location == 20 && rows[0].passes[1] == 0 && rows[0].passes[2] == 65535);
}

// step and run_rows under settings: FLICKER at 20 and 16; GO from 23 beside another process at 24 and 17; 18
void choose_settings(const Words &words) {
    Table rows{};
    zaguypo_fresh(rows.data(), rows.size());
    rows[1].location = 20;
    const uint32_t flicker = zaguypo_together(3, 1, 1).word;
    check("16", zaguypo_step(rows.data(), rows.size(), flicker, ZAGUYPO_ACT_PLAIN, ZAGUYPO_TURN_WRITE_SAFE).refusal == 16);
    check("16, rows", rows[1].location == 20 && rows[1].act == 0);
    check("FLICKER", zaguypo_step(rows.data(), rows.size(), flicker, ZAGUYPO_ACT_SAFE, ZAGUYPO_TURN_PLAIN).refusal == 0);
    check("FLICKER, rows", rows[1].location == 20 && rows[1].act == 1);

    rows[0].location = 24, rows[0].level = 2;
    rows[1].location = 23, rows[1].level = 2, rows[1].est = 5;
    const auto run = [&](uint32_t act, uint32_t turn, uint32_t refusal, unsigned location) {
        zaguypo_tally tally{9, 9, 9};
        const zaguypo_ran ran = zaguypo_run_rows(rows.data(), rows.size(), &words.go, 1, &tally, act, turn);
        const uint32_t taken = refusal == 0;
        check("run_rows under settings", ran.refusal == refusal && ran.taken == taken && rows[1].location == location);
        check("its tally", tally.words == taken && tally.comes == 0 && tally.arrivals == 0);
    };
    run(2, ZAGUYPO_TURN_ONE_WRITER, 18, 23);
    run(ZAGUYPO_ACT_PLAIN, 3, 18, 23);
    run(ZAGUYPO_ACT_PLAIN, ZAGUYPO_TURN_ONE_WRITER, 17, 23);
    run(ZAGUYPO_ACT_PLAIN, ZAGUYPO_TURN_PLAIN, 0, 24);
}

// write, read
Image images() {
    Table rows{}, again{};
    Image image{};
    zaguypo_fresh(rows.data(), rows.size());
    check("write", zaguypo_write(rows.data(), rows.size(), image.data(), image.size()) == 0);
    check("image", image[0] == 0x81000003 && image[5] == 0x90010000 && image[14] == 0xD0020000 && image[23] == 0xE2020000);
    const zaguypo_reading reading = zaguypo_read(image.data(), image.size(), again.data(), again.size());
    check("read", reading.refusal == 0 && reading.place == 0 && reading.size == 3 && again[2].location == 10);
    return image;
}

// run, print
void run_bytes(const Image &image, const Words &words) {
    std::vector<uint32_t> all(image.begin(), image.end());
    all.insert(all.end(), {words.come, words.go});
    std::vector<uint8_t> input, after(ZAGUYPO_IMAGE_BYTES(3), 0xA5);
    for (uint32_t word : all)
        for (int shift = 0; shift < 32; shift += 8) input.push_back(static_cast<uint8_t>(word >> shift));
    const auto run = [&](uint32_t act, uint32_t turn) {
        return zaguypo_run(input.data(), input.size(), after.data(), after.size(), act, turn);
    };
    check("run, 18", run(ZAGUYPO_ACT_SAFE, 3) == 18 && run(2, ZAGUYPO_TURN_PLAIN) == 18);
    check("run, 18, image", std::count(after.begin(), after.end(), 0xA5) == ZAGUYPO_IMAGE_BYTES(3));
    check("run", run(ZAGUYPO_ACT_SAFE, ZAGUYPO_TURN_WRITE_SAFE) == 2 * 256);
    const std::vector<uint8_t> moved{0x02, 0x22, 0x01, 0x90};
    check("run, process 1 at 21, act 1, level 2", std::equal(moved.begin(), moved.end(), after.begin() + 20));
    std::string text(zaguypo_print(input.data(), input.size(), nullptr, 0), ' ');
    zaguypo_print(input.data(), input.size(), text.data(), text.size());
    check("print", text == "posts 3\n0 1 10 20 0 -\n1 1 20 21 0 wa1\ndone 2\n");
}

} // namespace

int main() {
    const Words words = put_together();
    step_rows(words);
    count_passes(words);
    choose_settings(words);
    run_bytes(images(), words);
    return done("every.cc");
}
