#include "zaguypo.h"
#include <cstdio>
#include <vector>

int main() {
    std::vector<zaguypo_row> rows(2);
    zaguypo_fresh(rows.data(), rows.size());

    // COME and GO of process 0; then STAY, which only a resting process may do
    for (uint32_t kind : {2, 4, 1}) {
        const zaguypo_word event = zaguypo_together(kind, 0, 0);
        const zaguypo_stepped answer =
            zaguypo_step(rows.data(), rows.size(), event.word, ZAGUYPO_ACT_SAFE, ZAGUYPO_TURN_WRITE_SAFE);
        std::printf("word %08x: refusal %u, process 0 at %u\n", unsigned(event.word), unsigned(answer.refusal),
                    unsigned(rows[0].location));
    }

    const zaguypo_figures figures = zaguypo_census(rows.data(), rows.size());
    std::printf("at 30: %u, waiting: %u\n", unsigned(figures.critical), unsigned(figures.waiting));
}
