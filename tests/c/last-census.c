/* The census of the table after the run of standard input: its figures up to N. */
#include "last.h"

static void series(const char *name, const uint16_t *figures, size_t size) {
    printf(" %s", name);
    for (size_t k = 0; k <= size; k++) printf(" %u", figures[k]);
}

int main(void) {
    struct zaguypo_row rows[ZAGUYPO_MOST_PROCESSES];
    size_t size = last_table(rows);
    struct zaguypo_figures figures = zaguypo_census(rows, size);
    if (figures.refusal) return 1;
    printf("critical %u waiting %u", figures.critical, figures.waiting);
    series("below", figures.below, size);
    series("held", figures.held, size);
    printf("\n");
    return 0;
}
