/* Every function of the header from C but zaguypo_step and zaguypo_run_rows, which rows.c calls: on good and on refused
   arguments, each lent array between guards. Expected answers are written by hand from the manual and the header. call.c has
   more of zaguypo_run, settings.c of its settings. */
#include "layout.h"
#include "check.h"
#include "lend.h"

/* its parts, in order */
#include "every/tables.h"
#include "every/words.h"
#include "every/fresh.h"
#include "every/census.h"
#include "every/rounds.h"
#include "every/images.h"
#include "every/read.h"
#include "every/write.h"
#include "every/print.h"
#include "every/runs.h"

/* the version as text and as three numbers */
static void version(void) {
    char text[64];
    sprintf(text, "%d.%d.%d", ZAGUYPO_VERSION_MAJOR, ZAGUYPO_VERSION_MINOR, ZAGUYPO_VERSION_PATCH);
    check("version", strcmp(text, ZAGUYPO_VERSION) == 0);
}

int main(void) {
    version();
    words();
    fresh();
    census();
    rounds();
    read_images();
    write_images();
    print();
    runs();
    return done("every");
}
