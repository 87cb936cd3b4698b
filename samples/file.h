/* What the programs of this folder share: reading a file, and telling how a call ended. */
#ifndef SAMPLES_FILE_H
#define SAMPLES_FILE_H

#include "flipcut.h"

#include <inttypes.h>
#include <stdio.h>

/* Reads a file, and says why where it cannot. Room for one byte more than the longest that is taken will do: a file
 * that has that byte is refused, and for the same reason whatever else follows. */
static inline bool read_file(const char *name, uint8_t *room, size_t room_len, size_t *len) {
    FILE *f = fopen(name, "rb");
    if (f != NULL) *len = fread(room, 1, room_len, f);
    bool done = f != NULL && !ferror(f);
    if (!done) perror(name);
    if (f != NULL) fclose(f);
    return done;
}

/* Says so where a call refused. */
static inline bool refused(uint64_t packed) {
    if (!flipcut_refused(packed)) return false;
    printf("refused %u at %" PRIu64 "\n", flipcut_number(packed), flipcut_place(packed));
    return true;
}

/* What flipcut_score found; the program's status so far. */
static inline int tell_score(uint64_t scored) {
    if (refused(scored)) return 1;
    uint32_t raises = flipcut_raises(scored), lowers = flipcut_lowers(scored);
    printf("raises %" PRIu32 " lowers %" PRIu32 " score %" PRIu32 "\n", raises, lowers, raises + lowers);
    return 0;
}

/* The program's status at its end: a full disk is not noticed before what was printed leaves the buffer. */
static inline int ended(int status) {
    if (fflush(stdout) == 0 && !ferror(stdout)) return status;
    perror("standard output");
    return 1;
}

#endif
