/* Payload is let go at a checkpoint, as far as the keep file of the rank says. It runs on one rank,
 * and writes that file itself, as recline_mpirun.py does.
 */
#define _GNU_SOURCE
#include "recline_mpi.h"

#include <fcntl.h>
#include <mpi.h>
#include <stdint.h>
#include <stdio.h>
#include <stdlib.h>
#include <sys/stat.h>
#include <unistd.h>

enum { MESSAGES = 16, LENGTH = 1 << 20 };

/* The blocks of the payload file, in bytes. */
static long blocks(const char *folder)
{
    char path[4096];
    struct stat about;
    snprintf(path, sizeof path, "%s/payload.0.0", folder);
    return stat(path, &about) ? -1 : (long)about.st_blocks * 512;
}

int main(int count, char **words)
{
    char path[4096], *data = calloc(1, LENGTH);
    const char *folder = getenv("RECLINE_DIR");
    uint64_t half = (uint64_t)MESSAGES / 2 * LENGTH;
    MPI_Init(&count, &words);
    for (int i = 0; i < MESSAGES; i++)
        MPI_Sendrecv_replace(data, LENGTH, MPI_BYTE, 0, 0, 0, 0, MPI_COMM_WORLD, MPI_STATUS_IGNORE);
    snprintf(path, sizeof path, "%s/keep.0.0", folder);
    int file = open(path, O_WRONLY);
    long before = blocks(folder);
    if (file < 0 || pwrite(file, &half, sizeof half, 0) != sizeof half
        || recline_checkpoint("nowhere"))
        MPI_Abort(MPI_COMM_WORLD, 1);
    long after = blocks(folder);
    if (before < (long)MESSAGES * LENGTH || after > before - (long)half + 65536) {
        fprintf(stderr, "let_go: the payload file has %ld bytes before and %ld after\n", before,
                after);
        MPI_Abort(MPI_COMM_WORLD, 1);
    }
    free(data);
    MPI_Finalize();
    return 0;
}
