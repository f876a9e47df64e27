/* recline_mpi: a library that is put before an MPI program by LD_PRELOAD. It notes what each rank
 * sends, receives and stores, as records of `recline collect`, and keeps the payload of messages;
 * after a failure it sends again what is in transit at the recovery line. README.md says how.
 *
 * This file begins and ends it. It wraps MPI's calls by their second names: MPI_Send is here, and
 * PMPI_Send is MPI's own.
 */
#include "recline_mpi.h"
#include "internal.h"

#include <stdarg.h>
#include <stdio.h>
#include <stdlib.h>
#include <string.h>

struct rl_self rl_self;

_Noreturn void rl_die(const char *form, ...)
{
    int is_begun = 0;
    char said[512];
    va_list values;
    va_start(values, form);
    vsnprintf(said, sizeof said, form, values);
    va_end(values);
    fprintf(stderr, "recline_mpi: rank %d: %s\n", rl_self.rank, said);
    PMPI_Initialized(&is_begun);
    if (is_begun)
        PMPI_Abort(MPI_COMM_WORLD, 3);
    _Exit(3);
}

void *rl_room(size_t bytes)
{
    void *room = malloc(bytes ? bytes : 1);
    if (!room)
        rl_die("out of memory");
    return room;
}

/* MPI is initialized: reads where the rank goes on, and opens its files. */
static void begin(void)
{
    const char *folder = getenv("RECLINE_DIR"), *resumes = getenv("RECLINE_RESUME");
    PMPI_Comm_rank(MPI_COMM_WORLD, &rl_self.rank);
    PMPI_Comm_size(MPI_COMM_WORLD, &rl_self.ranks);
    if (rl_self.ranks > RL_MOST_RANKS)
        rl_die("recline takes %d ranks at most", RL_MOST_RANKS);
    if (!folder || !*folder)
        folder = "recline-notes";
    if (resumes && *resumes)
        rl_read_resume(folder);
    rl_open_files(folder);
    rl_self.is_begun = 1;
    rl_open_communicators();
}

int MPI_Init(int *count, char ***words)
{
    int result = PMPI_Init(count, words);
    if (result == MPI_SUCCESS)
        begin();
    return result;
}

/* The notes of a rank have one order, so its threads call one at a time. */
int MPI_Init_thread(int *count, char ***words, int required, int *provided)
{
    int most = required < MPI_THREAD_SERIALIZED ? required : MPI_THREAD_SERIALIZED;
    int result = PMPI_Init_thread(count, words, most, provided);
    if (result == MPI_SUCCESS) {
        if (*provided > MPI_THREAD_SERIALIZED)
            *provided = MPI_THREAD_SERIALIZED;
        begin();
    }
    return result;
}

int MPI_Finalize(void)
{
    rl_look_for_unsent();
    rl_close_communicators();
    rl_close_files();
    rl_self.is_begun = 0;
    return PMPI_Finalize();
}

int recline_checkpoint(const char *path)
{
    if (!rl_self.is_begun || !path || strlen(path) > RL_MOST_PATH || strpbrk(path, "\n\r"))
        return -1;
    rl_note_checkpoint(path);
    rl_let_payload_go();
    return 0;
}

const char *recline_resume(void)
{
    return rl_resumed_path();
}
