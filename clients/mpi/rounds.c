/* What collective calls are made of: messages between two members each, on the hidden copy of the
 * communicator, and memory for elements.
 */
#include "rounds.h"

#include <stdlib.h>
#include <string.h>

enum { TAG = 0 };

struct rl_round rl_begin_round(MPI_Comm comm)
{
    const struct rl_community *community = rl_community_of(comm);
    return (struct rl_round){community->hidden, community->rank, community->size, MPI_SUCCESS, 0,
                             0, NULL};
}

/* A part of the call has ended so: the first error is that of the call. */
void rl_add_result(struct rl_round *round, int result)
{
    if (round->result == MPI_SUCCESS)
        round->result = result;
}

int rl_end_round(struct rl_round *round)
{
    int ended = MPI_SUCCESS;
    if (round->waiting)
        ended = PMPI_Waitall(round->waiting, round->requests, MPI_STATUSES_IGNORE);
    free(round->requests);
    return round->result == MPI_SUCCESS ? ended : round->result;
}

/* Sends to a member, and does not wait. */
void rl_give(struct rl_round *round, const void *data, int count, MPI_Datatype type, int to)
{
    if (round->waiting == round->room) {
        round->room = round->room ? 2 * round->room : 32;
        round->requests = realloc(round->requests, (size_t)round->room * sizeof *round->requests);
        if (!round->requests)
            rl_die("out of memory");
    }
    MPI_Request *request = &round->requests[round->waiting];
    struct rl_way way = {to, TAG, round->comm};
    int result = rl_post(data, count, type, way, request);
    if (result == MPI_SUCCESS)
        round->waiting++;
    rl_add_result(round, result);
}

/* Receives from a member. */
void rl_take(struct rl_round *round, void *data, int count, MPI_Datatype type, int from)
{
    rl_add_result(round, MPI_Recv(data, count, type, from, TAG, round->comm, MPI_STATUS_IGNORE));
}

/* From memory to memory of this process, which is no message. */
int rl_copy(const void *data, int count, MPI_Datatype type, void *into, int into_count,
            MPI_Datatype into_type)
{
    return PMPI_Sendrecv(data, count, type, 0, TAG, into, into_count, into_type, 0, TAG,
                         MPI_COMM_SELF, MPI_STATUS_IGNORE);
}

/* A place in an array of elements. */
void *rl_at(const void *data, MPI_Aint elements, MPI_Datatype type)
{
    MPI_Aint least, extent;
    PMPI_Type_get_extent(type, &least, &extent);
    return (char *)(uintptr_t)data + elements * extent;
}

struct rl_buffer rl_buffer_for(int count, MPI_Datatype type)
{
    MPI_Aint least, extent, true_least, true_extent;
    PMPI_Type_get_extent(type, &least, &extent);
    PMPI_Type_get_true_extent(type, &true_least, &true_extent);
    size_t more = count > 1 ? (size_t)(extent < 0 ? -extent : extent) * (size_t)(count - 1) : 0;
    char *room = rl_room((size_t)true_extent + more);
    MPI_Aint first = extent < 0 ? (MPI_Aint)more - true_least : -true_least;
    return (struct rl_buffer){room, room + first};
}
