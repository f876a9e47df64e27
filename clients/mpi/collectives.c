/* Collective calls, as messages between two processes each: so they are noted as all others are,
 * what is in transit in them at the recovery line is sent again, and a process that is past one may
 * leave the others to finish it. They go over the hidden copy of their communicator, on which there
 * are no other messages, and whose order is that of the calls. MPI's own algorithms for them are
 * not used. Reductions combine in the order of the ranks, so that their result has the same bits in
 * each run.
 */
#include "rounds.h"

#include <stdlib.h>

int MPI_Barrier(MPI_Comm comm)
{
    struct rl_round round = rl_begin_round(comm);
    for (int step = 1; step < round.size; step *= 2) {
        rl_give(&round, NULL, 0, MPI_BYTE, (round.rank + step) % round.size);
        rl_take(&round, NULL, 0, MPI_BYTE, (round.rank - step + round.size) % round.size);
    }
    return rl_end_round(&round);
}

/* Down a binomial tree, from its root. */
void rl_spread(struct rl_round *round, void *data, int count, MPI_Datatype type, int root)
{
    int own = (round->rank - root + round->size) % round->size, step = 1;
    while (step < round->size && !(own & step))
        step *= 2;
    if (own)
        rl_take(round, data, count, type, (own - step + root) % round->size);
    for (step /= 2; step; step /= 2)
        if (own + step < round->size)
            rl_give(round, data, count, type, (own + step + root) % round->size);
}

int MPI_Bcast(void *data, int count, MPI_Datatype type, int root, MPI_Comm comm)
{
    struct rl_round round = rl_begin_round(comm);
    rl_spread(&round, data, count, type, root);
    return rl_end_round(&round);
}

/* Up a binomial tree to rank 0: each combines its own part with that of the ranks after it. */
static void combine(struct rl_round *round, const void *data, void *into, int count,
                    MPI_Datatype type, MPI_Op op)
{
    struct rl_buffer own = rl_buffer_for(count, type), other = rl_buffer_for(count, type);
    rl_add_result(round, rl_copy(data, count, type, own.data, count, type));
    for (int step = 1; step < round->size; step *= 2) {
        if (round->rank & step) {
            rl_give(round, own.data, count, type, round->rank - step);
            break;
        }
        if (round->rank + step < round->size) {
            rl_take(round, other.data, count, type, round->rank + step);
            PMPI_Reduce_local(own.data, other.data, count, type, op);
            struct rl_buffer both = other;
            other = own;
            own = both;
        }
    }
    if (!round->rank)
        rl_add_result(round, rl_copy(own.data, count, type, into, count, type));
    free(own.room);
    free(other.room);
}

int MPI_Reduce(const void *data, void *into, int count, MPI_Datatype type, MPI_Op op, int root,
               MPI_Comm comm)
{
    struct rl_round round = rl_begin_round(comm);
    struct rl_buffer all = {NULL, NULL};
    data = data == MPI_IN_PLACE ? into : data;
    if (!round.rank)
        all = rl_buffer_for(count, type);
    combine(&round, data, all.data, count, type, op);
    if (!round.rank && root)
        rl_give(&round, all.data, count, type, root);
    else if (!round.rank)
        rl_add_result(&round, rl_copy(all.data, count, type, into, count, type));
    else if (round.rank == root)
        rl_take(&round, into, count, type, 0);
    free(all.room);
    return rl_end_round(&round);
}

int MPI_Allreduce(const void *data, void *into, int count, MPI_Datatype type, MPI_Op op,
                  MPI_Comm comm)
{
    struct rl_round round = rl_begin_round(comm);
    combine(&round, data == MPI_IN_PLACE ? into : data, into, count, type, op);
    rl_spread(&round, into, count, type, 0);
    return rl_end_round(&round);
}

/* Along the ranks: this one takes what those before it come to, combines all with its own part, and
 * gives it on.
 */
static void pass_on(struct rl_round *round, void *before, void *all, int count, MPI_Datatype type,
                    MPI_Op op)
{
    if (round->rank) {
        rl_take(round, before, count, type, round->rank - 1);
        PMPI_Reduce_local(before, all, count, type, op);
    }
    if (round->rank + 1 < round->size)
        rl_give(round, all, count, type, round->rank + 1);
}

int MPI_Scan(const void *data, void *into, int count, MPI_Datatype type, MPI_Op op, MPI_Comm comm)
{
    struct rl_round round = rl_begin_round(comm);
    struct rl_buffer before = rl_buffer_for(count, type);
    if (data != MPI_IN_PLACE)
        rl_add_result(&round, rl_copy(data, count, type, into, count, type));
    pass_on(&round, before.data, into, count, type, op);
    free(before.room);
    return rl_end_round(&round);
}

int MPI_Exscan(const void *data, void *into, int count, MPI_Datatype type, MPI_Op op,
               MPI_Comm comm)
{
    struct rl_round round = rl_begin_round(comm);
    struct rl_buffer before = rl_buffer_for(count, type), all = rl_buffer_for(count, type);
    data = data == MPI_IN_PLACE ? into : data;
    rl_add_result(&round, rl_copy(data, count, type, all.data, count, type));
    pass_on(&round, before.data, all.data, count, type, op);
    if (round.rank)
        rl_add_result(&round, rl_copy(before.data, count, type, into, count, type));
    free(before.room);
    free(all.room);
    return rl_end_round(&round);
}
