/* The collective calls that gather and scatter: each part is a message from the one that has it to
 * the one that gets it.
 */
#include "rounds.h"

#include <stdlib.h>

/* Where the parts of all members stand in an array, of which each may have its own length. */
struct parts {
    void *data;
    int count;           /* of each part, where they are alike */
    const int *counts;   /* else of each one */
    const int *places;   /* and where it begins, in elements */
    MPI_Datatype type;
};

static int count_of(const struct parts *parts, int member)
{
    return parts->counts ? parts->counts[member] : parts->count;
}

static void *place_of(const struct parts *parts, int member)
{
    MPI_Aint place = parts->places ? parts->places[member] : (MPI_Aint)member * parts->count;
    return rl_at(parts->data, place, parts->type);
}

/* All parts of an array come from their members. */
static void gather(struct rl_round *round, const void *own, int count, MPI_Datatype type,
                   const struct parts *parts, int root)
{
    if (round->rank != root) {
        rl_give(round, own, count, type, root);
        return;
    }
    for (int i = 0; i < round->size; i++)
        if (i != root)
            rl_take(round, place_of(parts, i), count_of(parts, i), parts->type, i);
    if (own != MPI_IN_PLACE)
        rl_add_result(round, rl_copy(own, count, type, place_of(parts, root),
                                     count_of(parts, root), parts->type));
}

/* All parts of an array go to their members. */
static void scatter(struct rl_round *round, const struct parts *parts, void *own, int count,
                    MPI_Datatype type, int root)
{
    if (round->rank != root) {
        rl_take(round, own, count, type, root);
        return;
    }
    for (int i = 0; i < round->size; i++)
        if (i != root)
            rl_give(round, place_of(parts, i), count_of(parts, i), parts->type, i);
    if (own != MPI_IN_PLACE)
        rl_add_result(round, rl_copy(place_of(parts, root), count_of(parts, root), parts->type, own,
                                     count, type));
}

int MPI_Gather(const void *data, int count, MPI_Datatype type, void *into, int into_count,
               MPI_Datatype into_type, int root, MPI_Comm comm)
{
    struct rl_round round = rl_begin_round(comm);
    struct parts parts = {into, into_count, NULL, NULL, into_type};
    gather(&round, data, count, type, &parts, root);
    return rl_end_round(&round);
}

int MPI_Gatherv(const void *data, int count, MPI_Datatype type, void *into, const int counts[],
                const int places[], MPI_Datatype into_type, int root, MPI_Comm comm)
{
    struct rl_round round = rl_begin_round(comm);
    struct parts parts = {into, 0, counts, places, into_type};
    gather(&round, data, count, type, &parts, root);
    return rl_end_round(&round);
}

int MPI_Scatter(const void *data, int count, MPI_Datatype type, void *into, int into_count,
                MPI_Datatype into_type, int root, MPI_Comm comm)
{
    struct rl_round round = rl_begin_round(comm);
    struct parts parts = {(void *)(uintptr_t)data, count, NULL, NULL, type};
    scatter(&round, &parts, into, into_count, into_type, root);
    return rl_end_round(&round);
}

int MPI_Scatterv(const void *data, const int counts[], const int places[], MPI_Datatype type,
                 void *into, int into_count, MPI_Datatype into_type, int root, MPI_Comm comm)
{
    struct rl_round round = rl_begin_round(comm);
    struct parts parts = {(void *)(uintptr_t)data, 0, counts, places, type};
    scatter(&round, &parts, into, into_count, into_type, root);
    return rl_end_round(&round);
}

/* Each member's part goes to rank 0, and all parts from there to all. */
static int gather_to_all(const void *data, int count, MPI_Datatype type, const struct parts *parts,
                         MPI_Comm comm)
{
    struct rl_round round = rl_begin_round(comm);
    if (data == MPI_IN_PLACE && round.rank) {
        data = place_of(parts, round.rank);
        count = count_of(parts, round.rank);
        type = parts->type;
    }
    gather(&round, data, count, type, parts, 0);
    for (int i = 0; i < round.size; i++)
        rl_spread(&round, place_of(parts, i), count_of(parts, i), parts->type, 0);
    return rl_end_round(&round);
}

int MPI_Allgatherv(const void *data, int count, MPI_Datatype type, void *into, const int counts[],
                   const int places[], MPI_Datatype into_type, MPI_Comm comm)
{
    struct parts parts = {into, 0, counts, places, into_type};
    return gather_to_all(data, count, type, &parts, comm);
}

int MPI_Allgather(const void *data, int count, MPI_Datatype type, void *into, int into_count,
                  MPI_Datatype into_type, MPI_Comm comm)
{
    struct parts parts = {into, into_count, NULL, NULL, into_type};
    return gather_to_all(data, count, type, &parts, comm);
}

/* Each member sends each its part. What is in place is sent before it is written over: sent is what
 * the payload file has.
 */
static int exchange(const struct parts *from, const struct parts *into, MPI_Comm comm)
{
    struct rl_round round = rl_begin_round(comm);
    int is_in_place = from->data == MPI_IN_PLACE;
    const struct parts *sent = is_in_place ? into : from;
    for (int i = 1; i < round.size; i++) {
        int to = (round.rank + i) % round.size;
        rl_give(&round, place_of(sent, to), count_of(sent, to), sent->type, to);
    }
    for (int i = 1; i < round.size; i++) {
        int member = (round.rank - i + round.size) % round.size;
        rl_take(&round, place_of(into, member), count_of(into, member), into->type, member);
    }
    int own = round.rank;
    if (!is_in_place)
        rl_add_result(&round, rl_copy(place_of(from, own), count_of(from, own), from->type,
                                      place_of(into, own), count_of(into, own), into->type));
    return rl_end_round(&round);
}

int MPI_Alltoall(const void *data, int count, MPI_Datatype type, void *into, int into_count,
                 MPI_Datatype into_type, MPI_Comm comm)
{
    struct parts from = {(void *)(uintptr_t)data, count, NULL, NULL, type};
    struct parts to = {into, into_count, NULL, NULL, into_type};
    return exchange(&from, &to, comm);
}

int MPI_Alltoallv(const void *data, const int counts[], const int places[], MPI_Datatype type,
                  void *into, const int into_counts[], const int into_places[],
                  MPI_Datatype into_type, MPI_Comm comm)
{
    struct parts from = {(void *)(uintptr_t)data, 0, counts, places, type};
    struct parts to = {into, 0, into_counts, into_places, into_type};
    return exchange(&from, &to, comm);
}

/* A reduction, and each member gets its part of the result. */
static int reduce_to_parts(const void *data, void *into, struct parts parts, MPI_Op op,
                           MPI_Comm comm)
{
    const struct rl_community *community = rl_community_of(comm);
    int total = 0, own = count_of(&parts, community->rank);
    int *places = rl_room((size_t)community->size * sizeof *places);
    for (int i = 0; i < community->size; i++) {
        places[i] = total;
        total += count_of(&parts, i);
    }
    parts.places = places;
    struct rl_buffer all = rl_buffer_for(total, parts.type);
    int result = MPI_Reduce(data == MPI_IN_PLACE ? into : data, all.data, total, parts.type, op, 0,
                            comm);
    if (result == MPI_SUCCESS) {
        struct rl_round round = rl_begin_round(comm);
        parts.data = all.data;
        scatter(&round, &parts, into, own, parts.type, 0);
        result = rl_end_round(&round);
    }
    free(all.room);
    free(places);
    return result;
}

int MPI_Reduce_scatter_block(const void *data, void *into, int count, MPI_Datatype type, MPI_Op op,
                             MPI_Comm comm)
{
    struct parts parts = {NULL, count, NULL, NULL, type};
    return reduce_to_parts(data, into, parts, op, comm);
}

int MPI_Reduce_scatter(const void *data, void *into, const int counts[], MPI_Datatype type,
                       MPI_Op op, MPI_Comm comm)
{
    struct parts parts = {NULL, 0, counts, NULL, type};
    return reduce_to_parts(data, into, parts, op, comm);
}
