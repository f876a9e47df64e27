/* What collective calls are made of. */
#ifndef RECLINE_ROUNDS_H
#define RECLINE_ROUNDS_H

#include "internal.h"

/* A collective call that is under way: the first error, and sends that have not ended. */
struct rl_round {
    MPI_Comm comm; /* the hidden one */
    int rank, size, result, waiting, room;
    MPI_Request *requests;
};

/* Memory for elements of a type, and the place where the first one begins. */
struct rl_buffer {
    char *room;
    void *data;
};

struct rl_round rl_begin_round(MPI_Comm comm);
int rl_end_round(struct rl_round *round);
void rl_give(struct rl_round *round, const void *data, int count, MPI_Datatype type, int to);
void rl_take(struct rl_round *round, void *data, int count, MPI_Datatype type, int from);
void rl_add_result(struct rl_round *round, int result);
int rl_copy(const void *data, int count, MPI_Datatype type, void *into, int into_count,
            MPI_Datatype into_type);
void *rl_at(const void *data, MPI_Aint elements, MPI_Datatype type);
struct rl_buffer rl_buffer_for(int count, MPI_Datatype type);
void rl_spread(struct rl_round *round, void *data, int count, MPI_Datatype type, int root);

#endif
