/* Each call that the library wraps, beside what MPI's own call answers, or what must come of it. It
 * runs with the library and without it, on two ranks or more, and says which line is not as it must
 * be. With the word `free` it ends by a receive that is let go, which the library refuses.
 */
#include "recline_mpi.h"

#include <mpi.h>
#include <stdint.h>
#include <stdio.h>
#include <stdlib.h>
#include <string.h>

enum { MANY = 40, LONG = 300000 };
static int rank, ranks, next, before;
static MPI_Comm world, odd_even, ring;

#define MUST(condition) must(condition, #condition, __LINE__)
static void must(int is_so, const char *what, int line)
{
    if (is_so)
        return;
    fprintf(stderr, "calls.c:%d: rank %d: not so: %s\n", line, rank, what);
    MPI_Abort(MPI_COMM_WORLD, 1);
}

/* Whether a status says that so many elements came from that rank with that tag. */
static int says(const MPI_Status *status, int from, int tag, MPI_Datatype type, int elements)
{
    int count;
    MPI_Get_count(status, type, &count);
    return status->MPI_SOURCE == from && status->MPI_TAG == tag && count == elements;
}

static void plain_messages(void)
{
    int sent[3] = {rank, 7, -1}, got[5] = {0};
    MPI_Status status;
    if (rank % 2) {
        MPI_Recv(got, 5, MPI_INT, MPI_ANY_SOURCE, MPI_ANY_TAG, world, &status);
        MUST(says(&status, before, 5, MPI_INT, 3) && got[0] == before && got[2] == -1);
    } else if (next % 2) {
        MPI_Send(sent, 3, MPI_INT, next, 5, world);
    }
    MPI_Sendrecv(sent, 2, MPI_INT, next, 9, got, 5, MPI_INT, before, 9, world, &status);
    MUST(says(&status, before, 9, MPI_INT, 2) && got[0] == before);
    got[0] = rank;
    MPI_Sendrecv_replace(got, 1, MPI_INT, next, 1, before, 1, ring, MPI_STATUS_IGNORE);
    MUST(got[0] == before);
    MPI_Send(sent, 3, MPI_INT, MPI_PROC_NULL, 5, world);
    MPI_Recv(got, 3, MPI_INT, MPI_PROC_NULL, 5, world, &status);
    MUST(says(&status, MPI_PROC_NULL, MPI_ANY_TAG, MPI_INT, 0) && got[0] == before);
    MPI_Request request;
    MPI_Isend(sent, 0, MPI_INT, rank, 3, world, &request);
    MPI_Recv(NULL, 0, MPI_INT, rank, 3, world, &status);
    MUST(says(&status, rank, 3, MPI_INT, 0));
    MPI_Wait(&request, MPI_STATUS_IGNORE);
    MUST(request == MPI_REQUEST_NULL);
}

static void modes(void)
{
    int own[4] = {rank, rank, rank, rank}, got[4];
    MPI_Request requests[8];
    char *room = malloc(4096);
    for (int i = 0; i < 4; i++)
        MPI_Irecv(&got[i], 1, MPI_INT, before, i, world, &requests[i]);
    MPI_Barrier(world);
    MPI_Buffer_attach(room, 4096);
    MPI_Issend(&own[0], 1, MPI_INT, next, 0, world, &requests[4]);
    MPI_Ibsend(&own[1], 1, MPI_INT, next, 1, world, &requests[5]);
    MPI_Irsend(&own[2], 1, MPI_INT, next, 2, world, &requests[6]);
    MPI_Bsend(&own[3], 1, MPI_INT, next, 3, world);
    requests[7] = MPI_REQUEST_NULL;
    MPI_Waitall(8, requests, MPI_STATUSES_IGNORE);
    for (int i = 0; i < 4; i++)
        MUST(got[i] == before);
    MPI_Buffer_detach(&room, &(int){0});
    free(room);
    if (rank == 0)
        MPI_Ssend(own, 4, MPI_INT, next, 4, world);
    else if (rank == 1)
        MPI_Recv(got, 4, MPI_INT, 0, 4, world, MPI_STATUS_IGNORE);
}

static void looks(void)
{
    double sent[6] = {1, 2, 3, 4, 5, 6}, got[6];
    MPI_Request request;
    MPI_Status status;
    MPI_Message message;
    int is_there = 0, count;
    MPI_Isend(sent, 6, MPI_DOUBLE, next, 17, ring, &request);
    MPI_Probe(MPI_ANY_SOURCE, 17, ring, &status);
    MUST(says(&status, before, 17, MPI_DOUBLE, 6));
    while (!is_there)
        MPI_Iprobe(before, MPI_ANY_TAG, ring, &is_there, &status);
    MPI_Get_elements(&status, MPI_DOUBLE, &count);
    MUST(count == 6);
    MPI_Mprobe(before, 17, ring, &message, &status);
    MUST(says(&status, before, 17, MPI_DOUBLE, 6));
    MPI_Mrecv(got, 6, MPI_DOUBLE, &message, &status);
    MUST(says(&status, before, 17, MPI_DOUBLE, 6) && !memcmp(got, sent, sizeof got));
    MPI_Wait(&request, MPI_STATUS_IGNORE);
    MPI_Isend(sent, 3, MPI_DOUBLE, next, 18, ring, &request);
    for (is_there = 0; !is_there;)
        MPI_Improbe(before, 18, ring, &is_there, &message, &status);
    MPI_Request received;
    MPI_Imrecv(got, 6, MPI_DOUBLE, &message, &received);
    MPI_Wait(&received, &status);
    MUST(says(&status, before, 18, MPI_DOUBLE, 3));
    MPI_Wait(&request, MPI_STATUS_IGNORE);
}

/* Receives that end in another order than that of the posts, by each call that ends them. */
static void requests(void)
{
    static int sent[MANY], got[MANY];
    MPI_Request out[MANY], in[MANY];
    MPI_Status statuses[MANY];
    int is_done = 0, index, count, indices[MANY], seen = 0;
    for (int i = 0; i < MANY; i++)
        MPI_Irecv(&got[i], 1, MPI_INT, i % 3 ? before : MPI_ANY_SOURCE, i % 4, world, &in[i]);
    for (int i = 0; i < MANY; i++) {
        sent[i] = 1000 * rank + i;
        MPI_Isend(&sent[i], 1, MPI_INT, next, i % 4, world, &out[i]);
    }
    MPI_Wait(&in[MANY - 1], &statuses[0]);
    MUST(says(&statuses[0], before, (MANY - 1) % 4, MPI_INT, 1));
    while (!is_done)
        MPI_Test(&in[0], &is_done, &statuses[0]);
    for (is_done = 0; !is_done;)
        MPI_Request_get_status(in[1], &is_done, &statuses[0]);
    MUST(says(&statuses[0], before, 1, MPI_INT, 1));
    MPI_Waitany(MANY, in, &index, &statuses[0]);
    MUST(index != MPI_UNDEFINED && says(&statuses[0], before, index % 4, MPI_INT, 1));
    for (is_done = 0; !is_done;)
        MPI_Testany(MANY, in, &index, &is_done, &statuses[0]);
    MUST(says(&statuses[0], before, index % 4, MPI_INT, 1));
    MPI_Waitsome(MANY, in, &count, indices, statuses);
    MUST(count > 0 && says(&statuses[0], before, indices[0] % 4, MPI_INT, 1));
    for (is_done = 0; !is_done;) {
        MPI_Testsome(MANY / 2, in, &count, indices, statuses);
        is_done = count == MPI_UNDEFINED;
    }
    MPI_Waitall(MANY, in, MPI_STATUSES_IGNORE);
    for (is_done = 0; !is_done;)
        MPI_Testall(MANY, out, &is_done, statuses);
    for (int i = 0; i < MANY; i++)
        seen += got[i] == 1000 * before + i;
    MUST(seen == MANY);
    MPI_Irecv(got, 1, MPI_INT, before, 99, world, &in[0]);
    MPI_Cancel(&in[0]);
    MPI_Wait(&in[0], &statuses[0]);
    MPI_Test_cancelled(&statuses[0], &is_done);
    MUST(is_done);
}

/* A type with holes, an empty message, a long one, and a wildcard that does not take what is on
 * another communicator.
 */
static void shapes(void)
{
    int row[12], got[12], plain[4];
    MPI_Datatype third;
    MPI_Status status;
    MPI_Request request;
    MPI_Type_vector(4, 1, 3, MPI_INT, &third);
    MPI_Type_commit(&third);
    for (int i = 0; i < 12; i++)
        row[i] = 100 * rank + i, got[i] = -1;
    MPI_Sendrecv(row, 1, third, next, 0, got, 1, third, before, 0, world, &status);
    MUST(says(&status, before, 0, third, 1) && got[3] == 100 * before + 3 && got[4] == -1);
    MPI_Sendrecv(row, 1, third, next, 0, plain, 4, MPI_INT, before, 0, world, &status);
    MUST(says(&status, before, 0, MPI_INT, 4) && plain[3] == 100 * before + 9);
    MPI_Type_free(&third);
    int *many = malloc(LONG * sizeof *many), *others = malloc(LONG * sizeof *others);
    MUST(many && others);
    for (int i = 0; i < LONG; i++)
        many[i] = i ^ rank;
    MPI_Isend(many, LONG, MPI_INT, next, 2, ring, &request);
    MPI_Send(row, 1, MPI_INT, next, 2, world);
    MPI_Recv(got, 1, MPI_INT, MPI_ANY_SOURCE, MPI_ANY_TAG, world, &status);
    MUST(says(&status, before, 2, MPI_INT, 1));
    MPI_Recv(others, LONG, MPI_INT, MPI_ANY_SOURCE, MPI_ANY_TAG, ring, &status);
    MUST(says(&status, before, 2, MPI_INT, LONG) && others[LONG - 1] == ((LONG - 1) ^ before));
    MPI_Wait(&request, MPI_STATUS_IGNORE);
    free(many);
    free(others);
}

/* Collective calls, beside those of MPI itself. */

/* An operation that is associative and not commutative: the left one. */
static void left(void *in, void *inout, int *count, MPI_Datatype *type)
{
    (void)type;
    memcpy(inout, in, (size_t)*count * sizeof(int64_t));
}

static void reductions(MPI_Comm comm)
{
    int own, size;
    MPI_Comm_rank(comm, &own);
    MPI_Comm_size(comm, &size);
    int64_t data[3] = {own + 1, 2 * own, -own}, one[3], other[3];
    for (int root = 0; root < size; root++) {
        memset(one, 0, sizeof one), memset(other, 0, sizeof other);
        MPI_Reduce(data, one, 3, MPI_INT64_T, MPI_SUM, root, comm);
        PMPI_Reduce(data, other, 3, MPI_INT64_T, MPI_SUM, root, comm);
        MUST(!memcmp(one, other, sizeof one));
        memcpy(one, data, sizeof one);
        MPI_Reduce(own == root ? MPI_IN_PLACE : one, one, 3, MPI_INT64_T, MPI_SUM, root, comm);
        MUST(own != root || !memcmp(one, other, sizeof one));
        memcpy(one, data, sizeof one), memcpy(other, data, sizeof other);
        MPI_Bcast(one, 3, MPI_INT64_T, root, comm);
        PMPI_Bcast(other, 3, MPI_INT64_T, root, comm);
        MUST(!memcmp(one, other, sizeof one));
    }
    MPI_Allreduce(data, one, 3, MPI_INT64_T, MPI_MAX, comm);
    PMPI_Allreduce(data, other, 3, MPI_INT64_T, MPI_MAX, comm);
    MUST(!memcmp(one, other, sizeof one));
    memcpy(one, data, sizeof one);
    MPI_Allreduce(MPI_IN_PLACE, one, 3, MPI_INT64_T, MPI_MAX, comm);
    MUST(!memcmp(one, other, sizeof one));
    MPI_Scan(data, one, 3, MPI_INT64_T, MPI_SUM, comm);
    PMPI_Scan(data, other, 3, MPI_INT64_T, MPI_SUM, comm);
    MUST(!memcmp(one, other, sizeof one));
    MPI_Exscan(data, one, 3, MPI_INT64_T, MPI_SUM, comm);
    PMPI_Exscan(data, other, 3, MPI_INT64_T, MPI_SUM, comm);
    MUST(!own || !memcmp(one, other, sizeof one));
}

static void parts(MPI_Comm comm)
{
    int own, size;
    MPI_Comm_rank(comm, &own);
    MPI_Comm_size(comm, &size);
    size_t all = (size_t)size * (size_t)(size + 2);
    int *counts = malloc(all * sizeof(int)), *places = malloc(all * sizeof(int));
    int *data = malloc(all * sizeof(int));
    int *one = calloc(all, sizeof(int)), *other = calloc(all, sizeof(int));
    MUST(counts && places && data && one && other);
    int total = 0;
    for (int i = 0; i < size; i++)
        counts[i] = i + 1, places[i] = total, total += i + 1;
    for (size_t i = 0; i < all; i++)
        data[i] = 1000 * own + (int)i;
#define SAME(mine, theirs) \
    do { \
        mine; \
        theirs; \
        MUST(!memcmp(one, other, all * sizeof(int))); \
    } while (0)
    MPI_Datatype t = MPI_INT;
    for (int root = 0; root < size; root++) {
        SAME(MPI_Gather(data, 1, t, one, 1, t, root, comm),
             PMPI_Gather(data, 1, t, other, 1, t, root, comm));
        SAME(MPI_Gatherv(data, own + 1, t, one, counts, places, t, root, comm),
             PMPI_Gatherv(data, own + 1, t, other, counts, places, t, root, comm));
        SAME(MPI_Scatter(data, 2, t, one, 2, t, root, comm),
             PMPI_Scatter(data, 2, t, other, 2, t, root, comm));
        SAME(MPI_Scatterv(data, counts, places, t, one, own + 1, t, root, comm),
             PMPI_Scatterv(data, counts, places, t, other, own + 1, t, root, comm));
    }
    SAME(MPI_Allgather(data, 1, t, one, 1, t, comm), PMPI_Allgather(data, 1, t, other, 1, t, comm));
    SAME(MPI_Allgather(MPI_IN_PLACE, 0, t, one, 1, t, comm),
         PMPI_Allgather(MPI_IN_PLACE, 0, t, other, 1, t, comm));
    SAME(MPI_Allgatherv(data, own + 1, t, one, counts, places, t, comm),
         PMPI_Allgatherv(data, own + 1, t, other, counts, places, t, comm));
    SAME(MPI_Alltoall(data, 1, t, one, 1, t, comm), PMPI_Alltoall(data, 1, t, other, 1, t, comm));
    SAME(MPI_Alltoall(MPI_IN_PLACE, 0, t, one, 1, t, comm),
         PMPI_Alltoall(MPI_IN_PLACE, 0, t, other, 1, t, comm));
    SAME(MPI_Reduce_scatter_block(data, one, 1, t, MPI_SUM, comm),
         PMPI_Reduce_scatter_block(data, other, 1, t, MPI_SUM, comm));
    SAME(MPI_Reduce_scatter(data, one, counts, t, MPI_SUM, comm),
         PMPI_Reduce_scatter(data, other, counts, t, MPI_SUM, comm));
    for (int i = 0; i < size; i++)
        counts[i] = 1, places[i] = size - 1 - i;
    SAME(MPI_Alltoallv(data, counts, places, t, one, counts, places, t, comm),
         PMPI_Alltoallv(data, counts, places, t, other, counts, places, t, comm));
    free(counts), free(places), free(data), free(one), free(other);
}

static void collectives(MPI_Comm comm)
{
    MPI_Barrier(comm);
    reductions(comm);
    parts(comm);
    MPI_Op op;
    int own;
    int64_t data, one = 0;
    MPI_Comm_rank(comm, &own);
    data = own + 1;
    MPI_Op_create(left, 0, &op);
    MPI_Allreduce(&data, &one, 1, MPI_INT64_T, op, comm);
    MUST(one == 1);
    MPI_Op_free(&op);
}

int main(int count, char **words)
{
    int provided;
    MPI_Init_thread(&count, &words, MPI_THREAD_MULTIPLE, &provided);
    world = MPI_COMM_WORLD;
    MPI_Comm_rank(world, &rank);
    MPI_Comm_size(world, &ranks);
    next = (rank + 1) % ranks, before = (rank + ranks - 1) % ranks;
    MUST(!recline_checkpoint || provided <= MPI_THREAD_SERIALIZED);
    MPI_Comm_split(world, rank % 2, -rank, &odd_even);
    MPI_Cart_create(world, 1, &ranks, &(int){1}, 1, &ring);
    for (int i = 0; i < 3; i++) {
        plain_messages();
        modes();
        looks();
        requests();
        shapes();
        collectives(world);
        collectives(odd_even);
        collectives(MPI_COMM_SELF);
        if (recline_checkpoint)
            MUST(!recline_checkpoint("nowhere"));
    }
    if (count > 1 && !strcmp(words[1], "free")) {
        MPI_Request request;
        MPI_Irecv(&count, 1, MPI_INT, before, 1, world, &request);
        MPI_Request_free(&request);
    }
    MPI_Comm_free(&odd_even);
    MPI_Comm_free(&ring);
    MPI_Finalize();
    return 0;
}
