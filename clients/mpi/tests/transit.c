/* What is in transit at the recovery line, over three lives of a job of three ranks: messages on
 * two communicators and with several tags, one to the rank itself, and a broadcast that its root is
 * past. In each life but the last one all take a checkpoint, and then a rank is killed.
 */
#define _GNU_SOURCE
#include "recline_mpi.h"

#include <mpi.h>
#include <signal.h>
#include <stdio.h>
#include <stdlib.h>
#include <string.h>
#include <unistd.h>

enum { BIG = 100000 };
static int rank;
static MPI_Comm world, copy;

#define MUST(condition) must(condition, #condition, __LINE__)
static void must(int is_so, const char *what, int line)
{
    if (is_so)
        return;
    fprintf(stderr, "transit.c:%d: rank %d: not so: %s\n", line, rank, what);
    MPI_Abort(MPI_COMM_WORLD, 1);
}

static void put(int value, int to, int tag, MPI_Comm comm)
{
    MPI_Send(&value, 1, MPI_INT, to, tag, comm);
}

static int get(int from, int tag, MPI_Comm comm)
{
    int value = -1;
    MPI_Recv(&value, 1, MPI_INT, from, tag, comm, MPI_STATUS_IGNORE);
    return value;
}

/* The end of a life: when all have their checkpoint, a rank is killed, and the others wait. */
static void die(int killed)
{
    PMPI_Barrier(MPI_COMM_WORLD); /* is not noted */
    if (rank == killed)
        kill(getpid(), SIGKILL);
    pause();
}

static void first_life(void)
{
    int value = 77;
    static int big[BIG];
    MPI_Request request;
    if (rank == 0) {
        put(1, 1, 3, world);
        put(2, 1, 4, world);
        put(3, 1, 3, copy);
        MPI_Isend(&value, 1, MPI_INT, 0, 5, world, &request);
        MPI_Bcast(&value, 1, MPI_INT, 0, copy);
        big[BIG - 1] = 9;
        MPI_Isend(big, BIG, MPI_INT, 2, 6, copy, &request);
        big[BIG - 1] = 8; /* the library has what was sent */
    } else if (rank == 1) {
        MUST(get(0, 4, world) == 2);
    }
    MUST(!recline_checkpoint("step-1"));
    die(1);
}

static void second_life(void)
{
    int value = 0;
    MPI_Status status;
    if (rank == 0) {
        MUST(get(0, 5, world) == 77);
        put(10, 1, 3, world);
        put(30, 1, 3, copy);
    } else if (rank == 1) {
        MPI_Probe(MPI_ANY_SOURCE, MPI_ANY_TAG, world, &status);
        MUST(status.MPI_TAG == 3);
        MUST(get(MPI_ANY_SOURCE, MPI_ANY_TAG, world) == 1);
        MUST(get(0, 3, world) == 10);
    } else {
        MPI_Bcast(&value, 1, MPI_INT, 0, copy);
        MUST(value == 77);
    }
    MUST(!recline_checkpoint("step-2"));
    die(0);
}

static void third_life(void)
{
    int values[2] = {0}, value = 0, is_there;
    static int big[BIG];
    MPI_Request requests[2];
    MPI_Status status;
    if (rank == 1) {
        MPI_Irecv(&values[0], 1, MPI_INT, MPI_ANY_SOURCE, MPI_ANY_TAG, copy, &requests[0]);
        MPI_Irecv(&values[1], 1, MPI_INT, MPI_ANY_SOURCE, MPI_ANY_TAG, copy, &requests[1]);
        MPI_Waitall(2, requests, MPI_STATUSES_IGNORE);
        MUST(values[0] == 3 && values[1] == 30);
        MPI_Bcast(&value, 1, MPI_INT, 0, copy);
        MUST(value == 77);
    } else if (rank == 2) {
        MPI_Recv(big, BIG, MPI_INT, 0, MPI_ANY_TAG, copy, &status);
        MPI_Get_count(&status, MPI_INT, &value);
        MUST(value == BIG && status.MPI_TAG == 6 && big[BIG - 1] == 9);
    }
    MPI_Barrier(world);
    MPI_Iprobe(MPI_ANY_SOURCE, MPI_ANY_TAG, world, &is_there, &status);
    MUST(!is_there);
    MPI_Iprobe(MPI_ANY_SOURCE, MPI_ANY_TAG, copy, &is_there, &status);
    MUST(!is_there);
    MPI_Barrier(copy);
    if (!rank)
        printf("transit: all three lives are as they must be\n");
}

int main(int count, char **words)
{
    MPI_Init(&count, &words);
    world = MPI_COMM_WORLD;
    MPI_Comm_rank(world, &rank);
    MPI_Comm_dup(world, &copy);
    const char *path = recline_resume();
    if (!path)
        first_life();
    else if (!strcmp(path, "step-1"))
        second_life();
    else
        third_life();
    MPI_Comm_free(&copy);
    MPI_Finalize();
    return 0;
}
