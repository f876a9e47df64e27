/* The calls of MPI that end requests, or ask whether they have ended. A receive that was posted is
 * noted where one of these says that it is done: until then the program has not seen the message.
 */
#include "internal.h"

#include <stdlib.h>
#include <string.h>

enum { FEW = 16 }; /* for so many no memory is taken */

/* Requests as they are before a call, and a status for each. What a call answers is set before it,
 * for where it fails and sets nothing.
 */
struct batch {
    MPI_Request few_requests[FEW], *requests;
    MPI_Status few_statuses[FEW], *statuses;
};

static void begin_batch(struct batch *batch, int count, const MPI_Request requests[])
{
    size_t size = count < 0 ? 0 : (size_t)count;
    batch->requests = batch->few_requests;
    batch->statuses = batch->few_statuses;
    if (size > FEW) {
        batch->requests = rl_room(size * sizeof *requests);
        batch->statuses = rl_room(size * sizeof *batch->statuses);
    }
    if (size)
        memcpy(batch->requests, requests, size * sizeof *requests);
}

static void end_batch(struct batch *batch)
{
    if (batch->requests != batch->few_requests) {
        free(batch->requests);
        free(batch->statuses);
    }
}

/* A request has ended. Where it was a receive, it is noted if it ended well. */
static void end_request(MPI_Request request, int result, MPI_Status *own)
{
    struct rl_incoming *in = rl_forget(request);
    if (!in)
        return;
    if (result == MPI_SUCCESS)
        rl_finish(in, own);
    PMPI_Type_free(&in->whole);
    free(in);
}

/* The result of one of several requests. */
static int result_of(int result, const MPI_Status *own)
{
    return result == MPI_ERR_IN_STATUS ? own->MPI_ERROR : result;
}

static void give(MPI_Status *status, const MPI_Status *own)
{
    if (status != MPI_STATUS_IGNORE)
        *status = *own;
}

int MPI_Wait(MPI_Request *request, MPI_Status *status)
{
    MPI_Request before = *request;
    MPI_Status own;
    int result = PMPI_Wait(request, &own);
    end_request(before, result, &own);
    give(status, &own);
    return result;
}

int MPI_Test(MPI_Request *request, int *is_done, MPI_Status *status)
{
    MPI_Request before = *request;
    MPI_Status own;
    *is_done = 0;
    int result = PMPI_Test(request, is_done, &own);
    if (*is_done) {
        end_request(before, result, &own);
        give(status, &own);
    }
    return result;
}

/* The end of a call for all of some requests. One that is pending after an error goes on. */
static void end_all(struct batch *batch, int count, int result, MPI_Status statuses[])
{
    for (int i = 0; i < count; i++) {
        int own = result_of(result, &batch->statuses[i]);
        if (own != MPI_ERR_PENDING)
            end_request(batch->requests[i], own, &batch->statuses[i]);
        if (statuses != MPI_STATUSES_IGNORE)
            statuses[i] = batch->statuses[i];
    }
}

int MPI_Waitall(int count, MPI_Request requests[], MPI_Status statuses[])
{
    struct batch batch;
    begin_batch(&batch, count, requests);
    int result = PMPI_Waitall(count, requests, batch.statuses);
    end_all(&batch, count, result, statuses);
    end_batch(&batch);
    return result;
}

int MPI_Testall(int count, MPI_Request requests[], int *are_done, MPI_Status statuses[])
{
    struct batch batch;
    begin_batch(&batch, count, requests);
    *are_done = 0;
    int result = PMPI_Testall(count, requests, are_done, batch.statuses);
    if (*are_done)
        end_all(&batch, count, result, statuses);
    end_batch(&batch);
    return result;
}

int MPI_Waitany(int count, MPI_Request requests[], int *index, MPI_Status *status)
{
    struct batch batch;
    MPI_Status own;
    begin_batch(&batch, count, requests);
    *index = MPI_UNDEFINED;
    int result = PMPI_Waitany(count, requests, index, &own);
    if (*index != MPI_UNDEFINED)
        end_request(batch.requests[*index], result, &own);
    give(status, &own);
    end_batch(&batch);
    return result;
}

int MPI_Testany(int count, MPI_Request requests[], int *index, int *is_done, MPI_Status *status)
{
    struct batch batch;
    MPI_Status own;
    begin_batch(&batch, count, requests);
    *is_done = 0;
    int result = PMPI_Testany(count, requests, index, is_done, &own);
    if (*is_done && *index != MPI_UNDEFINED)
        end_request(batch.requests[*index], result, &own);
    if (*is_done)
        give(status, &own);
    end_batch(&batch);
    return result;
}

/* The end of a call for some of several requests. */
static void end_some(struct batch *batch, const int indices[], int done, int result,
                     MPI_Status statuses[])
{
    for (int i = 0; i < done && done != MPI_UNDEFINED; i++) {
        int own = result_of(result, &batch->statuses[i]);
        end_request(batch->requests[indices[i]], own, &batch->statuses[i]);
        if (statuses != MPI_STATUSES_IGNORE)
            statuses[i] = batch->statuses[i];
    }
}

int MPI_Waitsome(int count, MPI_Request requests[], int *done, int indices[],
                 MPI_Status statuses[])
{
    struct batch batch;
    begin_batch(&batch, count, requests);
    *done = MPI_UNDEFINED;
    int result = PMPI_Waitsome(count, requests, done, indices, batch.statuses);
    end_some(&batch, indices, *done, result, statuses);
    end_batch(&batch);
    return result;
}

int MPI_Testsome(int count, MPI_Request requests[], int *done, int indices[],
                 MPI_Status statuses[])
{
    struct batch batch;
    begin_batch(&batch, count, requests);
    *done = MPI_UNDEFINED;
    int result = PMPI_Testsome(count, requests, done, indices, batch.statuses);
    end_some(&batch, indices, *done, result, statuses);
    end_batch(&batch);
    return result;
}

/* The request stays, so its message is not noted yet. */
int MPI_Request_get_status(MPI_Request request, int *is_done, MPI_Status *status)
{
    MPI_Status own;
    *is_done = 0;
    int result = PMPI_Request_get_status(request, is_done, &own);
    if (*is_done && rl_recall(request))
        return rl_looked(result, &own, status);
    if (*is_done)
        give(status, &own);
    return result;
}

/* A receive that nobody waits for would never be noted. */
int MPI_Request_free(MPI_Request *request)
{
    if (rl_recall(*request))
        rl_die("MPI_Request_free of a receive is not supported: wait for it");
    return PMPI_Request_free(request);
}

/* A message that is noted as sent cannot be taken back. */
int MPI_Cancel(MPI_Request *request)
{
    if (!rl_recall(*request))
        rl_die("MPI_Cancel of a send is not supported");
    return PMPI_Cancel(request);
}
