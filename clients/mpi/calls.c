/* The calls of MPI between two processes. A send is noted before it leaves, and a receipt before
 * the program is told of it.
 */
#include "internal.h"

/* Sending. A synchronous send waits for its receiver; the other modes send as MPI_Send does. */

int MPI_Send(const void *data, int count, MPI_Datatype type, int to, int tag, MPI_Comm comm)
{
    return rl_put(data, count, type, (struct rl_way){to, tag, comm});
}

int MPI_Bsend(const void *data, int count, MPI_Datatype type, int to, int tag, MPI_Comm comm)
{
    MPI_Request request;
    int result = rl_post(data, count, type, (struct rl_way){to, tag, comm}, &request);
    if (result == MPI_SUCCESS) /* its bytes stay in the payload file, which is room enough */
        PMPI_Request_free(&request);
    return result;
}

int MPI_Rsend(const void *data, int count, MPI_Datatype type, int to, int tag, MPI_Comm comm)
{
    return rl_put(data, count, type, (struct rl_way){to, tag, comm});
}

int MPI_Ssend(const void *data, int count, MPI_Datatype type, int to, int tag, MPI_Comm comm)
{
    struct rl_way way = {to, tag, comm};
    int length;
    if (!rl_is_message(count, way))
        return PMPI_Ssend(data, count, type, to, tag, comm);
    const void *bytes = rl_keep(data, count, type, way, &length);
    return PMPI_Ssend(bytes, length, MPI_PACKED, to, tag, comm);
}

int MPI_Isend(const void *data, int count, MPI_Datatype type, int to, int tag, MPI_Comm comm,
              MPI_Request *request)
{
    return rl_post(data, count, type, (struct rl_way){to, tag, comm}, request);
}

int MPI_Ibsend(const void *data, int count, MPI_Datatype type, int to, int tag, MPI_Comm comm,
               MPI_Request *request)
{
    return rl_post(data, count, type, (struct rl_way){to, tag, comm}, request);
}

int MPI_Irsend(const void *data, int count, MPI_Datatype type, int to, int tag, MPI_Comm comm,
               MPI_Request *request)
{
    return rl_post(data, count, type, (struct rl_way){to, tag, comm}, request);
}

int MPI_Issend(const void *data, int count, MPI_Datatype type, int to, int tag, MPI_Comm comm,
               MPI_Request *request)
{
    struct rl_way way = {to, tag, comm};
    int length;
    if (!rl_is_message(count, way))
        return PMPI_Issend(data, count, type, to, tag, comm, request);
    const void *bytes = rl_keep(data, count, type, way, &length);
    return PMPI_Issend(bytes, length, MPI_PACKED, to, tag, comm, request);
}

/* Receiving. */

/* A receive has ended: notes it, and gives the program its status. */
static int ended(int result, struct rl_incoming *in, MPI_Status *own, MPI_Status *status)
{
    if (result == MPI_SUCCESS)
        rl_finish(in, own);
    PMPI_Type_free(&in->whole);
    if (status != MPI_STATUS_IGNORE)
        *status = *own;
    return result;
}

int MPI_Recv(void *data, int count, MPI_Datatype type, int from, int tag, MPI_Comm comm,
             MPI_Status *status)
{
    struct rl_incoming in;
    MPI_Status own;
    rl_community_of(comm);
    if (from == MPI_PROC_NULL || count < 0)
        return PMPI_Recv(data, count, type, from, tag, comm, status);
    rl_expect(&in, data, count, type);
    int result = PMPI_Recv(MPI_BOTTOM, 1, in.whole, from, tag, comm, &own);
    return ended(result, &in, &own, status);
}

int MPI_Irecv(void *data, int count, MPI_Datatype type, int from, int tag, MPI_Comm comm,
              MPI_Request *request)
{
    rl_community_of(comm);
    if (from == MPI_PROC_NULL || count < 0)
        return PMPI_Irecv(data, count, type, from, tag, comm, request);
    struct rl_incoming *in = rl_room(sizeof *in);
    rl_expect(in, data, count, type);
    int result = PMPI_Irecv(MPI_BOTTOM, 1, in->whole, from, tag, comm, request);
    return rl_posted(result, in, *request);
}

int MPI_Mrecv(void *data, int count, MPI_Datatype type, MPI_Message *message, MPI_Status *status)
{
    struct rl_incoming in;
    MPI_Status own;
    if (*message == MPI_MESSAGE_NO_PROC)
        return PMPI_Mrecv(data, count, type, message, status);
    rl_expect(&in, data, count, type);
    int result = PMPI_Mrecv(MPI_BOTTOM, 1, in.whole, message, &own);
    return ended(result, &in, &own, status);
}

int MPI_Imrecv(void *data, int count, MPI_Datatype type, MPI_Message *message,
               MPI_Request *request)
{
    if (*message == MPI_MESSAGE_NO_PROC)
        return PMPI_Imrecv(data, count, type, message, request);
    struct rl_incoming *in = rl_room(sizeof *in);
    rl_expect(in, data, count, type);
    int result = PMPI_Imrecv(MPI_BOTTOM, 1, in->whole, message, request);
    return rl_posted(result, in, *request);
}

/* Both at once. The send goes out of the payload file, so that one buffer may serve for both. */

int MPI_Sendrecv(const void *data, int count, MPI_Datatype type, int to, int tag, void *received,
                 int room, MPI_Datatype received_type, int from, int received_tag, MPI_Comm comm,
                 MPI_Status *status)
{
    MPI_Request request;
    int result = rl_post(data, count, type, (struct rl_way){to, tag, comm}, &request);
    if (result != MPI_SUCCESS)
        return result;
    result = MPI_Recv(received, room, received_type, from, received_tag, comm, status);
    int sent = PMPI_Wait(&request, MPI_STATUS_IGNORE);
    return result == MPI_SUCCESS ? sent : result;
}

int MPI_Sendrecv_replace(void *data, int count, MPI_Datatype type, int to, int tag, int from,
                         int received_tag, MPI_Comm comm, MPI_Status *status)
{
    return MPI_Sendrecv(data, count, type, to, tag, data, count, type, from, received_tag, comm,
                        status);
}

/* Looking. Nothing is noted: the message is still to be received. */

int MPI_Probe(int from, int tag, MPI_Comm comm, MPI_Status *status)
{
    MPI_Status own;
    int result = PMPI_Probe(from, tag, comm, &own);
    return rl_looked(result, &own, status);
}

int MPI_Iprobe(int from, int tag, MPI_Comm comm, int *is_there, MPI_Status *status)
{
    MPI_Status own;
    *is_there = 0;
    int result = PMPI_Iprobe(from, tag, comm, is_there, &own);
    return *is_there ? rl_looked(result, &own, status) : result;
}

int MPI_Mprobe(int from, int tag, MPI_Comm comm, MPI_Message *message, MPI_Status *status)
{
    MPI_Status own;
    int result = PMPI_Mprobe(from, tag, comm, message, &own);
    return rl_looked(result, &own, status);
}

int MPI_Improbe(int from, int tag, MPI_Comm comm, int *is_there, MPI_Message *message,
                MPI_Status *status)
{
    MPI_Status own;
    *is_there = 0;
    int result = PMPI_Improbe(from, tag, comm, is_there, message, &own);
    return *is_there ? rl_looked(result, &own, status) : result;
}
