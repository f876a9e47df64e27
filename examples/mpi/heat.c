/* The heat of a plate, worked out by the ranks of an MPI job, each with a block of its cells.
 *
 * In each turn neighbours send each other the cells at the border of their blocks. Each rank stores
 * its block as a checkpoint when it likes, in a file, after what it has sent in a turn and before
 * what it receives. Now and then all find the greatest change of a cell. At the end rank 0 receives
 * all blocks, in whatever order they come, and writes the plate. Under recline (recline_mpi.h) a
 * rank that is killed costs some turns; without it the same program runs as it stands.
 *
 *     heat --rows R --columns C --turns T --every E --seed S --folder DIR --result FILE
 *          [--pause MICROSECONDS] [--kill RANK@TURN[+MICROSECONDS]]
 */
#define _GNU_SOURCE
#include "recline_mpi.h"

#include <inttypes.h>
#include <mpi.h>
#include <signal.h>
#include <stdint.h>
#include <stdio.h>
#include <stdlib.h>
#include <string.h>
#include <sys/time.h>
#include <time.h>
#include <unistd.h>

enum { LEFT, RIGHT, UP, DOWN, SIDES };
enum { TAG_BLOCK = 7, TURNS_OF_CHANGE = 16, MOST_PATH = 4000 };

/* What is asked for. */
struct asked {
    int rows, columns, turns, every, seed, pause;
    int killed, kill_turn, kill_delay; /* the rank, or -1 */
    const char *folder, *result;
};
static struct asked asked = {48, 64, 200, 2, 1, 0, -1, 0, 0, "checkpoints", NULL};

/* The block of this rank: its cells with a border around them. */
struct block {
    int row, column, rows, columns; /* where it begins in the plate, and its size */
    double *cells, *next;
};

static MPI_Comm grid; /* the ranks as they lie on the plate */
static int rank, ranks, neighbours[SIDES];
static MPI_Datatype column_of_cells;
static MPI_Request requests[2 * SIDES]; /* sends of a turn, and then its receives */
static struct block block;
static int turn;
static double change; /* the greatest of a cell, when it was last asked for */

static _Noreturn void fail(const char *what)
{
    fprintf(stderr, "heat: rank %d: ", rank);
    perror(what);
    MPI_Abort(MPI_COMM_WORLD, 1);
    abort();
}

/* A cell of the block; rows and columns are from -1, which is the border, to the size. */
static double *cell(double *cells, int row, int column)
{
    return &cells[(size_t)(row + 1) * (size_t)(block.columns + 2) + (size_t)(column + 1)];
}

/* The plate at the beginning, and outside of it at all times: warm on its left, hot in a corner. */
static double beginning(int row, int column)
{
    if (column < 0)
        return 100.0;
    if (row < 0 || row >= asked.rows || column >= asked.columns)
        return 0.0;
    return row >= asked.rows / 2 && column >= asked.columns / 2 ? 70.0 + 0.1 * row : 10.0;
}

/* The first cell of a part, of so many parts of a line. */
static int first_of(int part, int parts, int cells)
{
    return (int)((long)part * cells / parts);
}

/* Lays the ranks on the plate, and fills the block. */
static void lay_out(void)
{
    int sizes[2] = {0, 0}, periods[2] = {0, 0}, place[2];
    MPI_Dims_create(ranks, 2, sizes);
    MPI_Cart_create(MPI_COMM_WORLD, 2, sizes, periods, 0, &grid);
    MPI_Cart_coords(grid, rank, 2, place);
    MPI_Cart_shift(grid, 0, 1, &neighbours[UP], &neighbours[DOWN]);
    MPI_Cart_shift(grid, 1, 1, &neighbours[LEFT], &neighbours[RIGHT]);
    block.row = first_of(place[0], sizes[0], asked.rows);
    block.column = first_of(place[1], sizes[1], asked.columns);
    block.rows = first_of(place[0] + 1, sizes[0], asked.rows) - block.row;
    block.columns = first_of(place[1] + 1, sizes[1], asked.columns) - block.column;
    size_t size = (size_t)(block.rows + 2) * (size_t)(block.columns + 2);
    block.cells = calloc(size, sizeof *block.cells);
    block.next = calloc(size, sizeof *block.next);
    if (!block.cells || !block.next)
        fail("memory");
    for (int i = -1; i <= block.rows; i++)
        for (int j = -1; j <= block.columns; j++) {
            *cell(block.cells, i, j) = beginning(block.row + i, block.column + j);
            *cell(block.next, i, j) = *cell(block.cells, i, j);
        }
    MPI_Type_vector(block.rows, 1, block.columns + 2, MPI_DOUBLE, &column_of_cells);
    MPI_Type_commit(&column_of_cells);
    for (int i = 0; i < 2 * SIDES; i++)
        requests[i] = MPI_REQUEST_NULL;
}

/* Sends the cells at the border of the block to the neighbours. The tag is the side to which. */
static void send_borders(void)
{
    double *cells = block.cells;
    MPI_Isend(cell(cells, 0, 0), 1, column_of_cells, neighbours[LEFT], LEFT, grid,
              &requests[LEFT]);
    MPI_Isend(cell(cells, 0, block.columns - 1), 1, column_of_cells, neighbours[RIGHT], RIGHT, grid,
              &requests[RIGHT]);
    MPI_Isend(cell(cells, 0, 0), block.columns, MPI_DOUBLE, neighbours[UP], UP, grid,
              &requests[UP]);
    MPI_Isend(cell(cells, block.rows - 1, 0), block.columns, MPI_DOUBLE, neighbours[DOWN], DOWN,
              grid, &requests[DOWN]);
}

/* Receives those of the neighbours. */
static void receive_borders(void)
{
    MPI_Request *received = requests + SIDES;
    double *cells = block.cells;
    MPI_Irecv(cell(cells, 0, -1), 1, column_of_cells, neighbours[LEFT], RIGHT, grid,
              &received[LEFT]);
    MPI_Irecv(cell(cells, 0, block.columns), 1, column_of_cells, neighbours[RIGHT], LEFT, grid,
              &received[RIGHT]);
    MPI_Irecv(cell(cells, -1, 0), block.columns, MPI_DOUBLE, neighbours[UP], DOWN, grid,
              &received[UP]);
    MPI_Irecv(cell(cells, block.rows, 0), block.columns, MPI_DOUBLE, neighbours[DOWN], UP, grid,
              &received[DOWN]);
    MPI_Waitall(2 * SIDES, requests, MPI_STATUSES_IGNORE);
}

/* All cells a turn on; the greatest change of one. */
static double compute(void)
{
    double greatest = 0.0;
    for (int i = 0; i < block.rows; i++)
        for (int j = 0; j < block.columns; j++) {
            double here = *cell(block.cells, i, j);
            double around = *cell(block.cells, i - 1, j) + *cell(block.cells, i + 1, j)
                            + *cell(block.cells, i, j - 1) + *cell(block.cells, i, j + 1);
            double then = here + 0.2 * (around - 4.0 * here);
            *cell(block.next, i, j) = then;
            greatest = then - here > greatest ? then - here : greatest;
            greatest = here - then > greatest ? here - then : greatest;
        }
    double *cells = block.cells;
    block.cells = block.next;
    block.next = cells;
    return greatest;
}

/* Checkpoints. */

/* Whether this rank takes one in this turn: about one in `every`, each rank by its own chance. */
static int likes_to(void)
{
    uint64_t chance = (uint64_t)asked.seed << 40 ^ (uint64_t)rank << 32 ^ (uint64_t)turn;
    chance = (chance ^ chance >> 31) * 0x9e3779b97f4a7c15u;
    chance = (chance ^ chance >> 27) * 0xbf58476d1ce4e5b9u;
    return (chance >> 33) % (uint64_t)asked.every == 0;
}

/* The block and the turn, in a file. It is there as a whole or not at all. */
static void store(void)
{
    char path[MOST_PATH], new[MOST_PATH + 8];
    size_t size = (size_t)(block.rows + 2) * (size_t)(block.columns + 2);
    snprintf(path, sizeof path, "%s/rank-%d-turn-%d", asked.folder, rank, turn);
    snprintf(new, sizeof new, "%s.new", path);
    FILE *file = fopen(new, "wb");
    if (!file || fwrite(&turn, sizeof turn, 1, file) != 1
        || fwrite(&change, sizeof change, 1, file) != 1
        || fwrite(block.cells, sizeof *block.cells, size, file) != size || fclose(file)
        || rename(new, path))
        fail(path);
    if (recline_checkpoint && recline_checkpoint(path))
        fail("recline_checkpoint");
}

/* What a checkpoint has. */
static void load(const char *path)
{
    size_t size = (size_t)(block.rows + 2) * (size_t)(block.columns + 2);
    FILE *file = fopen(path, "rb");
    if (!file || fread(&turn, sizeof turn, 1, file) != 1
        || fread(&change, sizeof change, 1, file) != 1
        || fread(block.cells, sizeof *block.cells, size, file) != size)
        fail(path);
    fclose(file);
}

/* Failures that are asked for. */

static void kill_this(int signal)
{
    (void)signal;
    kill(getpid(), SIGKILL);
}

/* Kills this rank in the turn that was asked for, or some time after it begins. */
static void may_die(void)
{
    static int is_due;
    if (is_due || rank != asked.killed || turn < asked.kill_turn)
        return;
    is_due = 1;
    if (asked.kill_delay)
        fprintf(stderr, "heat: rank %d is killed %d microseconds after its turn %d began\n", rank,
                asked.kill_delay, turn);
    else
        fprintf(stderr, "heat: rank %d is killed in its turn %d\n", rank, turn);
    if (!asked.kill_delay)
        kill_this(0);
    struct itimerval timer = {{0, 0}, {asked.kill_delay / 1000000, asked.kill_delay % 1000000}};
    signal(SIGALRM, kill_this);
    setitimer(ITIMER_REAL, &timer, NULL);
}

/* The end: rank 0 receives the blocks, each after where it stands, and writes the plate. */

static void write_plate(const double *plate)
{
    FILE *file = fopen(asked.result, "w");
    if (!file)
        fail(asked.result);
    for (long i = 0; i < (long)asked.rows * asked.columns; i++)
        fprintf(file, "%a\n", plate[i]);
    if (fclose(file))
        fail(asked.result);
    printf("heat: %d turns of %d ranks; the greatest change of a cell was last %a\n", turn, ranks,
           change);
}

/* Puts a block into the plate. */
static void put(double *plate, const int where[4], const double *cells)
{
    for (int i = 0; i < where[2]; i++)
        memcpy(&plate[(size_t)(where[0] + i) * (size_t)asked.columns + (size_t)where[1]],
               &cells[(size_t)i * (size_t)where[3]], (size_t)where[3] * sizeof *cells);
}

static void receive_plate(const int own[4], const double *cells)
{
    double *plate = calloc((size_t)asked.rows * (size_t)asked.columns, sizeof *plate);
    if (!plate)
        fail("memory");
    put(plate, own, cells);
    for (int i = 1; i < ranks; i++) {
        MPI_Status status;
        int where[4], size;
        MPI_Recv(where, 4, MPI_INT, MPI_ANY_SOURCE, TAG_BLOCK, MPI_COMM_WORLD, &status);
        MPI_Probe(status.MPI_SOURCE, MPI_ANY_TAG, MPI_COMM_WORLD, &status);
        MPI_Get_count(&status, MPI_DOUBLE, &size);
        double *other = malloc((size_t)size * sizeof *other);
        if (!other || size != where[2] * where[3])
            fail("a block");
        MPI_Recv(other, size, MPI_DOUBLE, status.MPI_SOURCE, status.MPI_TAG, MPI_COMM_WORLD,
                 MPI_STATUS_IGNORE);
        put(plate, where, other);
        free(other);
    }
    write_plate(plate);
    free(plate);
}

static void gather_plate(void)
{
    int where[4] = {block.row, block.column, block.rows, block.columns};
    size_t size = (size_t)block.rows * (size_t)block.columns;
    double *cells = malloc(size * sizeof *cells);
    if (!cells)
        fail("memory");
    for (int i = 0; i < block.rows; i++)
        memcpy(&cells[(size_t)i * (size_t)block.columns], cell(block.cells, i, 0),
               (size_t)block.columns * sizeof *cells);
    if (rank) {
        MPI_Send(where, 4, MPI_INT, 0, TAG_BLOCK, MPI_COMM_WORLD);
        MPI_Send(cells, (int)size, MPI_DOUBLE, 0, TAG_BLOCK + 1, MPI_COMM_WORLD);
    } else if (asked.result) {
        receive_plate(where, cells);
    }
    free(cells);
}

/* Turns, from a checkpoint on or from the beginning. What was sent before a checkpoint is sent: so
 * the turn of a checkpoint goes on where the rank receives.
 */
static void work(void)
{
    const char *path = recline_resume ? recline_resume() : NULL;
    if (path)
        load(path);
    for (int is_resumed = path != NULL; turn < asked.turns; turn++, is_resumed = 0) {
        if (!is_resumed) {
            may_die();
            send_borders();
            if (likes_to())
                store();
        }
        receive_borders();
        double greatest = compute();
        if (turn % TURNS_OF_CHANGE == TURNS_OF_CHANGE - 1)
            MPI_Allreduce(&greatest, &change, 1, MPI_DOUBLE, MPI_MAX, MPI_COMM_WORLD);
        if (asked.pause)
            nanosleep(&(struct timespec){0, asked.pause * 1000L}, NULL);
    }
    gather_plate();
}

/* The words of the command line; those of rank 0 are those of all. */
static void read_words(int count, char **words)
{
    for (int i = 1; i + 1 < count; i += 2) {
        const char *word = words[i], *value = words[i + 1];
        int number = atoi(value);
        if (!strcmp(word, "--rows"))
            asked.rows = number;
        else if (!strcmp(word, "--columns"))
            asked.columns = number;
        else if (!strcmp(word, "--turns"))
            asked.turns = number;
        else if (!strcmp(word, "--every"))
            asked.every = number;
        else if (!strcmp(word, "--seed"))
            asked.seed = number;
        else if (!strcmp(word, "--pause"))
            asked.pause = number;
        else if (!strcmp(word, "--folder"))
            asked.folder = value;
        else if (!strcmp(word, "--result"))
            asked.result = value;
        else if (!strcmp(word, "--kill"))
            sscanf(value, "%d@%d+%d", &asked.killed, &asked.kill_turn, &asked.kill_delay);
    }
}

int main(int count, char **words)
{
    MPI_Init(&count, &words);
    MPI_Comm_rank(MPI_COMM_WORLD, &rank);
    MPI_Comm_size(MPI_COMM_WORLD, &ranks);
    read_words(count, words);
    lay_out();
    work();
    MPI_Type_free(&column_of_cells);
    MPI_Comm_free(&grid);
    free(block.cells);
    free(block.next);
    MPI_Finalize();
    return 0;
}
