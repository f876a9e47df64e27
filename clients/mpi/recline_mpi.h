/* What an MPI program calls of recline. Both are weak: the program links and runs without the
 * library, and asks whether a call is there before it makes it:
 *
 *     if (recline_checkpoint)
 *         recline_checkpoint("checkpoints/rank-3-turn-40");
 *
 * The library is put before the program by LD_PRELOAD (README.md).
 */
#ifndef RECLINE_MPI_H
#define RECLINE_MPI_H

#ifdef __cplusplus
extern "C" {
#endif

/* Notes that this rank has stored its state in the file at `path`: all of it, under a name that no
 * earlier checkpoint has that may still be gone back to. What the rank has sent so far counts as
 * sent, and what it has received as received; a receive that is posted and not completed is posted
 * again by the program when it goes on from there.
 * Returns 0; or -1, and notes nothing, where the path has more than 4,000 bytes or the end of a line
 * in it, or MPI is not initialized.
 */
int recline_checkpoint(const char *path) __attribute__((weak, visibility("default")));

/* The path of the checkpoint that this rank goes on from, or NULL where it begins at its beginning.
 * It is known from MPI_Init on, and stays until the program ends.
 */
const char *recline_resume(void) __attribute__((weak, visibility("default")));

#ifdef __cplusplus
}
#endif

#endif
