"""The plate that heat.c works out, by a plain loop over all of it."""


def beginning(row: int, column: int, rows: int, columns: int) -> float:
    """A cell at the beginning, and outside of the plate at all times."""
    if column < 0:
        return 100.0
    if row < 0 or row >= rows or column >= columns:
        return 0.0
    return 70.0 + 0.1 * row if row >= rows // 2 and column >= columns // 2 else 10.0


def plain_loop(rows: int, columns: int, turns: int) -> list[float]:
    """All cells after so many turns, row by row, each from the one before by the same sums."""
    now = [
        [beginning(i, j, rows, columns) for j in range(-1, columns + 1)]
        for i in range(-1, rows + 1)
    ]
    for _ in range(turns):
        then = [list(row) for row in now]
        for i in range(1, rows + 1):
            up, here, down, into = now[i - 1], now[i], now[i + 1], then[i]
            for j in range(1, columns + 1):
                around = up[j] + down[j] + here[j - 1] + here[j + 1]
                into[j] = here[j] + 0.2 * (around - 4.0 * here[j])
        now = then
    return [cell for row in now[1:-1] for cell in row[1:-1]]
