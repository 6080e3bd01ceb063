"""Answers the eight questions of bench/bench.py session by numpy over arrays in memory: python3
arrays.py RUNS CSV FOLDER, by a Python that has numpy. The columns of CSV are stored in FOLDER at
the first run. Prints for each question its name and the minimum time of RUNS runs, in milliseconds,
then the lines of its result and an empty line. A null is 0 in its array, and 1 in an array of
nulls."""
import os
import pathlib
import sys
import time

import numpy as np


def read_columns(csv):
    """Returns the columns as arrays. While it is read, a null is the number below its column's
    minimum."""
    text = csv.read_bytes().split(b"\n", 1)[1].replace(b"NULL",
                                                       b"-11").replace(b",\n", b",-1\n").replace(
                                                           b"\n", b",")
    a, b, c, d = np.fromstring(text.rstrip(b","), dtype=np.int64, sep=",").reshape(-1, 4).T
    return {"a": a.astype(np.uint8), "b": np.where(b == -11, 0, b).astype(np.int8),
            "b_null": b == -11, "c": c.astype(np.uint32),
            "d": np.where(d == -1, 0, d).astype(np.uint32), "d_null": d == -1}


def kept_columns(csv, folder):
    if not folder.exists():
        part = pathlib.Path(f"{folder}.part")
        part.mkdir(exist_ok=True)
        for name, column in read_columns(csv).items():
            np.save(part / f"{name}.npy", column)
        os.rename(part, folder)
    return {path.stem: np.load(path) for path in folder.glob("*.npy")}


def total(numbers):
    return int(numbers.sum(dtype=np.uint64))


def list_rows(m):
    kept = m["c"] < 1000
    return m["c"][kept], m["d"][kept], m["d_null"][kept]


def find_ends(m):
    kept = m["a"] == 7
    return int(m["c"][kept].min()), int(m["d"][kept & ~m["d_null"]].max())


QUESTIONS = {
    "count_a_below_8": lambda m: np.count_nonzero(m["a"] < 8),
    "sum_d_a_below_8": lambda m: total(m["d"][m["a"] < 8]),
    "count_a_from_250": lambda m: np.count_nonzero(m["a"] >= 250),
    "count_c_between": lambda m: np.count_nonzero((m["c"] >= 500) & (m["c"] <= 900)),
    "sum_d_c_below_5000": lambda m: total(m["d"][(m["c"] < 5000) & ~m["b_null"]]),
    "count_b_in_or_d_null": lambda m: np.count_nonzero(
        ((m["b"] == 1) | (m["b"] == 3) | (m["b"] == 5)) & ~m["b_null"] | m["d_null"]),
    "min_c_max_d_a_is_7": find_ends,
    "rows_c_below_1000": list_rows,
}


def text_of(answer):
    if not isinstance(answer, tuple):
        return str(answer)
    if not isinstance(answer[0], np.ndarray):
        return ",".join(map(str, answer))
    return "\n".join(f"{c},{'NULL' if is_null else d}" for c, d, is_null in zip(*answer))


def main():
    columns = kept_columns(pathlib.Path(sys.argv[2]), pathlib.Path(sys.argv[3]))
    for name, ask in QUESTIONS.items():
        times = []
        for _ in range(int(sys.argv[1])):
            start = time.perf_counter()
            answer = ask(columns)
            times.append((time.perf_counter() - start) * 1000)
        print(f"{name} {min(times):.3f}\n{text_of(answer)}\n")


main()
