#!/usr/bin/env python3
"""Extracts title, text, links and cleaned HTML from many pages, with processes of this machine, over dask.distributed.

    `pages.py PAGES FOLDER [--workers N] [--bytes N] [--parquet]`

PAGES is a folder of *.html, *.htm, *.warc and *.warc.gz, or one of these files. Each task writes a part into FOLDER: JSON lines, or
Parquet, which needs pyarrow. A task has one page, or pages of at most 4 MB or the given number of bytes. The time and memory of all tasks
are printed at the end. If a worker dies, others do its tasks again: no page is lost, and none is written twice.
"""
from __future__ import annotations

import argparse
import glob
import os
import pickle
import sys
import time
from typing import Any, Callable, Dict, List, Optional

HERE = os.path.dirname(os.path.abspath(__file__))
if HERE not in sys.path:
    sys.path.insert(0, HERE)

import extract  # noqa: E402

Answer = Dict[str, Any]


def run(
    client: Any, tasks: List[List[extract.Place]], folder: str, parquet: bool = False, told: Optional[Callable[[Answer], None]] = None
) -> List[Answer]:
    """Does the tasks on a cluster, and returns what each took. The parts are written into a folder that all workers see."""
    from distributed import as_completed

    os.makedirs(folder, exist_ok=True)
    futures = client.map(extract.write_part, tasks, range(len(tasks)), folder=folder, parquet=parquet, retries=3, pure=False)
    answers = []
    for _, answer in as_completed(futures, with_results=True):
        answers.append(answer)
        if told is not None:
            told(answer)
    # Parts that workers didn't finish before they died.
    for path in glob.glob(f"{glob.escape(folder)}/*.unfinished"):
        os.remove(path)
    return answers


def summary(answers: List[Answer], tasks: List[List[extract.Place]], wall: float) -> Dict[str, float]:
    pages = sum(answer["pages"] for answer in answers)
    return {
        "pages": pages,
        "errors": sum(answer["errors"] for answer in answers),
        "read": sum(answer["read"] for answer in answers),
        "written": sum(answer["written"] for answer in answers),
        "seconds": sum(answer["seconds"] for answer in answers),
        "memory": max(answer["memory"] for answer in answers),
        "task": sum(len(pickle.dumps(task)) for task in tasks) / len(tasks),
        "answer": sum(len(pickle.dumps(answer)) for answer in answers) / len(answers),
        "tasks": len(tasks),
        "wall": wall,
    }


def report(took: Dict[str, float]) -> None:
    count = max(took["pages"], 1)
    read, written, milliseconds = took["read"] / count / 1000, took["written"] / count / 1000, took["seconds"] / count * 1000
    print(f"{took['pages']} pages, {took['errors']} with an error, in {took['tasks']} tasks and {took['wall']:.1f} seconds")
    print(f"a page: {read:.1f} KB read, {written:.1f} KB written, {milliseconds:.2f} ms of a processor")
    print(f"a task: {took['task']:.0f} bytes sent, {took['answer']:.0f} bytes answered; a worker: {took['memory'] / 1e6:.0f} MB at most")


def main() -> int:
    words = argparse.ArgumentParser(description="Extracts title, text, links and cleaned HTML from many pages.")
    words.add_argument("pages")
    words.add_argument("folder")
    words.add_argument("--workers", type=int, default=os.cpu_count() or 1)
    words.add_argument("--bytes", type=int, default=4_000_000)
    words.add_argument("--parquet", action="store_true")
    asked = words.parse_args()
    if glob.glob(f"{glob.escape(asked.folder)}/part-*"):
        words.error(f"{asked.folder} has parts already")
    tasks = list(extract.tasks_of(asked.pages, asked.bytes))
    if not tasks:
        words.error(f"{asked.pages} has no pages")

    from distributed import Client, LocalCluster

    begun = time.time()
    # One thread per worker: a process that dies takes one task with it.
    with LocalCluster(n_workers=asked.workers, threads_per_worker=1, processes=True, dashboard_address=None) as cluster:
        with Client(cluster) as client:
            answers = run(client, tasks, os.path.abspath(asked.folder), asked.parquet)
    report(summary(answers, tasks, time.time() - begun))
    return 0


if __name__ == "__main__":
    sys.exit(main())
