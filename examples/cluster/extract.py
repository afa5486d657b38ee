"""Does one task: reads its pages, and writes a part, which has a row for each page.

A task is a list of places: each is a file, where a page or a record begins in it, and its length. A part is first written under another
name, and then renamed: a task that runs twice, because a worker died, writes the same part again.
"""
from __future__ import annotations

import gzip
import json
import os
import time
from typing import Any, Dict, Iterator, List, NamedTuple, Optional, Tuple

import hengaruto

Row = Dict[str, Any]


class Place(NamedTuple):
    """A page or a record: `length` bytes of a file, or the whole file if there is no length."""

    path: str
    start: int = 0
    length: Optional[int] = None


def places_in(folder_or_file: str) -> Iterator[Tuple[Place, int]]:
    """The places in a folder of pages or in a WARC file, each with its number of bytes."""
    if os.path.isdir(folder_or_file):
        for top, folders, names in os.walk(folder_or_file):
            folders.sort()
            for name in sorted(names):
                path = os.path.join(top, name)
                if name.endswith((".html", ".htm", ".warc", ".warc.gz")):
                    yield from places_in(path)
    elif folder_or_file.endswith(".warc"):
        with open(folder_or_file, "rb") as file:
            for start, length, _ in records_of(file, skips=True):
                yield Place(folder_or_file, start, length), length
    else:
        # A page, or a compressed file, which isn't split.
        yield Place(folder_or_file), os.path.getsize(folder_or_file)


def tasks_of(folder_or_file: str, most: int) -> Iterator[List[Place]]:
    """Tasks of at most `most` bytes, or of one place."""
    task: List[Place] = []
    count = 0
    for place, length in places_in(folder_or_file):
        if task and count + length > most:
            yield task
            task, count = [], 0
        task.append(place)
        count += length
    if task:
        yield task


def head_of(file: Any) -> Optional[Dict[str, str]]:
    """The fields of a head, up to its empty line, by their names in lower case. None at the end of the file."""
    first = file.readline()
    while first in (b"\r\n", b"\n"):
        first = file.readline()
    if not first:
        return None
    fields = {"": first.decode("latin-1").strip()}
    for line in iter(file.readline, b""):
        if line in (b"\r\n", b"\n"):
            break
        name, _, value = line.decode("latin-1").partition(":")
        fields[name.strip().lower()] = value.strip()
    return fields


def records_of(file: Any, skips: bool = False) -> Iterator[Tuple[int, int, Any]]:
    """The responses in a WARC file: for each, where it begins, its length, and its fields and bytes. Other records are skipped."""
    while True:
        start = file.tell()
        fields = head_of(file)
        if fields is None:
            return
        length = int(fields.get("content-length", 0))
        begun = file.tell()
        if fields.get("warc-type") == "response":
            body = None if skips else file.read(length)
            yield start, begun + length - start, (fields, body)
        file.seek(begun + length)


def page_of(fields: Dict[str, str], response: bytes) -> Tuple[str, bytes, Optional[str]]:
    """The page of a response: its URL, its bytes, and the encoding that its header declares."""
    head, _, body = response.partition(b"\r\n\r\n")
    encoding = None
    for line in head.decode("latin-1").split("\r\n"):
        name, _, value = line.partition(":")
        if name.strip().lower() == "content-type" and "charset=" in value.lower():
            encoding = value.lower().partition("charset=")[2].split(";")[0].strip(" \"'")
    return fields.get("warc-target-uri", ""), body, encoding


def pages_of(place: Place) -> Iterator[Tuple[str, bytes, Optional[str]]]:
    """The pages at a place: for each, its name, its bytes, and its encoding if that is known."""
    if place.path.endswith(".warc.gz"):
        with gzip.open(place.path, "rb") as file:
            for _, _, (fields, response) in records_of(file):
                yield page_of(fields, response)
    elif place.path.endswith(".warc"):
        with open(place.path, "rb") as file:
            file.seek(place.start)
            yield page_of(*next(records_of(file))[2])
    else:
        with open(place.path, "rb") as file:
            yield place.path, file.read(), None


def row_of(name: str, page: bytes, encoding: Optional[str]) -> Row:
    """The row of a page. If the page can't be read, the row has an error."""
    try:
        text = hengaruto.decode(page, encoding)
        doc = hengaruto.parse(text)
        body = doc.find("body")
        return {
            "id": name,
            "title": doc.title,
            "text": hengaruto.text(text),
            "links": [{"href": href, "text": words} for href, words in doc.links()],
            "html": hengaruto.clean(body.inner_html() if body is not None else ""),
            "error": None,
        }
    except (ValueError, MemoryError) as error:
        return {"id": name, "title": None, "text": None, "links": [], "html": None, "error": str(error)}


def most_memory() -> int:
    """The peak memory of this process, in bytes."""
    with open("/proc/self/status") as file:
        return next(int(line.split()[1]) * 1024 for line in file if line.startswith("VmHWM"))


def write_lines(rows: List[Row], path: str) -> None:
    with open(path, "w", encoding="utf-8") as file:
        for row in rows:
            file.write(json.dumps(row, ensure_ascii=False) + "\n")


def write_parquet(rows: List[Row], path: str) -> None:
    import pyarrow
    import pyarrow.parquet

    text = pyarrow.string()
    link = pyarrow.struct([("href", text), ("text", text)])
    names = [("id", text), ("title", text), ("text", text), ("links", pyarrow.list_(link)), ("html", text), ("error", text)]
    pyarrow.parquet.write_table(pyarrow.Table.from_pylist(rows, schema=pyarrow.schema(names)), path)


def write_part(task: List[Place], number: int, folder: str, parquet: bool = False) -> Dict[str, Any]:
    """Does a task: writes its part into the folder, and returns what the task took."""
    begun = time.process_time()
    rows: List[Row] = []
    read = 0
    for place in task:
        for name, page, encoding in pages_of(place):
            read += len(page)
            rows.append(row_of(name, page, encoding))
    path = os.path.join(folder, f"part-{number:06}.{'parquet' if parquet else 'jsonl'}")
    unfinished = f"{path}.{os.getpid()}.unfinished"
    (write_parquet if parquet else write_lines)(rows, unfinished)
    os.replace(unfinished, path)
    return {
        "part": number,
        "pages": len(rows),
        "errors": sum(row["error"] is not None for row in rows),
        "read": read,
        "written": os.path.getsize(path),
        "seconds": time.process_time() - begun,
        "memory": most_memory(),
    }
