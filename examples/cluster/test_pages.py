"""Pages on a cluster of processes: each page is written once, even if a worker is killed."""
import gzip
import json
import os
import signal
import sys

import pytest

sys.path.insert(0, os.path.dirname(os.path.abspath(__file__)))

import extract  # noqa: E402
import pages  # noqa: E402

COUNT = 120


def page(number):
    items = "".join(f"<li><a href='/{number}/{i}'>item {i}</a>" for i in range(200))
    return f"<title>Page {number}</title><h1>Page {number}</h1><ul>{items}</ul><script>x</script>"


def record(kind, url, body):
    response = b"HTTP/1.1 200 OK\r\nContent-Type: text/html; charset=iso-8859-1\r\n\r\n" + body
    head = f"WARC/1.0\r\nWARC-Type: {kind}\r\nWARC-Target-URI: {url}\r\nContent-Length: {len(response)}\r\n\r\n"
    return head.encode() + response + b"\r\n\r\n"


@pytest.fixture
def folder(tmp_path):
    os.makedirs(tmp_path / "in" / "below")
    for number in range(COUNT):
        (tmp_path / "in" / ("below" if number % 2 else "") / f"{number:03}.html").write_text(page(number))
    return str(tmp_path / "in")


def rows_in(folder):
    rows = []
    for name in sorted(os.listdir(folder)):
        assert name.startswith("part-") and name.endswith(".jsonl")
        with open(os.path.join(folder, name), encoding="utf-8") as file:
            rows += [json.loads(line) for line in file]
    return sorted(rows, key=lambda row: row["id"])


def in_turn(path, most, folder):
    """The rows that one process writes, without a cluster."""
    os.makedirs(folder)
    for number, task in enumerate(extract.tasks_of(path, most)):
        extract.write_part(task, number, folder)
    return rows_in(folder)


def test_rows(folder, tmp_path):
    rows = in_turn(folder, 100_000, tmp_path / "out")
    assert len(rows) == COUNT and len({row["id"] for row in rows}) == COUNT and not any(row["error"] for row in rows)
    row = next(row for row in rows if row["id"].endswith("/007.html"))
    assert row["title"] == "Page 7" and row["links"][3] == {"href": "/7/3", "text": "item 3"} and len(row["links"]) == 200
    assert row["text"].startswith("Page 7") and "- item 0\n" in row["text"]
    assert row["html"].startswith("<h1>Page 7</h1><ul><li><a href=") and "script" not in row["html"]


@pytest.mark.parametrize("name", ["x.warc", "x.warc.gz"])
def test_warc(tmp_path, name):
    records = [record("request", "http://x/0", b"")]
    records += [record("response", f"http://x/{i}", f"<title>caf\xe9 {i}</title>".encode("latin-1")) for i in range(10)]
    path = str(tmp_path / name)
    with open(path, "wb") as file:
        file.write(b"".join(gzip.compress(it) if name.endswith(".gz") else it for it in records))
    assert len(list(extract.tasks_of(path, 500))) == (1 if name.endswith(".gz") else 10 // 2)
    rows = in_turn(path, 500, tmp_path / "out")
    assert [row["title"] for row in rows] == [f"caf\xe9 {i}" for i in range(10)]
    assert rows[3]["id"] == "http://x/3"


def test_no_page_is_lost_where_a_worker_is_killed(folder, tmp_path):
    distributed = pytest.importorskip("distributed")
    wanted = in_turn(folder, 30_000, tmp_path / "wanted")
    tasks, killed = list(extract.tasks_of(folder, 30_000)), []
    with distributed.LocalCluster(n_workers=2, threads_per_worker=1, processes=True, dashboard_address=None) as cluster:
        with distributed.Client(cluster) as client:
            workers = sorted(client.run(os.getpid).values())

            def kill_one(answer):
                if not killed:
                    killed.append(workers[0])
                    os.kill(workers[0], signal.SIGKILL)

            answers = pages.run(client, tasks, str(tmp_path / "out"), told=kill_one)
    assert killed and len(answers) == len(tasks) > 20
    assert rows_in(tmp_path / "out") == wanted and len(wanted) == COUNT
