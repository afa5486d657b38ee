"""Blocks: stored, sent, shared by threads, truncated and changed."""
from __future__ import annotations

import copy
import multiprocessing
import pickle
import random
import threading
from typing import Callable, List, Optional, Tuple

import pytest

import hengaruto
from hengaruto import Document

PAGE = '<!DOCTYPE html><title>A</title><p class=a id=b>One <b>bold</b> word<!--c--><svg xlink:href=x><a/></svg><template><i>é😀'


def test_blocks_are_documents() -> None:
    doc = hengaruto.parse(PAGE)
    assert isinstance(doc.block, bytes)
    for block in (doc.block, bytearray(doc.block), memoryview(doc.block)):
        assert hengaruto.load(block).to_html() == doc.to_html()


@pytest.mark.parametrize("protocol", range(pickle.HIGHEST_PROTOCOL + 1))
def test_documents_are_pickled(protocol: int) -> None:
    doc = hengaruto.parse(PAGE)
    assert pickle.loads(pickle.dumps(doc, protocol)).block == doc.block


def test_nodes_are_pickled_with_their_document() -> None:
    first, second = pickle.loads(pickle.dumps(hengaruto.parse(PAGE).find_all("p") * 2))
    assert first == second and first.text() == "One bold word" + "é😀"
    assert copy.deepcopy(first).text() == first.text()


def test_pickles_that_were_changed() -> None:
    doc = hengaruto.parse(PAGE)
    data = pickle.dumps(doc).replace(b"HGT1", b"HGT2")
    with pytest.raises(hengaruto.Error):
        pickle.loads(data)


def titles_of(documents: List[Document]) -> List[Optional[str]]:
    return [doc.title for doc in documents]


def test_documents_are_sent_to_processes() -> None:
    with multiprocessing.get_context("spawn").Pool(1) as pool:
        assert pool.apply(titles_of, ([hengaruto.parse(PAGE)],)) == ["A"]


@pytest.mark.parametrize("block", [b"", b"HGT1", b"HGT1" + bytes(32), b"x" * 100])
def test_no_blocks(block: bytes) -> None:
    calls: Tuple[Callable[[bytes], Document], ...] = (hengaruto.load, Document)
    for make in calls:
        with pytest.raises(hengaruto.Error):
            make(block)


def test_cut_blocks() -> None:
    block = hengaruto.parse(PAGE).block
    for length in range(len(block)):
        with pytest.raises(hengaruto.Error):
            hengaruto.load(block[:length])
    with pytest.raises(hengaruto.Error):
        hengaruto.load(block + b"x")


def read_all_of(doc: Document) -> None:
    """Calls every read of every node."""
    for node in [doc.node, *doc.node.descendants()]:
        repr(node), node.kind, node.name, node.namespace, node.attrs, node.data, node.public_id, node.get("id")
        node.text(), node.to_html(), node.inner_html(), list(node.children()), list(node.ancestors()), node.next
    list(doc.iter()), list(doc.links()), doc.find("p"), doc.title, doc.root, doc.text(), doc.to_html()
    doc.select_all(["p b", "[id]"]), doc.node.closest("p"), [node.matches("p, :empty") for node in doc.node.descendants()]


def test_changed_blocks() -> None:
    """A changed block is rejected, or all its reads return, and elements are selected in it."""
    block, rand = hengaruto.parse(PAGE).block, random.Random(1)
    loaded = 0
    for _ in range(2000):
        changed = bytearray(block)
        for _ in range(rand.randint(1, 4)):
            changed[rand.randrange(len(changed))] = rand.randrange(256)
        try:
            doc = hengaruto.load(changed)
        except hengaruto.Error:
            continue
        read_all_of(doc)
        loaded += 1
    assert loaded > 20


def test_threads() -> None:
    page = PAGE * 20
    wanted, lock = hengaruto.parse(page), threading.Lock()
    came: List[bool] = []

    def work() -> None:
        for _ in range(10):
            doc = hengaruto.parse(page)
            same = doc.block == wanted.block and wanted.select("p b") and doc.to_html() == wanted.to_html() and wanted.find("p") is not None
            with lock:
                came.append(bool(same))

    threads = [threading.Thread(target=work) for _ in range(8)]
    for thread in threads:
        thread.start()
    for thread in threads:
        thread.join()
    assert came == [True] * 80
