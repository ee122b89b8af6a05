"""Pages as the tests read them: a server over the test's archive, requests, and the tree of an answer."""

from __future__ import annotations

import http.client
import threading
import time
from dataclasses import dataclass, field
from html.parser import HTMLParser
from typing import Iterator

from support import ArchiveCase, find_program
from tt_archive_tools.locks import Claim, Use
from tt_archive_tools.serving.standing import Standing
from tt_archive_tools.serving.web import Server

#: Elements that have no end.
_VOID = {"meta", "link", "input", "br"}


@dataclass
class Node:
    """An element, or the whole of a page; texts are strings among its children."""

    tag: str
    words: dict[str, str] = field(default_factory=dict)
    inside: list[Node | str] = field(default_factory=list)

    def all(self, tag: str = "", **words: str) -> list[Node]:
        """The elements of a kind within this one, in order; `class_` is `class`."""
        wanted = {key.rstrip("_"): value for key, value in words.items()}
        return [node for node in self._nodes() if tag in ("", node.tag) and wanted.items() <= node.words.items()]

    @property
    def text(self) -> str:
        return "".join(part if isinstance(part, str) else part.text for part in self.inside)

    def _nodes(self) -> Iterator[Node]:
        for part in self.inside:
            if isinstance(part, Node):
                yield part
                yield from part._nodes()


class _Parser(HTMLParser):
    def __init__(self) -> None:
        super().__init__()
        self.open = [Node("")]

    def handle_starttag(self, tag: str, words: list[tuple[str, str | None]]) -> None:
        node = Node(tag, {key: value or "" for key, value in words})
        assert len(node.words) == len(words), f"an attribute stands twice in {words}"
        self.open[-1].inside.append(node)
        if tag not in _VOID:
            self.open.append(node)

    def handle_startendtag(self, tag: str, words: list[tuple[str, str | None]]) -> None:
        self.handle_starttag(tag, words)
        self.open.pop()

    def handle_endtag(self, tag: str) -> None:
        assert self.open.pop().tag == tag, f"</{tag}> ends nothing"

    def handle_data(self, text: str) -> None:
        self.open[-1].inside.append(text)

    def handle_comment(self, text: str) -> None:
        raise AssertionError(f"a comment: {text}")


def tree(text: str) -> Node:
    parser = _Parser()
    parser.feed(text)
    parser.close()
    [page] = parser.open
    return page


@dataclass
class Answer:
    status: int
    headers: dict[str, str]
    text: str

    @property
    def page(self) -> Node:
        return tree(self.text)

    @property
    def rows(self) -> list[tuple[str, str]]:
        """The rows of a page that finds: score and name."""
        return [(item.all(class_="score")[0].text, item.all(class_="name")[0].text) for item in self.page.all("li") if item.all(class_="score")]


class PagesCase(ArchiveCase):
    """A test whose archive is served, once it has called `serve`."""

    def serve(self, *names: str) -> Server:
        archive = Standing(self.archive, find_program(None), Claim("`tt serve`", 10, Use.SERVES))
        server = Server(("127.0.0.1", 0), archive, names)
        self.addCleanup(server.server_close)
        archive.open()
        self.addCleanup(archive.close)
        threading.Thread(target=server.serve_forever, args=(0.05,), daemon=True).start()
        self.addCleanup(server.shutdown)
        self.port = server.server_port
        return server

    def get(self, address: str, method: str = "GET", body: bytes | None = None, **headers: str) -> Answer:
        connection = http.client.HTTPConnection("127.0.0.1", self.port, timeout=60)
        try:
            connection.request(method, address, body, headers)
            reply = connection.getresponse()
            return Answer(reply.status, dict(reply.getheaders()), reply.read().decode())
        finally:
            connection.close()

    def wait_for_versions(self, count: int) -> None:
        """Until the server has taken the archive back after an import."""
        end = time.monotonic() + 20
        while f"{count} changes" not in self.get("/").text and time.monotonic() < end:
            time.sleep(0.05)

    def page(self, address: str, status: int = 200) -> Node:
        answer = self.get(address)
        self.assertEqual(answer.status, status, f"{address}: {answer.headers} {answer.text[:300]}")
        return answer.page
