"""The command line of `tt`."""

from __future__ import annotations

import argparse
import shlex
import sys
from importlib import import_module
from pathlib import Path
from typing import Sequence, TypeAlias

from .errors import ToolError
from .stops import Stopped, stops_in_order
from .times import parse_wait
from .wording import one_line

#: The commands of a parser, or the sources of `import`.
Kinds: TypeAlias = "argparse._SubParsersAction[argparse.ArgumentParser]"

_ABOUT = """Fills a time-travel text archive from what keepers have, asks it by names and dates, and draws what it
holds. The tools write scripts for tt_archive and read its replies."""
_STOPPED = "stopped; what was acknowledged is in the archive, and the same command goes on from there"
_TIME = "a date (2007, 2007-07, 2007-07-23, 2007-07-23T12:30:00, all UTC; 2007-07-23T14:30:00+02:00), @SECONDS, or now"


def main(words: Sequence[str] | None = None) -> int:
    """Carries out one command; the exit status is 0, 1 for an error, 2 for wrong words, and when
    stopped by a signal what a shell says of it: 130 from the keyboard, 143 by TERM, 129 by HUP."""
    for stream in (sys.stdout, sys.stderr):
        # Names may have bytes that aren't UTF-8; they are shown as they are.
        stream.reconfigure(errors="surrogateescape")  # type: ignore[union-attr]
    words = sys.argv[1:] if words is None else words
    options = parsed(words)
    options.command = shlex.join(("tt", *words))
    try:
        with stops_in_order():
            options.wait = parse_wait(options.wait)
            module, _, function = options.run.rpartition(".")  # only what is needed for this command is loaded
            getattr(import_module(f".{module}", __package__), function)(options)
            sys.stdout.flush()
    except ToolError as error:
        for line in (f"tt: {one_line(str(error))}", *error.shown):
            print(line, file=sys.stderr)
        return 1
    except Stopped as stopped:
        print(f"tt: {_STOPPED}", file=sys.stderr)
        return stopped.status
    except BrokenPipeError:
        sys.stderr.close()
        return 1
    except OSError as error:
        print(f"tt: {error}", file=sys.stderr)
        return 1
    return 0


def parsed(words: Sequence[str]) -> argparse.Namespace:
    """What the words say; an end of the program where they are wrong."""
    return _parser().parse_args(words)


def _parser() -> argparse.ArgumentParser:
    parser = argparse.ArgumentParser(prog="tt", description=_ABOUT)
    add = parser.add_argument
    add("-C", "--archive", type=Path, default=Path("."), metavar="FOLDER", help="the archive's folder (here)")
    add("--program", metavar="WORDS", help="the tt_archive to run ($TT_ARCHIVE, on the path, or built here)")
    add("--wait", default="10s", metavar="TIME", help="how long to wait while another is at work in the folder (10s)")
    add("-q", "--quiet", action="store_true", help="no progress on a terminal; of a refresh only what was refused")
    kinds = parser.add_subparsers(required=True, metavar="COMMAND")
    _add_filling(kinds)
    _add_questions(kinds)
    _add_documents(kinds)
    _add_pictures(kinds)
    _add_serving(kinds)
    _add_following(kinds)
    _add_cluster(kinds.add_parser("cluster", help="keep the archives of a split collection open on the workers of a Dask cluster"))
    return parser


def _command(kinds: Kinds, name: str, run: str, help: str) -> argparse.ArgumentParser:
    parser = kinds.add_parser(name, help=help, description=help[0].upper() + help[1:] + ".")
    parser.set_defaults(run=run)
    return parser


#: What manual pages and completions are made of.
parser = _parser


def _add_filling(kinds: Kinds) -> None:
    init = _command(kinds, "init", "filling.init", "make an empty archive")
    init.add_argument("folder", type=Path, metavar="FOLDER")
    _add_format(init)
    _add_sources(kinds.add_parser("import", help="fill the archive from a source"))
    refresh = _command(kinds, "refresh", "refreshing.refresh", "import each source of this archive again, all in one order of time")
    refresh.add_argument("--go-on", action="store_true", help="leave out the sources that can't be read; what is new in them may be too late afterwards")
    shard = _command(kinds, "shard", "filling.shard", "split the archive by document into N archives below INTO")
    shard.add_argument("count", type=int, metavar="N")
    shard.add_argument("into", type=Path, metavar="INTO")
    shard.add_argument("--empty", action="store_true", help="make empty archives, to import into")
    _add_format(shard)
    status = _command(kinds, "status", "telling.status", "tell what the archive holds")
    status.add_argument("folder", type=Path, metavar="FOLDER", nargs="?", help="the archive's folder, where -C doesn't name it")
    _command(kinds, "verify", "telling.verify", "check what the plans store by the archive's own texts")


def _add_format(parser: argparse.ArgumentParser) -> None:
    parser.add_argument("--format", type=int, choices=(1, 2), help="2 has changes in batches, which new archives get; 1 can be read by programs from before them")


def _add_sources(parser: argparse.ArgumentParser) -> None:
    sources = parser.add_subparsers(required=True, metavar="SOURCE", dest="source")
    git = _command(sources, "git", "importing.import_source", "import the files of a branch, as each commit left them")
    git.add_argument("paths", type=Path, nargs="+", metavar="REPOSITORY")
    git.add_argument("--branch", default="HEAD", help="the branch whose first parents are followed (HEAD)")
    git.add_argument("--only", nargs="+", default=[], metavar="PATH", help="the files that these paths name for git")
    wiki = _command(sources, "mediawiki", "importing.import_source", "import a MediaWiki export and its logs")
    wiki.add_argument("paths", type=Path, nargs="+", metavar="DUMP.xml[.gz|.bz2]")
    wiki.add_argument("--keep-redirects", action="store_true", help="keep redirects as texts")
    warc = _command(sources, "warc", "importing.import_source", "import web captures")
    warc.add_argument("paths", type=Path, nargs="+", metavar="FILE.warc[.gz]", help="a file, or a folder of such files")
    folder = _command(sources, "folder", "importing.import_source", "import folders with dates, or files by time")
    folder.add_argument("paths", type=Path, nargs="+", metavar="TREE")
    folder.add_argument("--by-time", action="store_true", help="each file at its last change, whatever folders are called")
    for source in (git, wiki, warc, folder):
        source.add_argument("--prefix", default="", help="what the documents' names begin with")
        source.add_argument("--charset", help="the character set of what isn't UTF-8 and doesn't declare its own")
        source.add_argument("--keep-html", action="store_true", help="keep HTML as it is, with its tags")
        source.add_argument("-v", "--verbose", action="store_true", help="name each of what is otherwise only counted")
        source.add_argument("--dry-run", action="store_true", help="read all, tell what would be taken and refused, and send nothing")


def _add_questions(kinds: Kinds) -> None:
    find = _command(kinds, "find", "asking.find", "find the documents that had these words at a time")
    find.add_argument("words", metavar="WORDS", help="words, and, or, not, parentheses")
    find.add_argument("--at", default="now", metavar="TIME", help=_TIME)
    find.add_argument("--snippets", action="store_true", help="show the words in the texts that were found")
    between = _command(kinds, "between", "asking.between", "find when documents had these words")
    between.add_argument("words", metavar="WORDS")
    between.set_defaults(snippets=False)
    between.add_argument("--from", dest="start", default="1970", metavar="TIME", help=_TIME)
    between.add_argument("--to", dest="end", default="now", metavar="TIME", help="the first time not asked about")
    for question in (find, between):
        question.add_argument("--limit", type=int, default=0, metavar="N", help="show the first N rows (all)")
        question.add_argument("--tsv", action="store_true", help="rows as tab-separated values, and nothing else")
        question.add_argument("--parallel", action="store_true", help="ask the shards by GNU parallel")
        question.add_argument("--sshlogin", metavar="LOGINS", help="the same, on these machines")
    show = _command(kinds, "show", "asking.show", "show a document's text at a time")
    show.add_argument("name", metavar="NAME", help="the document's name, or #NUMBER")
    show.add_argument("--at", default="now", metavar="TIME", help=_TIME)
    plan = _command(kinds, "plan", "planning.plan", "store a plan of a word's list, which bounds reading or space")
    plan.add_argument("word", metavar="WORD")
    plan.add_argument("form", nargs="+", metavar="FORM", help="guarantee A/B, space A/B uniform, space A/B since TIME; 1.5 is 3/2")
    share = _command(kinds, "share", "sharing.share", "propose factors for the words that were asked most, within one budget")
    share.add_argument("log", type=Path, metavar="LOG", help="a file of lines `find TIME QUERY`, as in a script; - is standard input")
    share.add_argument("--words", nargs="+", default=[], metavar="WORD", help="the words (those that the log asks for most often)")
    share.add_argument("--budget", default="2", metavar="A/B", help="how many times the words' lists the plans may take together (2), at most 16")
    share.add_argument("--most", type=int, default=16, metavar="N", help="how many of the words that were asked most (16)")
    share.add_argument("--tsv", action="store_true", help="rows as tab-separated values, and nothing else")


def _add_documents(kinds: Kinds) -> None:
    log = _command(kinds, "log", "documents.log", "list a document's versions: when each begins, its bytes, and where the document ends")
    diff = _command(kinds, "diff", "documents.diff", "show what the version of a document that stands at a time changed, or all that changed until then")
    for one in (log, diff):
        one.add_argument("name", metavar="NAME", help="the document's name, or #NUMBER")
    diff.add_argument("--at", default="now", metavar="TIME", help=f"the version that stands then, and now where none is given: {_TIME}")
    diff.add_argument("--from", dest="start", metavar="TIME", help="show all that changed since this time (since the version before)")
    names = _command(kinds, "names", "documents.names", "list the documents whose names have this part, without regard to case and marks")
    names.add_argument("part", metavar="PART", nargs="?", default="", help="a part of the name (all names)")
    names.add_argument("--limit", type=int, default=0, metavar="N", help="show the first N names (all)")
    for listing in (log, names):
        listing.add_argument("--tsv", action="store_true", help="rows as tab-separated values, and nothing else")


def _add_pictures(kinds: Kinds) -> None:
    line = _command(kinds, "timeline", "pictures.draw_timeline", "draw a word over time, and what it costs to ask")
    trade = _command(kinds, "tradeoff", "pictures.draw_tradeoff", "draw space against reading, for factors from 1 to 4")
    for picture in (line, trade):
        picture.add_argument("word", metavar="WORD")
        picture.add_argument("-o", "--output", type=Path, metavar="FILE.svg", help="where the picture goes (WORD.svg)")
    trade.add_argument("--log", type=Path, metavar="LOG", help="for the questions of a file of lines `find TIME QUERY`, and with plans under a space bound")
    line.add_argument("--html", type=Path, metavar="FILE.html", help="write a page with the picture and a table, too")


def _add_serving(kinds: Kinds) -> None:
    serve = _command(kinds, "serve", "serving.serve.serve", "serve pages to ask the archive from, until it is stopped")
    serve.add_argument("--port", type=int, default=8080, metavar="N", help="the port (8080); 0 takes a free one")
    serve.add_argument("--bind", default="127.0.0.1", metavar="ADDRESS", help="the address (127.0.0.1, which only this machine reaches)")
    serve.add_argument("--name", action="append", default=[], metavar="HOST", help="a name under which browsers may ask")


def _add_following(kinds: Kinds) -> None:
    follow = _command(kinds, "follow", "following.follow", "follow another archive: take the entries that this one lacks, and the tables beside them")
    follow.add_argument("leader", nargs="+", metavar="LEADER", help="that archive's folder; behind `ssh HOST` one on another machine")
    follow.add_argument("--every", metavar="TIME", help="do so again every so often, such as 60s, until it is stopped (once)")
    export = _command(kinds, "export", "exporting.export", "write the tables and the entries from a number on for a `tt follow`, which runs this at its leader")
    export.add_argument("number", type=int, metavar="FROM")


def _add_cluster(parser: argparse.ArgumentParser) -> None:
    kinds = parser.add_subparsers(required=True, metavar="COMMAND")
    start = _command(kinds, "start", "cluster.running.start", "open each archive on its worker, and stay until it is stopped")
    start.add_argument("--local", type=int, default=0, metavar="N", help="start N workers on this machine")
    start.add_argument("--scheduler", metavar="ADDRESS", help="join the scheduler at tls://HOST:PORT; tcp:// only on this machine")
    start.add_argument("--tls", type=Path, metavar="FOLDER", help="the cluster's certificate: ca.pem, cert.pem and key.pem")
    _command(kinds, "status", "cluster.managing.status", "tell of each place where it is, what it has, and why it is lost")
    _command(kinds, "stop", "cluster.managing.stop", "end all programs in order, and the cluster")
    place = _command(kinds, "place", "cluster.managing.place", "make a copy of a shard on a worker")
    drop = _command(kinds, "drop", "cluster.managing.drop", "give up a shard's place on a worker")
    for one in (place, drop):
        one.add_argument("shard", type=int, metavar="SHARD", help="its number, from 0 on")
        one.add_argument("worker", metavar="WORKER", help="the worker's name")
    place.add_argument("folder", type=Path, metavar="FOLDER", help="a whole path on the worker's machine; made where it isn't there")
