"""`tools/install`: what it puts in place is tried from there; the manual pages say what the documents say."""

from __future__ import annotations

import configparser
import http.client
import os
import re
import shlex
import shutil
import subprocess
import sys
import tempfile
import unittest
from pathlib import Path

from support import TOOLS, find_program

sys.path.insert(0, str(TOOLS))

from installing.manuals import DOCS, manuals  # noqa: E402
from installing.roff import inline  # noqa: E402
from tt_archive_tools.cli import parsed as parsed_words  # noqa: E402

#: What each page is made of.
SOURCES = {"tt_archive.1": "manual.md", "tt.1": "keepers.md", "tt_archive.5": "formats.md"}


class Installed(unittest.TestCase):
    """The tests of what was installed once, for all of them."""

    @classmethod
    def setUpClass(cls) -> None:
        kept = tempfile.TemporaryDirectory()
        cls.addClassCleanup(kept.cleanup)
        cls.folder = Path(kept.name).resolve()
        cls.prefix = cls.folder / "usr local"
        programs = []
        for name, words in (("tt_archive", shlex.join(find_program(None))), ("tt_verify", "echo sound 0 0; exit 0;")):
            program = cls.folder / name
            program.write_text(f'#!/bin/sh\n{"exec " if name == "tt_archive" else ""}{words} "$@"\n')
            program.chmod(0o755)
            programs += [f"--{name}", str(program)]
        cls.words = [*programs, str(cls.prefix)]
        cls.install(*cls.words)
        cls.install(*cls.words)  # over what is there

    @staticmethod
    def install(*words: str) -> subprocess.CompletedProcess[str]:
        done = subprocess.run([sys.executable, str(TOOLS / "install"), *words], capture_output=True, text=True)
        assert done.returncode == 0, done.stderr
        return done

    def run_tt(self, *words: object) -> str:
        environment = {key: value for key, value in os.environ.items() if not key.startswith(("TT_", "PYTHON"))}
        run = [str(self.prefix / "bin" / "tt"), *map(str, words)]
        done = subprocess.run(run, cwd=self.folder, env=environment, capture_output=True, text=True)
        self.assertEqual(done.returncode, 0, done.stderr)
        return done.stdout

    def test_an_archive_from_there(self) -> None:
        file = self.folder / "tree" / "bridge.txt"
        file.parent.mkdir()
        file.write_text("The bridge is open.")
        os.utime(file, (1_185_148_800, 1_185_148_800))
        self.run_tt("init", "archive")
        self.assertEqual(self.run_tt("-C", "archive", "import", "folder", "tree"), "1 version and 0 deletions are in the archive\n")
        self.assertIn("1      bridge.txt", self.run_tt("-C", "archive", "find", "bridge"))
        verify = subprocess.run([self.prefix / "bin" / "tt_verify"], cwd=self.folder / "archive", capture_output=True, text=True)
        self.assertRegex(verify.stdout, r"^sound \d+ \d+\n$")
        environment = {key: value for key, value in os.environ.items() if not key.startswith("TT_")}
        serve = [str(self.prefix / "bin" / "tt"), "-C", "archive", "serve", "--port", "0"]
        with subprocess.Popen(serve, cwd=self.folder, env=environment, stdout=subprocess.PIPE, text=True) as served:
            assert served.stdout
            port = int(served.stdout.readline().rstrip("/\n").split(":")[2])
            for path, part in (("/", "1 document"), ("/page.css", "mark {"), ("/page.js", "'use strict'"), ("/favicon.ico", "<svg")):
                connection = http.client.HTTPConnection("127.0.0.1", port, timeout=20)
                connection.request("GET", path)
                self.assertIn(part, connection.getresponse().read().decode())
                connection.close()
            served.terminate()
        self.assertEqual(served.returncode, 0)

    def test_completions(self) -> None:
        script = self.prefix / "share" / "bash-completion" / "completions" / "tt"

        def completed(*words: str) -> list[str]:
            line = " ".join(map(shlex.quote, words))
            run = f'. {shlex.quote(str(script))}; COMP_WORDS=({line}) COMP_CWORD={len(words) - 1}; _tt; printf "%s\\n" "${{COMPREPLY[@]}}"'
            done = subprocess.run(["bash", "-c", run], cwd=self.folder, capture_output=True, text=True)
            self.assertEqual((done.returncode, done.stderr), (0, ""))
            return done.stdout.split()

        self.assertEqual(completed("tt", "fi"), ["find"])
        self.assertEqual(completed("tt", "-C", "a", "import", "me"), ["mediawiki"])
        self.assertEqual(completed("tt", "import", "git", "--br"), ["--branch"])
        self.assertEqual(completed("tt", "find", "bridge", "--a"), ["--at"])
        self.assertEqual(completed("tt", "-C", "usr"), ["usr", "local"])
        self.assertEqual(completed("tt", "import", "folder", "tt_v"), ["tt_verify"])
        self.assertIn("--port", completed("tt", "serve", "--"))

    def test_units(self) -> None:
        units = self.prefix / "lib" / "systemd" / "system"
        for unit in sorted(units.iterdir()):
            parsed = configparser.ConfigParser(strict=False, interpolation=None)
            parsed.optionxform = str  # type: ignore[assignment,method-assign]
            parsed.read(unit)
            self.assertIn("Description", parsed["Unit"])
            if unit.suffix == ".service":
                command = parsed["Service"]["ExecStart"]
                self.assertTrue(command.startswith(f"{self.prefix}/bin/tt -C /srv/tt/%i "), command)
                words = command.removeprefix(f"{self.prefix}/bin/tt ").replace("$TT_SERVE", "--port 1 --name a.example").split(" ")
                self.assertIn(parsed_words(words).run, ("serving.serve.serve", "refreshing.refresh"))
        self.assertEqual(len(list(units.iterdir())), 3)

    @unittest.skipUnless(shutil.which("systemd-analyze"), "there is no systemd-analyze")
    def test_units_as_systemd_reads_them(self) -> None:
        # The units name a path without a space, as systemd takes the first word for the program.
        place = self.folder / "plain"
        self.install(*self.words[:-1], str(place))
        names = [str(place / "lib" / "systemd" / "system" / name) for name in ("tt-serve@laws.service", "tt-refresh@laws.service", "tt-refresh@laws.timer")]
        for name in names:
            Path(name).symlink_to(re.sub("@laws", "@", Path(name).name))
        done = subprocess.run(["systemd-analyze", "verify", "--man=no", *names], capture_output=True, text=True)
        said = [line for line in done.stderr.splitlines() if "tt-" in line]
        self.assertEqual(said, [])

    def test_removed(self) -> None:
        place = self.folder / "other"
        self.install(*self.words[:-1], "--destdir", str(place), "/usr")
        units = place / "usr" / "lib" / "systemd" / "system"
        self.assertIn("ExecStart=/usr/bin/tt -C", (units / "tt-serve@.service").read_text())
        (place / "usr" / "bin" / "own").write_text("mine")
        self.install("--destdir", str(place), "--remove", "/usr")
        self.assertEqual([path for path in place.rglob("*") if path.is_file()], [place / "usr" / "bin" / "own"])

    def test_what_is_not_built(self) -> None:
        done = subprocess.run([sys.executable, str(TOOLS / "install"), "--tt_archive", "/none", "/tmp"], capture_output=True, text=True)
        self.assertEqual((done.returncode, done.stderr), (1, "tools/install: /none: there is no such program\n"))


class Manuals(unittest.TestCase):
    @unittest.skipUnless(shutil.which("groff"), "there is no groff")
    def test_the_pages_say_what_the_documents_say(self) -> None:
        for name, page in manuals().items():
            run = ["groff", "-ww", "-man", "-Tutf8", "-P-cbou", "-rLL=1000n", "-rHY=0"]
            done = subprocess.run(run, input=page, capture_output=True, text=True)
            self.assertEqual((done.returncode, done.stderr), (0, ""), name)
            if name in SOURCES:
                shown = done.stdout
                missing = {word for word in words_of((DOCS / SOURCES[name]).read_text()) if word not in shown}
                self.assertEqual(missing, set(), name)

    def test_every_command_has_its_words(self) -> None:
        page = manuals()["tt.1"]
        for words in ("find", "import mediawiki", "serve", "timeline", "cluster start", "cluster place"):
            self.assertIn(f'.SS "{words}"', page)
        self.assertEqual(inline(".a `-b` **c** [d](e) *f*"), ".a \\fB\\-b\\fR \\fBc\\fR d \\fIf\\fR")
        self.assertEqual(page.count("\n'"), 0)


def words_of(text: str) -> set[str]:
    """The words of a document, without what marks them up, the heads of tables, and what names other documents."""
    text = re.sub(r"^\|.*\n(?=\|[-| ]+\|$)", "", text, flags=re.M)
    text = re.sub(r"^# .*|`docs/\w+\.md`|\]\([^)]*\)|^```\w*$|^\|[-| ]+\|$", " ", text, flags=re.M)
    return {word for part in re.split(r"[`*|\[\]()!\s]+", text) for word in [part.strip(".:;,#")] if word and not word.startswith("-")}


