#!/usr/bin/env python3
"""Checks that README.md and the pages of docs/ say what is there.

    tools/pages.py [--program PATH] [TOP]

prints a line for each fault, and ends with status 1 if there is one. TOP is the repository, the one of this file if
left out. The program that is run is PATH, or crates/nezha/out/nezha where it is newer than all sources.

What is checked:

    links      each target of a link is a file, and each of its anchors a heading
    paths      each path is a file or folder. One without a crate is looked for in the crate of the path before it on
               its line; * and NAME stand for any name. In a column `file` or `files` of a table stand only paths
    names      each word between backticks, and each word with _ in a block, is in the sources, outside of comments;
               words of capitals alone stand for others, and a call of rt has its own words. Each nz_name is a crate
    outputs    a block of `text` after a block of `sh` and a paragraph that begins with `prints` is what the command
               prints; so is one after a remark <!-- output: COMMAND -->. After <!-- lines: COMMAND --> each of its lines
               is one of the output, in their order, and two spaces begin a comment of the page's own. After
               <!-- file: PATH --> it is that file. No other block looks like an output
    theorem    the quotation in README.md is that of docs/THEOREMS.md
    whole      each crate is in README.md and docs/ARCHITECTURE.md, and README.md has a link to each page
    marks      no mark of a merge is left
    sizes      README.md and docs/DECISIONS.md are no larger than LIMITS says

A command `nezha WORDS < scenarios/NAME` prints what is stored for it: scenarios/NAME.stdout,
crates/nezha/stdout, or the story in tools/stories.
Where the program is there it is run too. Any other command is run; one that calls nezha only where the program is.
"""
import glob
import os
import re
import subprocess
import sys

LIMITS = {"README.md": 11 * 1024, "docs/DECISIONS.md": 30 * 1024}

# Words between backticks that are of no source here: other programs and their words, and what a build makes.
OUTSIDE = set("rattle-kit-13f logic rt ci git cat clang cc python3 valgrind callgrind refl grind arith out cd".split())

SOURCES = ["crates/*/src/**/*.rt", "crates/*/specs/**/*.antt", "crates/*/proofs/**/*.antt", "crates/*/must-fail/*.edit"]
OTHERS = ["crates.txt", "HANDLES", ".ci/run", "bench/*.py", "tools/*.py", "scenarios/*", "crates/*/args"]
WORD = re.compile(r"[A-Za-z_][A-Za-z0-9_]*(?:-[A-Za-z0-9_]+)*")
PATH = re.compile(r"(?<![\w/~:.*-])(?:\.\./)*[\w.*-]+(?:/[\w.*-]+)+/?")
FILE = re.compile(r"(?<![\w/.*-])\w[\w-]*\.(?:rt|antt|py|md|svg|edit|txt)\b")
FIRST = re.compile(r"crates/|docs/|scenarios/|bench/|tools/|\.ci/|specs/|src/|proofs/|must-fail/|nz_\w+/|nezha/")
OUTPUT = re.compile(r"(send|accept|open|at) \S*\d|end$|refused |\d+ [rpc]\d+ |(sent|accepted|history) \d")


def read(path):
    with open(path, encoding="utf-8") as it:
        return it.read()


class Repository:
    """What the pages are compared with."""

    def __init__(self, top, program=None):
        self.top = top
        self.sources = self.files(SOURCES)
        self.program = program or self.built()
        self.waiting = []

    def files(self, patterns):
        return [path for pattern in patterns for path in sorted(glob.glob(f"{self.top}/{pattern}", recursive=True)) if os.path.isfile(path)]

    def built(self):
        program = f"{self.top}/crates/nezha/out/nezha"
        if not os.path.isfile(program):
            return None
        return program if all(os.path.getmtime(source) <= os.path.getmtime(program) for source in self.sources) else None

    def words(self):
        """The words of the sources outside of comments, of file names, and of the other files whole."""
        found = set(OUTSIDE)
        for path in self.sources:
            text = read(path)
            text = re.sub(r"(?m)(?<!:)//.*$" if path.endswith(".rt") else r"(?m)(^|\s)--\s.*$", "", text)
            found.update(self.parts(text))
        for path in self.files(OTHERS):
            found.update(self.parts(read(path)))
        for path in [*self.sources, *self.files(OTHERS)]:
            found.update(re.split(r"[/.]", os.path.relpath(path, self.top)))
        return found

    @staticmethod
    def parts(text):
        for word in WORD.findall(text):
            yield word
            yield from word.split("-")

    def stored(self, words, scenario):
        """The output that is kept for the command, or None."""
        story = f"{self.top}/tools/stories/{os.path.basename(scenario)}.story"
        if words == ["story"] and os.path.isfile(story):
            return read(story)
        for args, text, output in [
            (f"{scenario}.args", scenario, f"{scenario}.stdout"),
            ("crates/nezha/args", "crates/nezha/stdin", "crates/nezha/stdout"),
        ]:
            paths = [f"{self.top}/{path}" for path in (args, text, output)]
            if all(map(os.path.isfile, paths)) and read(paths[0]).split() == words and read(paths[1]) == read(f"{self.top}/{scenario}"):
                return read(paths[2])
        return None

    def run(self, command):
        folder = f"{os.path.dirname(os.path.abspath(self.program))}:" if self.program else ""
        environment = {**os.environ, "PATH": folder + os.environ["PATH"]}
        return subprocess.run(command, shell=True, cwd=self.top, env=environment, stdout=subprocess.PIPE, timeout=60).stdout.decode()

    def outputs(self, command):
        """What the command prints: as it is stored, and as it is run. None where neither is to be had."""
        through_rt = re.fullmatch(r"\(cd crates/nezha && rt (?:try|run) -- ([^<]*[^< ])(?: < \.\./\.\./(\S+))?\)", command)
        if through_rt:
            command = f"nezha {through_rt[1]}" + (f" < {through_rt[2]}" if through_rt[2] else "")
        found = []
        plain = re.fullmatch(r"nezha ([^<|]+) < (scenarios/\S+)", command)
        if plain:
            found = [output for output in [self.stored(plain[1].split(), plain[2])] if output is not None]
        needs_program = re.search(r"\bnezha\b", re.sub(r"\S*/\S*", "", command))
        if self.program or not needs_program:
            found.append(self.run(command))
        elif not found:
            self.waiting.append(command)
        return found


def blocks_of(text):
    """The parts of a page: ("prose", line, lines) and ("sh" or another word, line, lines) in turn."""
    kind, begin, lines = "prose", 1, []
    for number, line in enumerate(text.split("\n"), 1):
        fence = re.match(r"\s*```(\w*)\s*$", line)
        if fence and (kind == "prose" or not fence[1]):
            yield kind, begin, lines
            kind, begin, lines = (fence[1] or "plain") if kind == "prose" else "prose", number + 1, []
        else:
            lines.append(line)
    yield kind, begin, lines


class Page:
    def __init__(self, repository, name, words):
        self.repository = repository
        self.top = repository.top
        self.name = name
        self.folder = os.path.dirname(f"{self.top}/{name}")
        self.words = words
        self.faults = []

    def fault(self, line, text):
        self.faults.append(f"{self.name}:{line}: {text}")

    def check(self):
        text = read(f"{self.top}/{self.name}")
        size = len(text.encode())
        if size > LIMITS.get(self.name, size):
            self.fault(1, f"has {size} bytes, and may have {LIMITS[self.name]}")
        for number, line in enumerate(text.split("\n"), 1):
            if re.match(r"<{7}|={7}$|>{7}", line):
                self.fault(number, "a mark that a merge has left")
        blocks = list(blocks_of(text))
        for kind, begin, lines in blocks:
            column = None
            for number, line in enumerate(lines, begin):
                if kind == "prose":
                    column = self.columns(number, line, column)
                    self.check_links(number, line)
                    self.check_paths(number, re.sub(r"\]\([^)]*\)", "]", line))
                    self.check_names(number, line)
                else:
                    self.check_block_line(number, line)
        for at, (kind, begin, lines) in enumerate(blocks):
            if kind not in ("prose", "sh"):
                self.check_block(begin, lines, blocks[max(at - 2, 0) : at])
        return self.faults

    # ---- links, paths, names

    def check_links(self, number, line):
        for target in re.findall(r"\]\(([^)\s]+)\)", line):
            if re.match(r"\w+:", target):
                continue
            path, _, anchor = target.partition("#")
            file = os.path.join(self.folder, path) if path else f"{self.top}/{self.name}"
            if not os.path.exists(file):
                self.fault(number, f"no file {target}")
            elif anchor and anchor not in self.anchors(read(file)):
                self.fault(number, f"no heading {target}")

    @staticmethod
    def anchors(text):
        heads = re.findall(r"(?m)^#+ (.*)$", text)
        return {re.sub(r"[^\w -]", "", head.lower()).replace(" ", "-") for head in heads}

    def exists(self, path, crate):
        """Whether there is such a file or folder; NAME and * stand for any name."""
        pattern = re.sub(r"(?<![\w-])[A-Z]{2,}(?![\w-])(?!\.md)", "*", path).rstrip("/")
        if "/out/" in f"{pattern}/":
            pattern = pattern[: f"{pattern}/".index("/out/")]
        places = [self.top, f"{self.top}/crates", self.folder, f"{self.top}/crates/{crate or '*'}"]
        return any(glob.glob(os.path.join(place, pattern)) for place in places)

    def check_paths(self, number, line):
        crate = None
        found = [(it.start(), it[0].rstrip("."), True) for it in PATH.finditer(line)]
        found += [(it.start(), it[0], False) for it in FILE.finditer(line)]
        found += [(it.start(), it[0], None) for it in re.finditer(r"(?<![\w/.])nz_\w+\b(?!/)", line)]
        for _, word, is_path in sorted(found, key=lambda it: it[0]):
            if is_path is None:
                if os.path.isdir(f"{self.top}/crates/{word}"):
                    crate = word
                else:
                    self.fault(number, f"no crate {word}")
                continue
            if is_path:
                if word.startswith("../") or not FIRST.match(word) and not re.search(r"\.(rt|antt|py|md|svg|edit)$", word):
                    continue
                if not self.exists(word, crate):
                    self.fault(number, f"no file {word}")
                named = re.search(r"(?:^|crates/)(nz_\w+|nezha)/", word)
                crate = named[1] if named else crate
            elif not self.is_somewhere(word, crate):
                self.fault(number, f"no file {word}" + (f" in {crate}" if crate else ""))

    def is_somewhere(self, file, crate):
        crate = None if file.endswith((".md", ".py")) else crate
        where = [f"{self.top}/crates/{crate}/**/{file}"] if crate else [f"{self.top}/{place}**/{file}" for place in ("crates/*/", "docs/", "tools/", "bench/", "")]
        return any(glob.glob(pattern, recursive=True) for pattern in where)

    def columns(self, number, line, column):
        """The column of files in the table that the line is of; its cell may have paths alone."""
        if not line.startswith("|"):
            return None
        cells = [cell.strip() for cell in line.strip().strip("|").split("|")]
        if column is None:
            heads = [at for at, cell in enumerate(cells) if cell in ("file", "files")]
            return heads[0] if heads else -1
        if 0 <= column < len(cells) and not set(line) <= set("|- :"):
            for item in re.split(r"[,;]\s*", re.sub(r" in (?=nz_)", ", ", cells[column])):
                if item and not re.search(r"/|\.\w+$", item) and not re.fullmatch(r"`\w+`", item):
                    self.fault(number, f"no path: {item}")
        return column

    def check_names(self, number, line):
        for quoted in re.findall(r"`([^`]+)`", line):
            if quoted.startswith("rt ") or FIRST.match(quoted) and not re.search(r"\s", quoted):
                continue
            self.check_words(number, re.sub(r"\S*/\S*", " ", quoted))

    def check_words(self, number, text, with_line=lambda word: True):
        for word in WORD.findall(re.sub(r"\b(?=[0-9a-f]*\d)[0-9a-f]{4,}\b", "", text)):
            if not with_line(word) or len(word) == 1 or re.fullmatch(r"[A-Z]+|[rpcvfk][A-Z\d]", word):
                continue
            if word not in self.words and not all(part in self.words for part in word.split("-")):
                self.fault(number, f"no name {word}")

    def check_block_line(self, number, line):
        self.check_words(number, re.sub(r"\S*[/~]\S*", " ", line), lambda word: "_" in word)
        for path in PATH.findall(line):
            if FIRST.match(path) and not path.startswith("../") and not self.exists(path, None):
                self.fault(number, f"no file {path}")

    # ---- outputs

    def check_block(self, begin, lines, before):
        """A block that is no command, after at most two parts of the page."""
        prose = "\n".join(before[-1][2]).strip() if before else ""
        remark = re.search(r"<!-- (output|lines|file): (.*) -->$", prose)
        if remark:
            sort, what = remark[1], remark[2]
        elif len(before) == 2 and before[0][0] == "sh" and prose.startswith("prints"):
            sort, what = "output", "\n".join(before[0][2]).strip()
        else:
            if any(OUTPUT.match(line) for line in lines):
                self.fault(begin, "an output, and no command that prints it")
            return
        if sort == "file":
            path = f"{self.top}/{what}"
            if not os.path.isfile(path):
                self.fault(begin, f"no file {what}")
            elif read(path) != "\n".join([*lines, ""]):
                self.fault(begin, f"differs from {what}")
            return
        for output in self.repository.outputs(what):
            if sort == "lines":
                self.check_lines(begin, lines, output, what)
            elif output != "\n".join([*lines, ""]):
                self.fault(begin, f"differs from what is printed by {what}")

    def check_lines(self, begin, lines, output, what):
        rest = iter(output.split("\n"))
        for number, line in enumerate(lines, begin):
            shown = "" if line.startswith("   ") else re.split(r"(?<=\S)  ", line)[0]
            if shown and shown not in rest:
                self.fault(number, f"not printed, or not in this place, by {what}: {shown}")
                return


def quotation(text):
    return [line for line in text.split("\n") if line.startswith(">")]


def missing(top, pages):
    """The crates and pages that README.md and the map leave out."""
    first, theorems, architecture = (read(f"{top}/{name}") for name in ("README.md", "docs/THEOREMS.md", "docs/ARCHITECTURE.md"))
    if quotation(first) != quotation(theorems):
        yield "README.md: its theorem is not that of docs/THEOREMS.md"
    for crate in re.findall(r"(?m)^(\w+)[^#\n]*:", read(f"{top}/crates.txt")):
        for name, text in (("README.md", first), ("docs/ARCHITECTURE.md", architecture)):
            if not re.search(rf"\b{crate}\b", text):
                yield f"{name}: no word of the crate {crate}"
    for name in pages:
        if f"({name})" not in first:
            yield f"README.md: no link to {name}"


def check(top, program=None):
    """The faults of all pages, and the commands that wait for the program."""
    repository = Repository(top, program)
    words = repository.words()
    pages = sorted(f"docs/{os.path.basename(path)}" for path in glob.glob(f"{top}/docs/*.md"))
    faults = [fault for name in ["README.md", *pages] for fault in Page(repository, name, words).check()]
    return faults + list(missing(top, pages)), repository.waiting


def main(words):
    program = None
    if words[:1] == ["--program"]:
        program, words = os.path.abspath(words[1]), words[2:]
    top = words[0] if words else os.path.join(os.path.dirname(os.path.abspath(__file__)), "..")
    faults, waiting = check(os.path.abspath(top), program)
    for line in faults:
        print(line)
    for command in waiting:
        print(f"not run, since there is no program: {command}", file=sys.stderr)
    return 1 if faults else 0


if __name__ == "__main__":
    sys.exit(main(sys.argv[1:]))
