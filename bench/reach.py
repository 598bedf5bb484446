#!/usr/bin/env python3
"""What a reader must believe: the definitions that a contract reaches, and their lines, by crate.

    bench/reach.py [--names] [FILE FUNCTION]

follows the names in the clauses of a function (`nezha` of crates/nz_top/src/top.rt, if none is given) through specs of
all crates. Lines that are blank, a comment or a `use` are not counted, nor are types of src. With --names it prints
each definition with its lines.
"""
import collections
import glob
import re
import sys

USE = re.compile(r"^(?:ghost )?use Rattle\.([\w.]+?)(?:\.\{([^}]*)\}| as (\w+));?$", re.M)
HEAD = re.compile(r"(?:  )?(?:(?:abbrev|unfoldable|record|data|pub) )+◌?([^\s:({◌]+)")
PART = re.compile(r" +(?:pub )?([^:(]+?) :(?: |$)")


def uses(text):
    """Of each name that is used its module and its name there, and of each short name its module."""
    names, modules = {}, {}
    for module, items, short in USE.findall(text):
        if short:
            modules[short] = module
        for item in filter(None, (part.strip() for part in items.split(","))):
            own, _, new = item.partition(" as ")
            names[(new or own).strip("◌")] = (module, own.strip("◌"))
    return names, modules


class Module:
    """A text of definitions: each with its lines, the definition of each name, and what is used of other modules."""

    def __init__(self, text):
        self.names, self.modules = uses(text)
        self.lines, self.home = collections.defaultdict(list), {}
        name = None
        for line in USE.sub("", text).split("\n"):
            head = HEAD.match(line)
            if not line.strip() or line.strip().startswith(("--", "pub mod ", "module ")):
                continue
            if head and not (line.startswith("  pub ") and not re.match("  pub (record|data) ", line)):
                name = head[1]
                self.home[name] = name
            elif part := PART.match(line):
                self.home.update((other, name) for other in part[1].split() if "data " in self.lines[name][0])
            self.lines[name].append(line)

    def targets(self, lines):
        """The modules and names that are named in the lines."""
        for word in re.findall(r'"[^"]*"|[^\s(){},;\[\]]+', "\n".join(line.split("-- ")[0] for line in lines)):
            first, _, rest = word.partition(".")
            if first in self.home:
                yield None, self.home[first]
            elif first in self.names:
                yield self.names[first]
            elif first in self.modules:
                yield self.modules[first], rest.partition(".")[0]


def main():
    words = [word for word in sys.argv[1:] if word != "--names"]
    path, function = words or ("crates/nz_top/src/top.rt", "nezha")
    modules = {}
    for name in glob.glob("crates/*/specs/**/*.antt", recursive=True):
        with open(name, encoding="utf-8") as file:
            modules[name[len("crates/"):-len(".antt")].replace("/", ".")] = Module(file.read())
    with open(path, encoding="utf-8") as file:
        text = file.read()
    contract = re.search(rf"pub fn {function}\b.*?\n *\{{", text, re.S)[0]
    reached, todo = set(), list(Module("\n".join(use[0] for use in USE.finditer(text))).targets(contract.split("\n")))
    while todo:
        where, name = todo.pop()
        if where in modules and name in modules[where].home:
            at = (where, modules[where].home[name])
            if at not in reached:
                reached.add(at)
                todo += [(other or where, of) for other, of in modules[where].targets(modules[where].lines[at[1]])]
    count = {at: len(modules[at[0]].lines[at[1]]) for at in sorted(reached)}
    if len(sys.argv) - 1 > len(words):
        for (where, name), size in count.items():
            print(f"{size:5} {where}.{name}")
    crates = collections.Counter()
    for (where, _), size in count.items():
        crates[where.split(".")[0]] += size
    for crate, size in crates.most_common():
        print(f"{size:5} lines of {sum(where.startswith(crate + '.') for where, _ in count)} definitions in {crate}")
    print(f"{sum(count.values()):5} lines of {len(count)} definitions in all")


main()
