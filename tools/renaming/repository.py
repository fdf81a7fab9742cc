"""The moves of a step, done in the repository at a folder."""

from __future__ import annotations

import os
import re
import shutil
import subprocess
from pathlib import Path

from house.limits import all_excess
from house.sources import sources

from .places import Step, code_now, path_now, place_now, words_now
from .tables import ORDER, STEPS
from .words import Sweep, swept

LEFT_ALONE = ("tools/renames", "tools/renaming/", "tools/tests/test_renames.py")  # what speaks of older names
RESULTS = "bench/results/"  # what was measured of crates as they were: a crate that is part of another one keeps its name there
MODULE = re.compile(r"(pub )?mod (\w+)")
PUBLIC = re.compile(r"^pub use [\w:]+::(?:\{([^{}]*)\}|([\w ]+));", re.MULTILINE)
IMPORTED = re.compile(r"(?:\bRattle\.|\buse |\b)(\w+)(?=\.|::)")

Files = dict[str, str]


def texts_of(top: Path) -> Files:
    """The files of the repository that are text, by their paths."""
    listed = subprocess.run(["git", "ls-files", "-z"], cwd=top, stdout=subprocess.PIPE, check=True).stdout.decode().split("\0")
    found = {}
    for path in filter(None, listed):
        try:
            found[path] = (top / path).read_text(encoding="utf-8")
        except UnicodeDecodeError:
            pass
    return found


def is_done(step: Step, files: Files) -> bool:
    """Whether nothing is left that the step moves."""
    paths = [path.split("/", 1)[1] for path in files if path.startswith("crates/")]
    if step.crates:
        return not {path.split("/")[0] for path in paths} & step.crates.keys()
    return not {path.partition(".")[0] for path in paths} & step.moves.keys()


def edit_now(text: str, home: str, step: Step) -> str:
    """A wrong edit of a crate's file, whose first line names it."""
    lines = []
    for line in text.split("\n"):
        if line.startswith("file: "):
            crate, _, path = path_now(f"{home}/{line[6:]}", step.moves).partition("/")
            if crate != place_now(home, step.moves).split("/")[0]:
                raise SystemExit(f"an edit of {home} is of a file that goes to {crate}: {line[6:]}")
            lines.append(f"file: {path}")
        else:
            lines.append(code_now(line, home, place_now(home, step.moves).split("/")[0], step.moves))
    return "\n".join(lines)


def crate_file_now(path: str, text: str, step: Step) -> tuple[str, str]:
    """Where a file of a crate goes, and its text there."""
    home = path.split("/")[0]
    now = path_now(path, step.moves)
    if path.endswith((".rt", ".antt")):
        return now, code_now(text, home, now.split("/")[0], step.moves)
    if path.endswith(".edit"):
        return now, edit_now(text, home, step)
    return now, words_now(text, step.moves)


def lists_now(files: Files, step: Step) -> Files:
    """The lists of modules in specs/ and proofs/, by their paths below crates/, of the crates that the step joins or parts. What stood in a crate
    before stands first."""
    changed = {place_now(place.split("/")[0], step.moves).split("/")[0] for place in step.moves} | {it.split("/")[0] for it in step.moves.values()}
    first: dict[str, list[str]] = {}
    later: dict[str, list[str]] = {}
    for path, text in files.items():
        crate, kind, *name = path.split("/")
        if name == ["Lib.antt"] and kind in ("specs", "proofs"):
            for line in text.splitlines():
                match = MODULE.fullmatch(line)
                now, *inside = place_now(f"{crate}/{kind}/{match[2]}" if match else f"{crate}/{kind}", step.moves).split("/")
                lines = (first if now == crate else later).setdefault(f"{now}/{kind}/Lib.antt", [])
                lines.append(f"{match[1] or ''}mod {inside[1]}" if match else code_now(line, crate, now, step.moves))
    paths = {path: None for path in [*first, *later] if path.split("/")[0] in changed}
    return {path: joined([*first.get(path, ()), *later.get(path, ())]) for path in paths}


def joined(lines: list[str]) -> str:
    """Lines of modules of which none stands twice, and one that is public anywhere is public."""
    public = {line for line in lines if line.startswith("pub ")}
    kept = dict.fromkeys(f"pub {line}" if f"pub {line}" in public else line for line in lines)
    return "".join(f"{line}\n" for line in kept)


def crates_now(files: Files, step: Step) -> Files:
    """The files below crates/ behind the step."""
    before = {path[len("crates/") :]: text for path, text in files.items() if path.startswith("crates/")}
    lists, found = lists_now(before, step), dict[str, str]()
    for path, text in before.items():
        now, text = crate_file_now(path, text, step)
        text = step.texts.get(now, lists.get(now, text))
        if found.setdefault(now, text) != text:
            raise SystemExit(f"{path} would come to {now}, which another file has")
    found |= {path: text for path, text in {**lists, **step.texts}.items()}
    for path in step.texts:
        check_modules(path, found)
    return {f"crates/{path}": text for path, text in found.items()}


def check_modules(root: str, files: Files) -> None:
    """Ends where a root that was written by hand doesn't name just the files beside it."""
    folder = root.removesuffix("lib.rt") if root.endswith("/lib.rt") else root.removesuffix(".rt") + "/"
    beside = {path[len(folder) :].removesuffix(".rt") for path in files if path.startswith(folder) and path.endswith(".rt")}
    named = set(re.findall(r"^(?:pub )?mod (\w+);$", files[root], re.MULTILINE))
    if named != {it for it in beside if "/" not in it and it not in ("lib", "main")}:
        raise SystemExit(f"{root} names other modules than there are: {sorted(named ^ beside)}")


def last_name(crate: str, behind: Step) -> str:
    """What a crate is called behind the steps that come after one."""
    for step in STEPS[STEPS.index(behind) + 1 :] if behind in STEPS else ():
        crate = place_now(crate, step.moves).split("/")[0]
    return crate


def imported(crate: str, files: Files) -> set[str]:
    """The names in front of a dot or a path in a crate's files, among which are those of the crates that it speaks of."""
    return {name for path, text in files.items() if path.startswith(f"crates/{crate}/") for name in IMPORTED.findall(text)}


def list_now(text: str, files: Files, step: Step, order: Files) -> str:
    """The text of crates.txt: its lines in the order of the passes, with headings. Where crates are joined or parted, those that one stands on come
    from the top downward, with those of the kit behind them."""
    below: dict[str, list[str]] = {}
    changed = set(step.parted)
    for line in text.splitlines():
        name, colon, rest = line.partition("#")[0].partition(":")
        if colon:
            now = place_now(name.strip(), step.moves).split("/")[0]
            changed |= {now} & below.keys()
            below.setdefault(now, []).extend(place_now(it, step.moves).split("/")[0] for it in rest.split())
    for crate in step.parted:
        below.setdefault(crate, [])
    before = {it for crate in step.parted for it in below[crate]}
    for crate in step.parted:
        names = imported(crate, files) - {crate}
        kit = {it for rest in below.values() for it in rest} - below.keys()
        further = {it for name in names & below.keys() for it in below[name]} & before & below.keys()
        below[crate] = [it for it in [*below, *sorted(kit)] if it in names or it in further]
    for crate, rest in below.items():
        new = [it for it in step.parted if it not in rest and it != crate and it in imported(crate, files)]
        changed |= {crate} if new else set()
        rest += new
    downward = [it for role in reversed(order) for it in reversed(order[role].split())]
    rank = {it: at for at, it in enumerate(sorted(downward, key=lambda it: it[:3] in ("xs_", "xw_")))}
    for crate, rest in below.items():
        rest[:] = dict.fromkeys(it for it in rest if it != crate)
        if crate in changed:
            rest.sort(key=lambda it: rank.get(last_name(it, step), len(rank)))
    return listed(below, step, order)


def listed(below: dict[str, list[str]], step: Step, order: Files) -> str:
    """Lines of crates.txt by role."""
    left, parts = dict(below), []
    for role, crates_of_role in order.items():
        names = crates_of_role.split()
        crates = sorted((it for it in left if last_name(it, step) in names), key=lambda it: names.index(last_name(it, step)))
        parts.append("".join(f"{line}\n" for line in [f"# {role}", *(f"{it}: {' '.join(left.pop(it))}".rstrip() for it in crates)]))
    if left:
        raise SystemExit(f"the order of crates doesn't have {', '.join(left)}")
    return "\n".join(parts)


def known_now(text: str, step: Step) -> str:
    """The list of what is beyond the house's limits, in the order in which it is written."""
    head, *rows = words_now(text, step.moves).splitlines()

    def key(row: str) -> tuple[str, str, int]:
        limit, amount, where = row.split(" ", 2)
        return limit, where, int(amount)

    return "".join(f"{line}\n" for line in [head, *sorted(rows, key=key)])


def files_now(files: Files, step: Step, order: Files) -> Files:
    """All files behind a step, with the crates in the order of their roles."""
    crates = crates_now(files, step)
    merges = [it for it in step.crates.values() if sum(now == it for now in step.crates.values()) > 1 or f"crates/{it}/src/lib.rt" in files]
    found = dict(crates)
    for path, text in files.items():
        if path == "crates.txt":
            found[path] = list_now(text, crates, step, order)
        elif path == "tools/house/known.txt":
            found[path] = known_now(text, step)
        elif path.startswith(RESULTS):
            kept = {place: now for place, now in step.crates.items() if now not in merges}
            found[path] = words_now(text, kept)
        elif path.startswith(LEFT_ALONE):
            found[path] = text
        elif not path.startswith("crates/"):
            found[path] = words_now(text, step.moves)
    return found


def said_twice(before: Files, after: Files) -> list[str]:
    """The lines of pages and programs in which a crate is named twice, where two were named."""
    twice = re.compile(r"\b(x[a-z]_\w+)\b(?!/)(?=.*?(?<![/\w])\1\b(?!/))")
    found = []
    for path, text in after.items():
        if not path.startswith("crates") and path in before and text != before[path]:
            pairs = zip(before[path].split("\n"), text.split("\n"))
            lines = [(at, new) for at, (old, new) in enumerate(pairs, 1) if twice.search(new) and not twice.search(old)]
            found += [f"{path}:{at}: {line}" for at, line in lines]
    return found


def no_longer_public(before: Files, after: Files) -> list[str]:
    """What roots of crates let others call before, and none does now."""

    def public(files: Files) -> set[str]:
        roots = [text for path, text in files.items() if path.endswith("/src/lib.rt")]
        named = [several or one for text in roots for several, one in PUBLIC.findall(text)]
        return {it.split(" as ")[-1].strip() for names in named for it in names.split(",")}

    return sorted(public(before) - public(after))


def write(top: Path, before: Files, after: Files) -> None:
    """Writes what has changed. A crate's folder goes with its last file, and with what `rt` kept there, which serves no other name."""
    for path, text in after.items():
        if before.get(path) != text:
            (top / path).parent.mkdir(parents=True, exist_ok=True)
            (top / path).write_text(text, encoding="utf-8")
    for path in before.keys() - after.keys():
        (top / path).unlink()
        folder = (top / path).parent
        while folder != top and not any(folder.iterdir()):
            folder.rmdir()
            folder = folder.parent
    gone = {path.split("/")[1] for path in before.keys() - after.keys() if path.startswith("crates/")}
    for crate in gone - {path.split("/")[1] for path in after if path.startswith("crates/")}:
        if {it.name for it in (top / "crates" / crate).glob("*")} <= {"out"}:
            shutil.rmtree(top / "crates" / crate, ignore_errors=True)


def lay_out(top: Path, before: Files, after: Files) -> None:
    """Has `rt fmt` lay out each crate whose files have changed."""
    crates = sorted({path.split("/")[1] for path, text in after.items() if path.startswith("crates/") and before.get(path) != text})
    for crate in crates:
        done = subprocess.run(["rt", "fmt"], cwd=top / "crates" / crate, stdin=subprocess.DEVNULL, capture_output=True, text=True, check=False)
        if done.returncode:
            print(f"{crate}: rt fmt: {done.stdout}{done.stderr}".rstrip())


def apply(top: Path, step: Step, has_commit: bool) -> None:
    """Does a step in the repository, as a commit of its own if that is wanted, and tells what is to be looked at by hand."""
    before = texts_of(top)
    if is_done(step, before):
        print(f"{step.name}: done before")
        return
    after = files_now(before, step, ORDER)
    write(top, before, after)
    if shutil.which("rt"):
        lay_out(top, before, after)
    for program, *words in (["crates"], ["lint", "--shrink"]):
        subprocess.run([os.fspath(top / "tools" / program), *words], cwd=top, check=False)
    subprocess.run(["git", "add", "--all"], cwd=top, check=True)
    if has_commit:
        subprocess.run(["git", "commit", "--quiet", "--message", step.subject, "--message", step.why], cwd=top, check=True)
    print(f"{step.name}: {sum(before.get(path) != text for path, text in after.items())} files")
    for line in said_twice(before, after):
        print(f"look at {line}")
    if lost := no_longer_public(before, after):
        print(f"no longer public: {', '.join(lost)}")


def apply_words(top: Path, sweep: Sweep, has_commit: bool) -> None:
    """Changes the words of a sweep in the repository, as a commit of its own if that is wanted. Nothing is written where a new word meets another
    one: a row for the file that is told has to give that one another name."""
    before, refused = texts_of(top), list[str]()
    after = swept(before, sweep, refused)
    if refused:
        raise SystemExit("\n".join([f"{sweep.name}: nothing is written, for", *refused]))
    if after == before:
        print(f"{sweep.name}: done before")
        return
    write(top, before, after)
    if shutil.which("rt"):
        lay_out(top, before, after)
    measure_anew(top)
    subprocess.run(["git", "add", "--all"], cwd=top, check=True)
    if has_commit:
        subprocess.run(["git", "commit", "--quiet", "--message", sweep.subject, "--message", sweep.why], cwd=top, check=True)
    print(f"{sweep.name}: {sum(before.get(path) != text for path, text in after.items())} files")


def measure_anew(top: Path) -> None:
    """Writes the amounts of what is known to be beyond the house's limits: a longer word makes the same clause longer. What wasn't beyond a limit
    isn't added."""
    known, found = top / "tools" / "house" / "known.txt", all_excess(sources(top))
    head, *rows = known.read_text(encoding="utf-8").splitlines()
    keys = [(limit, where) for limit, _, where in (row.split(" ", 2) for row in rows)]
    kept = sorted((limit, where) for limit, where in keys if (limit, where) in found)
    lines = [head, *(f"{limit} {found[limit, where]} {where}" for limit, where in kept)]
    known.write_text("".join(f"{line}\n" for line in lines), encoding="utf-8")
