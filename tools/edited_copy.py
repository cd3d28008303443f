# What wrong-answers, definition-edits and archive share: entries of a text file, a copy of crates with an edit in it, and what the prover says of the copy.
#
# `rt check` proves a crate where it stands, over out/ of the crates below. A copy with an edit is checked by what `rt` itself calls, the kit's `rattle check`, over the
# same libraries and what earlier checks kept: as `rt must-fail` does, but with every function's line.
import os
import re
import shutil
import subprocess
import tempfile

ROOT = os.path.dirname(os.path.dirname(os.path.realpath(__file__)))
KIT = os.path.dirname(os.path.dirname(os.path.realpath(shutil.which("rt") or "/usr/local/bin/rt")))
PARTS = ("src", "specs", "proofs")
# Set by ./test where the libraries in crates/*/out are those that the `rt ci` just before proved and built, none older: then none is built again.
AFTER_CI = os.environ.get("AFTER_RT_CI") == "yes"


class BadEdit(Exception):
    """An edit that does not apply, or a file of edits that can't be read."""


def entries(path, keys):
    """The entries of a file: lines `KEY: text`, a blank line behind each entry; lines with # are remarks."""
    found, entry = [], {}
    for number, line in enumerate(open(path).read().split("\n") + [""], 1):
        if line.startswith("#"):
            continue
        if not line.strip():
            if entry:
                found.append(entry)
            entry = {}
            continue
        key, colon, text = line.partition(":")
        if not colon or key not in keys or key in entry:
            raise BadEdit(f"{path}:{number}: not one of {', '.join(keys)}, or twice in one entry")
        entry[key] = text.strip()
    return found


def replace_once(text, old, new, where):
    """Text with its one `old` (any white space where old has some) made `new`."""
    pattern = r"\s+".join(re.escape(word) for word in old.split())
    if re.match(r"\w", old):
        pattern = r"(?<!\w)" + pattern
    if re.search(r"\w$", old):
        pattern += r"(?!\w)"
    many = len(re.findall(pattern, text))
    if many != 1:
        raise BadEdit(f"{where}: '{old}' occurs {many} times, not once")
    return re.sub(pattern, lambda _: new, text)


def listed():
    """What each crate of crates.txt is built on, by its line, and whether it is a static library."""
    found = {}
    for line in open(os.path.join(ROOT, "crates.txt")):
        name, colon, rest = line.partition("#")[0].partition(":")
        if colon:
            words = name.split()
            found[words[0]] = (rest.split(), "staticlib" in words[1:])
    return found


def built_on(crate):
    """The crates of the repository that one is built on, each behind those that it is built on itself."""
    lines = listed()
    if crate not in lines:
        raise BadEdit(f"crates.txt has no crate {crate}")
    found = []

    def take(name):
        for below in lines[name][0]:
            if below in lines and below not in found:
                take(below)
                found.append(below)

    take(crate)
    return found


def rlib(name):
    return os.path.join(ROOT, "crates", name, "out", "rlib", f"{name}.rlib")


def words_for(crate, rlibs):
    """What `rattle check` and `rattle build` are told of a crate: its name, its root, its libraries (those of rlibs in the place of the repository's) and the kit."""
    uses, is_static = listed()[crate]
    below = built_on(crate)
    of = lambda name: rlibs.get(name, rlib(name))
    words = ["--crate-name", crate, "src/main.rt" if os.path.exists(os.path.join(ROOT, "crates", crate, "src", "main.rt")) else "src/lib.rt"]
    for name in ["std"] + [n for n in uses if n not in below]:
        words += ["--extern", f"{name}={KIT}/rlibs/{name}.rlib"]
    words += ["-L", f"dependency={KIT}/rlibs"]
    for name in uses:
        if name in below:
            words += ["--extern", f"{name}={of(name)}"]
    for name in below:
        words += ["-L", f"dependency={os.path.dirname(of(name))}"]
    words += ["--antt-project", f"{KIT}/rattle/logic/antt-project.json", "--logic-built", f"{KIT}/logic_built"]
    return words + (["--crate-type", "staticlib"] if is_static else [])


def run(words, folder):
    """What a command prints, and its exit status."""
    done = subprocess.run(words, cwd=folder, stdin=subprocess.DEVNULL, stdout=subprocess.PIPE, stderr=subprocess.STDOUT, text=True, errors="replace")
    return done.stdout, done.returncode


def ready(crate):
    """Sees to it that the libraries below a crate stand in out/: right behind `rt ci` they do; else by `rt check` of the crate, which builds them and proves the crate as it is."""
    if AFTER_CI:
        lacking = [name for name in built_on(crate) if not os.path.isfile(os.path.join(rlib(name), "format"))]
        if lacking:
            raise BadEdit(f"rt ci left no library of {lacking[0]}")
        return
    output, code = run(["rt", "check"], os.path.join(ROOT, "crates", crate))
    if code:
        raise BadEdit(f"{crate} is not proved as it is: {output[-3000:]}")


class Copy:
    """A copy of some crates' texts in a temporary folder, the last of which is checked, over the repository's libraries but for those that were built anew here."""

    def __init__(self, crate, others=()):
        self.crate = crate
        self.rlibs = {}
        self.folder = tempfile.mkdtemp(prefix="edited-copy-")
        for name in [*others, crate]:
            for part in PARTS:
                if os.path.isdir(os.path.join(ROOT, "crates", name, part)):
                    shutil.copytree(os.path.join(ROOT, "crates", name, part), self.path("crates", name, part))
            if not AFTER_CI:
                self.begin(name)

    def begin(self, name):
        """What the crate's own checks kept, for those here to begin with: proved files by links, since a check replaces such a file and changes none."""
        kept = os.path.join(ROOT, "crates", name, "out", "incremental")

        def copy(one, other):
            if one.endswith(".oantt"):
                try:
                    return os.link(one, other)
                except OSError:
                    pass
            return shutil.copy2(one, other)

        if os.path.isdir(kept):
            shutil.copytree(kept, self.kept(name), copy_function=copy)

    def kept(self, name):
        return self.path("kept", name)

    def __enter__(self):
        return self

    def __exit__(self, *_):
        shutil.rmtree(self.folder)

    def path(self, *parts):
        return os.path.join(self.folder, *parts)

    def read(self, name):
        return open(self.path(name)).read()

    def write(self, name, text):
        with open(self.path(name), "w") as f:
            f.write(text)

    def restore(self, name):
        shutil.copy(os.path.join(ROOT, name), self.path(name))

    def rattle(self, command, name, *flags):
        """What the kit's rattle says of a crate of the copy, with paths from the copy's folder on, and its exit status; once more by one job where it was killed."""
        words = [f"{KIT}/bin/rattle", command, *words_for(name, self.rlibs), *flags]
        for jobs in (os.environ.get("EDIT_JOBS", "1"), "1"):
            output, code = run([*words, "--jobs", jobs], self.path("crates", name))
            if code != -9:
                break
        at = f"crates/{name}/"
        return re.sub(rf"^(note: )?(?:\./)?((?:src|specs|proofs)/\S+:\d+:\d+: )", rf"\1{at}\2", output.replace(self.folder + "/", ""), flags=re.M), code

    def check(self, *flags):
        os.makedirs(self.kept(self.crate), exist_ok=True)
        return self.rattle("check", self.crate, "--incremental", self.kept(self.crate), *flags)

    def build(self, name):
        """Builds a library of the copy, for the crates above it here; what is said, and the exit status."""
        made = self.path("rlib", name, f"{name}.rlib")
        os.makedirs(os.path.dirname(made), exist_ok=True)
        os.makedirs(self.kept(name), exist_ok=True)
        output, code = self.rattle("build", name, "--incremental", self.kept(name), "-o", made)
        self.rlibs[name] = made
        return output, code


def errors(output):
    """The errors of a run: file, line, column, and what is said."""
    return [(m[1], int(m[2]), int(m[3]), m[4]) for m in re.finditer(r"^(\S+\.antt|\S+\.rt):(\d+):(\d+): error: (.*)$", output, re.M)]


def unread(output, edited):
    """The first line that says that a text of src/ or specs/, or an edited file, can't be read or compiled, where an edit that only makes a statement false reads well; as
    `rt must-fail` tells a BAD EDIT."""
    for line in output.split("\n"):
        if re.search(r"\berror\[[\w-]+\]", line):
            return line
        at = re.match(r"(\S+?):\d+:\d+: error: (?:(`[^`]*`): )?(.*)", line)
        if not at or at[1] not in edited and not re.match(r"crates/\w+/(src|specs)/", at[1]):
            continue
        said = re.sub(r"`[^`]*`", "", at[3])
        if not at[2] or re.search(r"is not in scope|has no field|is no name|operand is missing|expected the end|cannot continue", said):
            return line
    return ""


def row_at(copy, line):
    """The example (P1 to P13) whose row of the table is proved at a line of examples/proofs/Table.antt: both list the rows in one order."""
    proof = copy.read("crates/examples/proofs/Table.antt").split("\n")[:line]
    count = sum(1 for text in proof if re.match(r"\s*(refl|\(refl, refl\)),$|examples = \(refl", text))
    table = copy.read("crates/examples/specs/Examples.antt")
    table = table[table.index("\ntable =") :]
    row, rows = "", []
    for text in table.split("\n"):
        named = re.match(r"\s*-- (P\d+(?: to P\d+)?)", text)
        if named:
            row = named[1]
        elif row and re.match(r"\s*(∷ )?\w+ [\w(\[]", text):
            rows.append(row)
    return rows[count - 1] if 0 < count <= len(rows) else "no row"
