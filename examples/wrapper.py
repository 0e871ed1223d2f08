#!/usr/bin/env python3
"""Tries ./sixel, ./prove, ./install and ./package on a copy, with a stand-in for rt that records its calls:

    examples/wrapper.py

The program that the stand-in builds writes the text of its source. All is written in a temporary folder. The last line
counts what passed, what failed, and what was skipped because this machine lacks git, dpkg-deb or lintian. tests/run
calls this too.
"""

import os
import pathlib
import re
import shutil
import subprocess
import sys
import tempfile
import time

ROOT = pathlib.Path(__file__).resolve().parent.parent

# Builds a program that writes the text of crates/sixel/src/main.rt, its arguments and the folder that it runs in, and
# that doesn't start where BROKEN is set. With a file beside its log it fails, takes four seconds, or changes the source
# when it has built.
RT = r"""#!/bin/sh
echo "$PWD: $*" >> "$CALLS"
[ ! -e "$CALLS.fails" ] && [ -z "$RT_BACKEND" ] || { echo 'a proof is missing'; exit 1; }
[ ! -e "$CALLS.slow" ] || sleep 4
mkdir -p out
{
    echo '#!/bin/sh'
    echo 'test -z "$BROKEN" || { echo no such library; exit 1; }'
    echo "echo \"$(cat src/main.rt): \$*: \$PWD\""
} > out/sixel
chmod +x out/sixel
[ ! -e "$CALLS.changes" ] || echo changed > src/main.rt
"""

# Always the same text, and a failure.
FAILING_SUM = """#!/bin/sh
echo 0
exit 1
"""

# A machine of another kind.
OTHER_MACHINE = """#!/bin/sh
echo Linux aarch64
"""

# What the scripts call beside sha256sum.
TOOLS = """awk bash cat cut dirname env find head install mktemp mv readlink rm rmdir sed sh sleep sort stat tail uname
    xargs""".split()
# Those without which no sum of the sources can be had.
WANTED = ["awk", "cut", "find", "sha256sum", "sort", "uname", "xargs"]

# What ./install copies besides the program, and where to.
PAGES = [f"docs/{name}.md" for name in "USING RULES REFUSALS RECIPES FIELD PROVED CHANGES".split()]
PICTURES = [f"pictures/{name}.png" for name in "differ redefined register uncovered unselected".split()]
COPIES = {
    "docs/sixel.1": "share/man/man1/sixel.1",
    "completions/sixel.bash": "share/bash-completion/completions/sixel",
    "completions/_sixel": "share/zsh/site-functions/_sixel",
    "completions/sixel.fish": "share/fish/vendor_completions.d/sixel.fish",
    "README.md": "share/doc/sixel/README.md",
    **{page: page.replace("docs", "share/doc/sixel") for page in PAGES},
    **{f"docs/{picture}": f"share/doc/sixel/{picture}" for picture in PICTURES},
}
# What a clone has for git.
GIT_FILES = (".gitattributes", ".gitignore", ".pre-commit-hooks.yaml")

faults = []
tried = 0
runs = 0
skipped = []


def want(is_right, said):
    global tried
    tried += 1
    if not is_right:
        faults.append(said)


def skip(count, why):
    skipped.append(count)
    print(f"skipped {count}: {why}")


def installed(source):
    """What is installed of a file. The pages lie in one folder then, and their links lead there."""
    text = source.read_bytes()
    if source.suffix == ".md":
        text = text.replace(b"](../README.md", b"](README.md").replace(b"](docs/", b"](")
    return text


def write_script(path, text):
    path.parent.mkdir(parents=True, exist_ok=True)
    path.write_text(text)
    path.chmod(0o755)


class Clone:
    """A copy of the scripts, with a source in each folder of each crate, and a folder beside it to call them from."""

    def __init__(self, above):
        self.root = above / "a clone"
        self.elsewhere = above / "elsewhere"
        self.prefix = above / "prefix"
        self.stage = above / "stage"
        self.calls = above / "calls"
        self.failing_sum = above / "failing sum"
        self.main = self.root / "crates/sixel/src/main.rt"
        self.program = self.root / "crates/sixel/out/sixel"
        self.dist = self.root / "dist/sixel"
        self.looked = self.root / "dist/looked"
        self.bin = above / "bin"
        scripts = ("sixel", "prove", "install", "package", "dist/path", "dist/program.sh", "crates.txt")
        for name in (*scripts, *GIT_FILES, *COPIES):
            (self.root / name).parent.mkdir(parents=True, exist_ok=True)
            shutil.copy(ROOT / name, self.root / name)
        self.crates = dict(re.findall(r"^(\w+):(.*)", (ROOT / "crates.txt").read_text(), re.MULTILINE))
        for crate in self.crates:
            for kind in ("src", "specs", "proofs"):
                (self.root / "crates" / crate / kind).mkdir(parents=True)
                (self.root / "crates" / crate / kind / "a source.rt").write_text("0")
        self.main.write_text("first")
        self.elsewhere.mkdir()
        write_script(self.bin / "rt", RT)
        write_script(self.failing_sum / "sha256sum", FAILING_SUM)
        write_script(above / "other machine" / "uname", OTHER_MACHINE)
        self.without_rt = self.path_without("rt")
        self.other_machine = f"{above / 'other machine'}:{self.without_rt}"
        self.log = above / "started"
        for name in (*TOOLS, "sha256sum"):
            logs = name not in ("bash", "env", "sh")
            real = shutil.which(name)
            write_script(above / "logged" / name, f'#!/bin/sh\n{f"echo {name} >> {self.log}" if logs else ""}\n'
                         f'exec {real} "$@"\n')

    def path_without(self, *names):
        """A folder with what the scripts call but for rt and these."""
        folder = self.bin.with_name("without " + " and ".join(names))
        if not folder.exists():
            folder.mkdir()
            for name in {*TOOLS, "sha256sum"} - {*names}:
                (folder / name).symlink_to(shutil.which(name))
        return str(folder)

    def below_the_program(self):
        """The crates that the program is built from."""
        found, left = set(), ["sixel"]
        while left:
            crate = left.pop()
            if crate in self.crates and crate not in found:
                found.add(crate)
                left += self.crates[crate].split()
        return found

    def run(self, words, folder=None, **more):
        """The status and both outputs of a script, by default called from elsewhere, and how often it called rt."""
        global runs
        runs += 1
        self.calls.write_text("")
        env = {
            **os.environ,
            "PATH": f"{self.bin}:{os.environ['PATH']}",
            "CALLS": str(self.calls),
            "DESTDIR": "",
            "TMPDIR": str(self.calls.parent),
            **more,
        }
        how = {"stdin": subprocess.DEVNULL, "capture_output": True, "text": True, "timeout": 60}
        got = subprocess.run(words, cwd=folder or self.elsewhere, env=env, **how)
        calls = self.calls.read_text().splitlines()
        want(set(calls) <= {f"{self.root}/crates/sixel: run -- --help"}, f"{words}: rt was called as {calls}")
        return got.returncode, got.stdout, got.stderr, len(calls)

    def want_run(self, text, calls, after, **more):
        """The wrapper runs the program that was built from this text, and hands on what it is given."""
        got = self.run([self.root / "sixel", "list", "two words"], **more)
        wanted = (0, f"{text}: list two words: {self.elsewhere}\n", "", calls)
        want(got == wanted, f"./sixel {after}: {got}, and not {wanted}")

    def age(self):
        """Makes all files an hour old."""
        for path in self.root.rglob("*"):
            if path.is_file():
                an_hour_ago = path.stat().st_mtime - 3600
                os.utime(path, (an_hour_ago, an_hour_ago))

    def keep_look(self):
        """Has the wrapper keep what it sees. Of a second in which something was changed it keeps nothing."""
        time.sleep(1.05 - time.time() % 1)
        self.want_run("seventh", 0, "a second later", PATH=self.without_rt)
        want(self.looked.exists(), "./sixel keeps nothing of what it saw")

    def started(self):
        """What the wrapper starts, beside the program, to run it."""
        self.log.write_text("")
        self.want_run("seventh", 0, "with what it starts logged", PATH=str(self.log.with_name("logged")))
        return sorted(self.log.read_text().split())

    def want_proved(self, words, status, said, calls, after, **more):
        got = self.run([self.root / "prove", *words], **more)
        text = got[1] if status == 0 else got[2]
        want((got[0], got[3]) == (status, calls) and said in text, f"./prove {words} {after}: {got}")

    def want_unbuilt(self, calls, said, after, **more):
        """The wrapper runs no program at all. What it says ends a line, or is a part of it."""
        status, output, errors, called = self.run([self.root / "sixel", "list"], **more)
        is_said = errors == said if said.endswith("\n") else said in errors
        is_right = (status, output, called) == (125, "", calls) and is_said
        want(is_right, f"./sixel {after}: {(status, output, errors, called)}")

    def run_as_nobody(self, **more):
        nobody = [shutil.which("setpriv"), "--reuid=65534", "--regid=65534", "--clear-groups"]
        return self.run([*nobody, self.root / "sixel", "list"], **more)

    def want_install(self, words, status, said, calls=0, **more):
        got = self.run([self.root / "install", *words], **more)
        is_right = (got[0], got[3]) == (status, calls) and said in got[1 if status == 0 else 2]
        want(is_right and not got[2 if status == 0 else 1], f"./install {words}: {got}")


def run_wrapper(clone):
    clone.want_run("first", 1, "at first")
    clone.want_run("first", 0, "again")
    clone.main.write_text("second")
    clone.want_run("second", 1, "after a change")
    clone.main.write_text("third")
    clone.want_run("third", 1, "after a second change")
    clone.want_run("third", 0, "after that")
    clone.main.write_text("third")
    clone.want_run("third", 0, "with the same text written anew")
    for crate in clone.crates:
        for kind in ("src", "specs", "proofs"):
            source = clone.root / "crates" / crate / kind / "a source.rt"
            source.write_text("1")
            is_used = crate in clone.below_the_program()
            clone.want_run("third", int(is_used), f"after a change of {crate}/{kind}")
    (clone.root / "crates/sixel/src/more.rt").write_text("")
    clone.want_run("third", 1, "with one more source")
    (clone.root / "crates/sixel/src/more.rt").unlink()
    clone.want_run("third", 1, "with one source less")
    with open(clone.program, "a") as program:
        program.write("echo it was changed\n")
    clone.main.touch()
    clone.want_run("third", 1, "with a program that was changed")
    clone.program.unlink()
    clone.want_run("third", 1, "without the program")
    crates = (clone.root / "crates.txt").read_text()
    (clone.root / "crates.txt").write_text(crates.replace("sixel: ", "sixel: itoa ", 1))
    clone.want_run("third", 1, "with another list of crates")
    (clone.root / "crates.txt").write_text(crates)
    clone.want_run("third", 1, "with the list of before")
    link = clone.elsewhere / "link"
    link.symlink_to(clone.root / "sixel")
    got = clone.run(["./link", "check"])
    want(got == (0, f"third: check: {clone.elsewhere}\n", "", 0), f"./sixel by a link: {got}")


def run_failures(clone):
    """A program that can't be built is never the one that was there before."""
    fails = clone.calls.with_name("calls.fails")
    fails.write_text("")
    clone.main.write_text("fourth")
    clone.want_unbuilt(1, "a proof is missing", "where rt fails")
    clone.want_unbuilt(1, "a proof is missing", "where rt fails again")
    clone.want_install([clone.prefix], 125, "a proof is missing", 1)
    want(not clone.prefix.exists(), "./install installed a program that wasn't built")
    fails.unlink()
    clone.want_run("fourth", 1, "where rt fails no longer")
    # Each sum is the same here as the one before, and none is of the sources.
    path = f"{clone.failing_sum}:{clone.bin}:{os.environ['PATH']}"
    for text in ("fifth", "sixth"):
        clone.main.write_text(text)
        clone.want_unbuilt(0, "can't all be read", "where no sum can be made", PATH=path)
    clone.want_run("sixth", 1, "where sums can be made again")


NO_RT = "the command rt of the Rattle kit, which proves and builds it, is not on the PATH\n"
OLD = f"sixel: dist/sixel is older than the sources, and {NO_RT}"
DAMAGED = (
    "sixel: dist/sixel is damaged, or isn't the program of dist/sixel.built (`git checkout dist` brings both back), and "
)
UNKNOWN = DAMAGED + NO_RT
NOTHING = "sixel: there is no dist/sixel (`git checkout dist` brings it back), and "
SAME, OTHER = "dist/sixel is what these sources build\n", "./prove --write puts it there"


def unbuild(clone):
    shutil.rmtree(clone.program.parent, ignore_errors=True)


def run_prove(clone):
    """./prove builds whatever is there, and puts nothing else into dist/."""
    clone.main.write_text("seventh")
    clone.want_proved([], 1, OTHER, 1, "without dist/sixel")
    clone.want_proved(["--compare"], 1, OTHER, 0, "without dist/sixel")
    clone.want_proved(["--write"], 0, SAME, 1, "")
    clone.want_proved([], 0, SAME, 1, "over a fresh dist/sixel")
    clone.want_proved(["--compare"], 0, SAME, 0, "over a fresh dist/sixel")
    for words in (["--wrong"], ["--write", "--write"]):
        clone.want_proved(words, 3, "usage: ./prove", 0, "")
    clone.want_proved(["--help"], 0, "usage: ./prove", 0, "")
    clone.want_proved([], 125, f"sixel: {NO_RT}", 0, "without rt", PATH=clone.without_rt)
    clone.program.write_text("#!/bin/sh\necho another\n")
    clone.want_proved(["--compare"], 125, "crates/sixel/out/sixel isn't the program of these sources", 0, "of another")
    clone.want_proved(["--write"], 0, SAME, 1, "over another build")
    want("seventh" in clone.dist.read_text(), "./prove --write put another program into dist/")
    changes = clone.calls.with_name("calls.changes")
    changes.write_text("")
    clone.want_proved(["--write"], 125, "the sources have changed while the program was built", 1, "during a change")
    changes.unlink()
    clone.want_run("changed", 1, "after a change during a build")
    clone.main.write_text("seventh")
    (clone.root / "dist/sixel.new").mkdir()
    clone.want_proved(["--write"], 125, "sixel: dist/ can't be written\n", 1, "where nothing can be written")
    (clone.root / "dist/sixel.new").rmdir()
    clone.want_proved(["--write"], 0, SAME, 1, "with RT_BACKEND", RT_BACKEND="rattle")


def run_dist(clone):
    """The program in dist/ runs if it is that of the sources, and only then."""
    unbuild(clone)
    # As in a clone: dist/ was written last, and nothing has looked at it.
    (clone.root / "dist/sixel.built").touch()
    clone.want_run("seventh", 0, "with a fresh dist/sixel")
    clone.keep_look()
    clone.want_run("seventh", 0, "with a fresh dist/sixel, again")
    clone.main.write_text("seventh")
    clone.want_run("seventh", 0, "with a fresh dist/sixel, and the same text written anew")
    got = clone.run([clone.root / "dist/path"])
    want(got == (0, f"{clone.dist}\n", "", 0), f"dist/path: {got}")
    clone.want_run("seventh", 0, "without rt", PATH=clone.without_rt)
    clone.want_install(["--prove", clone.prefix], 125, f"sixel: {NO_RT}", PATH=clone.without_rt)
    clone.want_install([clone.prefix], 0, f"installed {clone.prefix}/bin/sixel\n", PATH=clone.without_rt)
    clone.want_install(["--uninstall", clone.prefix], 0, "removed", PATH=clone.without_rt)
    # Where nothing can be kept, as in a checkout that is read-only.
    clone.looked.unlink()
    clone.looked.mkdir()
    clone.want_run("seventh", 0, "where nothing can be written")
    clone.looked.rmdir()
    if os.geteuid() == 0:
        for after in ("first", "with a file that it can write"):
            got = clone.run_as_nobody(PATH=clone.without_rt, HOME="")
            want(got == (0, f"seventh: list: {clone.elsewhere}\n", "", 0), f"./sixel as nobody, {after}: {got}")
            clone.looked.write_text("")
            clone.looked.chmod(0o666)
        clone.looked.unlink()
    want(not [*clone.looked.parent.glob("looked.*")], "./sixel left a file in dist/")


def run_look(clone):
    """A call looks at what the file system tells of the places first, and reads nothing if that is as it was."""
    clone.keep_look()
    started = clone.started()
    want(started == ["sha256sum", "stat", "xargs"], f"./sixel starts {started}, though nothing has changed")
    clone.want_run("seventh", 0, "without find and awk", PATH=clone.path_without("find", "awk"))
    clone.main.touch()
    want("find" in clone.started(), "./sixel doesn't look at what was touched")
    crate = clone.root / "crates/sixel_io"
    source, other = crate / "src/a source.rt", clone.elsewhere / "other.rt"
    crates, sums = clone.root / "crates.txt", clone.dist.with_name("sixel.built")
    touched = [crate, crate / "src", crate / "proofs", source, crates, clone.dist, sums]
    other.write_text("9")
    times = source.stat()
    os.utime(other, ns=(times.st_atime_ns, times.st_mtime_ns))

    def want_noticed(after, change, undo, said=OLD):
        """The change is noticed, also if it leaves sizes and the times of the last writing as they were."""
        clone.keep_look()
        kept = {path: path.stat() for path in touched}
        change()
        for path, times in kept.items():
            if path.exists():
                os.utime(path, ns=(times.st_atime_ns, times.st_mtime_ns))
        clone.want_unbuilt(0, said, f"with {after}", PATH=clone.without_rt)
        undo()
        want("find" in clone.started(), f"./sixel doesn't look again when it has met {after}")

    def want_noticed_text(after, path, text, said=OLD):
        kept = path.read_text()
        want_noticed(after, lambda: path.write_text(text(kept)), lambda: path.write_text(kept), said)

    want_noticed_text("a changed source", source, lambda _: "9")
    want_noticed_text("another list of crates", crates, lambda it: it.replace("sixel: ", "sixel: itoa ", 1))
    want_noticed_text("another dist/sixel", clone.dist, lambda it: it.replace("seventh", "SEVENTH"), UNKNOWN)
    want_noticed_text("other sums", sums, lambda it: "0" * 64 + it[64:])
    kept = source.read_text()
    want_noticed("another file in a source's place", lambda: os.replace(other, source), lambda: source.write_text(kept))
    more = crate / "src/more.rt"
    want_noticed("a new source", lambda: more.write_text(""), more.unlink)
    want_noticed("one source less", source.unlink, lambda: source.write_text(kept))
    want_noticed("a new name", lambda: source.rename(more), lambda: more.rename(source))
    deep = crate / "proofs/deep"

    def make_deep():
        deep.mkdir()
        (deep / "Proof.antt").write_text("")

    want_noticed("a source in a new folder", make_deep, lambda: shutil.rmtree(deep))
    proofs = crate / "proofs"

    def swap():
        proofs.rename(clone.elsewhere / "proofs")
        proofs.mkdir()
        (proofs / "a source.rt").write_text("9")

    def swap_back():
        shutil.rmtree(proofs)
        (clone.elsewhere / "proofs").rename(proofs)

    want_noticed("another folder in a folder's place", swap, swap_back)
    # A program that is built here is taken before the one in dist/.
    clone.keep_look()
    clone.want_proved([], 0, SAME, 1, "beside a fresh dist/sixel")
    clone.dist.rename(clone.elsewhere / "dist")
    clone.want_run("seventh", 0, "with a program that was built since the last look", PATH=clone.without_rt)
    (clone.elsewhere / "dist").rename(clone.dist)
    unbuild(clone)
    clone.keep_look()
    # The copy has the sizes and times of the clone, and what the last look kept.
    copy = clone.elsewhere / "copy"
    shutil.copytree(clone.root, copy)
    got = clone.run([copy / "sixel", "list"], PATH=clone.without_rt)
    want(got == (0, f"seventh: list: {clone.elsewhere}\n", "", 0), f"./sixel of a copy: {got}")
    times = source.stat()
    (copy / "crates/sixel_io/src/a source.rt").write_text("9")
    os.utime(copy / "crates/sixel_io/src/a source.rt", ns=(times.st_atime_ns, times.st_mtime_ns))
    got = clone.run([copy / "sixel", "list"], PATH=clone.without_rt)
    want(got == (125, "", OLD, 0), f"./sixel of a copy with a changed source: {got}")
    want("find" not in clone.started(), "./sixel looks again because of a copy")
    shutil.rmtree(copy)
    # What isn't what a look keeps.
    state = clone.looked.read_text().splitlines()
    source.write_text("9")
    for lines in ([], ["x"], state[:1], state[:2], state[:3], state[:-1], ["x", *state[1:]], ["", "dist/sixel", ""]):
        clone.looked.write_text("".join(f"{line}\n" for line in lines))
        clone.want_unbuilt(0, OLD, f"with {len(lines)} lines of a look", PATH=clone.without_rt)
    source.write_text(kept)
    # A file system that counts in seconds wouldn't tell of a second change.
    clone.looked.unlink()
    time.sleep(1.05 - time.time() % 1)
    source.write_text(kept)
    second = int(time.time())
    clone.want_run("seventh", 0, "in the second of a change", PATH=clone.without_rt)
    want(int(time.time()) > second or not clone.looked.exists(), "./sixel keeps a look of the second of a change")
    clone.want_run("seventh", 0, "without stat", PATH=clone.path_without("stat"))
    want(not [*clone.looked.parent.glob("looked*")], "./sixel keeps something without stat")


def run_calls(clone):
    """The folder of the clone is found, whatever way ./sixel is called."""
    (clone.elsewhere / "deep").symlink_to(clone.root / "dist")
    (clone.elsewhere / "chain").symlink_to(clone.elsewhere / "deep/../sixel")
    for words, folder in (
        (["bash", "sixel"], clone.root),
        (["./sixel"], clone.root),
        (["../a clone/sixel"], clone.elsewhere),
        (["deep/../sixel"], clone.elsewhere),
        ([clone.elsewhere / "deep/../sixel"], clone.root),
        (["./chain"], clone.elsewhere),
    ):
        for after in ("at first", "again"):
            got = clone.run([*words, "list"], folder, PATH=clone.without_rt, CDPATH=str(clone.elsewhere))
            want(got == (0, f"seventh: list: {folder}\n", "", 0), f"{words} {after}: {got}")
        clone.looked.unlink(missing_ok=True)


def run_without(clone):
    """Without a command that the sums need, it is named; without crates/, nothing is older than its sources."""
    for name in WANTED:
        said = f"sixel: the command {name} is missing, so nothing tells which program is that of these sources\n"
        clone.want_unbuilt(0, said, f"without {name}", PATH=clone.path_without(name))
        clone.want_proved(["--compare"], 125, said, 0, f"without {name}", PATH=clone.path_without(name))
    crates, away = clone.root / "crates", clone.elsewhere / "crates"
    crates.rename(away)
    clone.want_run("seventh", 0, "without crates/")
    kept = clone.dist.read_text()
    clone.dist.write_text(kept.replace("seventh", "SEVENTH"))
    no_sources = "there are no sources to build it from\n"
    clone.want_unbuilt(0, DAMAGED + no_sources, "without crates/, and with another dist/sixel")
    clone.dist.unlink()
    clone.want_unbuilt(0, NOTHING + no_sources, "without crates/ and dist/sixel")
    write_script(clone.dist, kept)
    away.rename(crates)
    unread = "sixel: the program's sources can't all be read: "
    for path in (crates / "sixel_io", clone.root / "crates.txt"):
        path.rename(away)
        for more in ({"PATH": clone.without_rt}, {}):
            status, output, errors, calls = clone.run([clone.root / "sixel", "list"], **more)
            is_right = errors.startswith(unread) and path.name in errors and errors.count("\n") == 1
            want((status, output, calls) == (125, "", 0) and is_right, f"./sixel without {path.name}: {errors}")
        away.rename(path)
    clone.want_run("seventh", 0, "with all of them again", PATH=clone.without_rt)
    if os.geteuid() == 0:
        (crates / "sixel_io/src/a source.rt").chmod(0)
        status, output, errors, calls = clone.run_as_nobody(PATH=clone.without_rt)
        is_right = errors.startswith(unread) and "a source.rt" in errors
        want((status, output, calls) == (125, "", 0) and is_right, f"./sixel as nobody, with a secret: {errors}")
        (crates / "sixel_io/src/a source.rt").chmod(0o644)


def run_git(clone):
    """In a clone that converts line ends nothing is converted, and git brings back a damaged dist/sixel."""
    if not shutil.which("git"):
        skip(5, "clones, since git isn't installed")
        return
    origin, copy = clone.elsewhere / "origin", clone.elsewhere / "converted"
    shutil.copytree(clone.root, origin)

    def git(*words):
        who = {f"GIT_{role}_{name}": "nobody" for role in ("AUTHOR", "COMMITTER") for name in ("NAME", "EMAIL")}
        env = {**os.environ, **who, "GIT_CONFIG_GLOBAL": "/dev/null", "GIT_CONFIG_NOSYSTEM": "1"}
        got = subprocess.run(["git", *words], env=env, capture_output=True, text=True)
        want(got.returncode == 0, f"git {words}: {got}")

    git("init", "-q", origin)
    git("-C", origin, "add", ".")
    git("-C", origin, "commit", "-q", "-m", "all")
    git("-c", "core.autocrlf=true", "clone", "-q", "-c", "core.autocrlf=true", origin, copy)
    for path in origin.rglob("*"):
        if path.is_file() and ".git" not in path.parts and path.name != "looked":
            clone_of = copy / path.relative_to(origin)
            is_same = clone_of.exists() and clone_of.read_bytes() == path.read_bytes()
            want(is_same, f"a clone has another {path.relative_to(origin)}")
    want(not (copy / "dist/looked").exists(), "a clone has what a look kept")
    for is_damaged in (False, True):
        if is_damaged:
            (copy / "dist/sixel").write_bytes(b"")
            got = clone.run([copy / "sixel", "list"], PATH=clone.without_rt)
            want(got == (125, "", UNKNOWN, 0), f"./sixel of a clone, with an empty dist/sixel: {got}")
            git("-C", copy, "checkout", "dist")
        got = clone.run([copy / "sixel", "list"], PATH=clone.without_rt)
        want(got == (0, f"seventh: list: {clone.elsewhere}\n", "", 0), f"./sixel of a clone: {got}")
    shutil.rmtree(origin)
    shutil.rmtree(copy)


def run_hook(clone):
    """The tool pre-commit calls the wrapper, which is in its clone, by the words of the entry."""
    entry = re.search("^  entry: (.*)$", (clone.root / ".pre-commit-hooks.yaml").read_text(), re.MULTILINE)[1].split()
    got = clone.run([clone.root / entry[0], *entry[1:], "a.six"], PATH=clone.without_rt)
    wanted = (0, f"seventh: check --failed --explain a.six: {clone.elsewhere}\n", "", 0)
    want(got == wanted, f"the hook of pre-commit: {got}")


def run_package(clone):
    """The package has what ./install installs, as Debian wants it."""
    clone.main.write_text("sixel 9.8 of GLIBC_2.34")
    unbuild(clone)
    got = clone.run([clone.root / "package", "no folder"])
    want(got[0] == 3 and "no such folder: no folder" in got[2], f"./package: {got}")
    if not shutil.which("dpkg-deb"):
        skip(4, "./package, since dpkg-deb isn't installed")
        return
    got = clone.run([clone.root / "package"])
    is_written = got[1].startswith("wrote ./sixel_9.8_amd64.deb\n")
    want((got[0], got[2], got[3]) == (0, "", 1) and is_written, f"./package: {got}")
    package, unpacked = clone.elsewhere / "sixel_9.8_amd64.deb", clone.elsewhere / "unpacked"
    subprocess.run(["dpkg-deb", "--raw-extract", package, unpacked], check=True)
    packed = {str(path.relative_to(unpacked)) for path in unpacked.rglob("*") if path.is_file()}
    wanted = {"DEBIAN/control", "usr/bin/sixel", *(f"usr/{path}" for path in COPIES.values())}
    wanted |= {"usr/share/doc/sixel/changelog.gz", "usr/share/lintian/overrides/sixel"}
    moved = {"share/zsh/site-functions/_sixel": "share/zsh/vendor-completions/_sixel",
             "share/man/man1/sixel.1": "share/man/man1/sixel.1.gz"}
    for old, new in moved.items():
        wanted = wanted - {f"usr/{old}"} | {f"usr/{new}"}
    want(packed == wanted, f"./package: it lacks {wanted - packed}, and has {packed - wanted}")
    control = (unpacked / "DEBIAN/control").read_text()
    want("\nVersion: 9.8\n" in control and "\nDepends: libc6 (>= 2.34)\n" in control, f"./package: {control}")
    if not shutil.which("lintian"):
        skip(1, "lintian, which isn't installed")
        return
    got = subprocess.run(["lintian", package], capture_output=True, text=True).stdout
    # The owner has named neither a licence nor whom to write to.
    owners = {"no-copyright-file", "malformed-contact", "bogus-mail-host-in-debian-changelog"}
    want({*re.findall(r"^E: sixel: (\S+)", got, re.MULTILINE)} == owners, f"lintian: {got}")


def run_other_dist(clone):
    """A program that isn't that of the sources, or of which that isn't known, is never run."""
    other_machine = f"sixel: dist/sixel is for Linux on x86-64, and this is Linux aarch64, and {NO_RT}"
    clone.want_unbuilt(0, other_machine, "on another machine", PATH=clone.other_machine, BROKEN="1")
    library = f"sixel: dist/sixel doesn't start here: no such library, and {NO_RT}"
    clone.want_unbuilt(0, library, "with an older C library", PATH=clone.without_rt, BROKEN="1")
    # All is an hour old, and dist/sixel was looked at since.
    clone.age()
    clone.want_run("seventh", 0, "when all is an hour old")
    clone.want_unbuilt(0, library, "with an older C library, later", PATH=clone.without_rt, BROKEN="1")
    clone.dist.chmod(0o644)
    clone.want_unbuilt(0, f"sixel: dist/sixel can't be executed, and {NO_RT}", "", PATH=clone.without_rt)
    clone.dist.chmod(0o755)

    def want_stale(after, path, text, is_old=False, said=OLD):
        kept = path.read_text()
        times = path.stat()
        path.write_text(text(kept))
        if is_old:
            os.utime(path, ns=(times.st_atime_ns, times.st_mtime_ns - 10**12))
        clone.want_unbuilt(0, said, after, PATH=clone.without_rt)
        path.write_text(kept)
        clone.want_run("seventh", 0, f"as before it was tried {after}", PATH=clone.without_rt)
        clone.age()
        clone.want_run("seventh", 0, f"an hour after it was tried {after}", PATH=clone.without_rt)

    def shout(text):
        return text.replace("seventh", "SEVENTH")

    sums = clone.dist.with_name("sixel.built")
    want_stale("with a changed source", clone.main, lambda _: "eighth")
    want_stale("with a changed source of an older time", clone.main, lambda _: "eighth", True)
    crates = clone.root / "crates.txt"
    want_stale("with another list of crates", crates, lambda it: it.replace("sixel: ", "sixel: itoa ", 1))
    want_stale("with the sum of other sources", sums, lambda it: "0" * 64 + it[64:])
    want_stale("with the sum of other sources, and an older time", sums, lambda it: "0" * 64 + it[64:], True)
    want_stale("without sums", sums, lambda _: "", said=UNKNOWN)
    want_stale("with another dist/sixel of the same size", clone.dist, shout, said=UNKNOWN)
    want_stale("with another, older dist/sixel", clone.dist, shout, True, UNKNOWN)
    sums.rename(sums.with_name("kept"))
    clone.want_unbuilt(0, UNKNOWN, "without dist/sixel.built", PATH=clone.without_rt)
    sums.with_name("kept").rename(sums)
    proofs = clone.root / "crates/sixel_io/proofs"
    proofs.rename(clone.elsewhere / "proofs")
    clone.want_unbuilt(0, OLD, "without a folder", PATH=clone.without_rt)
    if os.geteuid() == 0:
        got = clone.run_as_nobody()
        said = f"{OLD.partition(' the command')[0]} the program can't be built: {clone.root} can't be written\n"
        want(got == (125, "", said, 0), f"./sixel as nobody, without a folder: {got}")
    no_room = "the program can't be built: no file can be made in /no/where"
    clone.want_unbuilt(0, no_room, "without a folder for the log", TMPDIR="/no/where")
    want(not clone.program.exists(), "a build that couldn't be left something")
    clone.want_run("seventh", 1, "without a folder, and with rt")
    (clone.elsewhere / "proofs").rename(proofs)
    clone.dist.unlink()
    unbuild(clone)
    clone.want_unbuilt(0, NOTHING + NO_RT, "without dist/sixel", PATH=clone.without_rt)
    clone.want_run("seventh", 1, "without dist/sixel")


def run_slow(clone):
    """A build that takes longer says why it is made, and what it is at."""
    unbuild(clone)
    slow = clone.calls.with_name("calls.slow")
    slow.write_text("")
    status, output, errors, calls = clone.run([clone.root / "sixel", "list"])
    slow.unlink()
    why = f"{NOTHING.removesuffix(', and ')}, so the program is proved and built once, about 20 minutes on 4 cores; "
    is_right = errors.startswith(why) and re.search("\nsixel: looking over the sources, 0:0\\d\n$", errors)
    want((status, calls) == (0, 1) and output and is_right, f"./sixel while it builds: {errors}")


def run_install(clone):
    targets = {clone.prefix / target: (clone.root / source, 0o644) for source, target in COPIES.items()}
    targets = {clone.prefix / "bin/sixel": (clone.program, 0o755), **targets}
    clone.program.unlink()
    clone.want_install([clone.prefix], 0, "".join(f"installed {path}\n" for path in targets), 1)
    for path, (source, mode) in targets.items():
        is_same = path.read_bytes() == installed(source) and path.stat().st_mode & 0o777 == mode
        want(is_same, f"./install wrote another {path.name}, or with another mode")
    written = [path for path in clone.prefix.rglob("*") if path.is_file()]
    want(sorted(written) == sorted(targets), f"./install wrote {written}")
    clone.want_install(["--uninstall", clone.prefix], 0, "".join(f"removed {path}\n" for path in targets))
    want(clone.prefix.exists(), "./install --uninstall removed PREFIX")
    want(not any(clone.prefix.iterdir()), "./install --uninstall left something")
    clone.want_install(["--uninstall", clone.prefix], 1, f"none of its files is below {clone.prefix}\n")
    # As an older one installed it, beside another program.
    (clone.prefix / "bin").mkdir()
    for name in ("sixel", "other"):
        (clone.prefix / "bin" / name).write_text("")
    clone.want_install(["--uninstall", clone.prefix], 0, f"removed {clone.prefix}/bin/sixel\n")
    want([path.name for path in clone.prefix.rglob("*")] == ["bin", "other"], "./install --uninstall: another's folder")
    # From the folder that it is called in.
    clone.want_install(["here"], 0, "installed here/bin/sixel")
    want((clone.elsewhere / "here/bin/sixel").exists(), "./install here: nothing is there")
    for words in (["--help"], ["-h"]):
        clone.want_install(words, 0, "usage: ./install PREFIX")


def run_staged_install(clone):
    """The files go below DESTDIR, and words that name no folder write and remove nothing."""
    staged = clone.stage / str(clone.prefix / "bin/sixel")[1:]
    stage = str(clone.stage)
    clone.want_install([clone.prefix], 0, f"installed {staged}\n", DESTDIR=stage)
    want(staged.exists() and not (clone.prefix / "bin/sixel").exists(), "./install doesn't go by DESTDIR")
    clone.want_install(["--uninstall", clone.prefix], 0, f"removed {staged}\n", DESTDIR=stage)
    want(not staged.exists(), "./install --uninstall doesn't go by DESTDIR")
    # Where an empty prefix would go.
    kept = [clone.stage / name for name in ("bin/sixel", *COPIES.values())]
    wrong = ([""], ["--uninstall", ""], ["here"], ["--uninstall"], [], ["-x"], ["here", "there"], ["--help", "here"])
    for words in wrong:
        clone.want_install(words, 3, "usage: ./install PREFIX", DESTDIR=stage)
        want(not any(path.exists() for path in kept), f"./install {words} installed something")
    for path in kept:
        path.parent.mkdir(parents=True, exist_ok=True)
        path.write_text("")
    clone.want_install(["--uninstall", ""], 3, "PREFIX is empty", DESTDIR=stage)
    want(all(path.exists() for path in kept), "./install --uninstall '' removed something")


def main():
    # Another user runs ./sixel too.
    os.umask(0o022)
    with tempfile.TemporaryDirectory() as folder:
        pathlib.Path(folder).chmod(0o755)
        clone = Clone(pathlib.Path(folder).resolve())
        run_wrapper(clone)
        run_failures(clone)
        run_prove(clone)
        run_dist(clone)
        run_look(clone)
        run_calls(clone)
        run_without(clone)
        run_git(clone)
        run_hook(clone)
        run_other_dist(clone)
        run_slow(clone)
        run_install(clone)
        run_staged_install(clone)
        run_package(clone)
    for fault in faults:
        print(fault, file=sys.stderr)
    print(f"{runs} runs of ./sixel, ./prove, ./install and ./package")
    more = f", {sum(skipped)} skipped" if skipped else ""
    print(f"{tried - len(faults)} passed, {len(faults)} failed{more}")
    return 1 if faults else 0


if __name__ == "__main__":
    sys.exit(main())
