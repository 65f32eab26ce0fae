"""The engines that bench_matcher and bench_hostile compare, each with a way to measure a search.

A measurement gives the number of matches and the CPU seconds, for short times the seconds, or a word: REJECTED if the
engine does not accept the pattern, LIMIT if it stopped at a limit of its own, LATE if it took longer than the limit of
time."""
import os
import re
import resource
import shutil
import subprocess
import sys
from pathlib import Path

HERE = Path(__file__).resolve().parent
ROOT = HERE.parent.parent
LIBRARY = ROOT / "crates/regress_c/out/libregress_c.a"
# The installed library has what the built one needs of the toolchain.
INSTALLED = "libregress_front.a"
MANIFEST = """[package]
name = "count_regex"
version = "0.0.0"
edition = "2021"
[dependencies]
regex = "1"
[workspace]
"""
LOCAL_CRATES = """[source.crates-io]
replace-with = "local"
[source.local]
directory = "{}"
"""
REJECTED, LIMIT, LATE = "-", "limit", ">"
RUST = "Rust's regex"
# The clock of CPU seconds may tick only every 4 milliseconds, so of shorter times those of the wall clock are taken.
SHORT = 0.02


def run(command, seconds, text=None):
    """Returns the process of a run with its status and output, and its CPU seconds; None after the limit of time."""

    def bound():
        resource.setrlimit(resource.RLIMIT_CPU, (seconds, seconds))

    before = resource.getrusage(resource.RUSAGE_CHILDREN)
    ran = subprocess.run(command, stdin=text, stdout=subprocess.PIPE, stderr=subprocess.DEVNULL, preexec_fn=bound)
    after = resource.getrusage(resource.RUSAGE_CHILDREN)
    if ran.returncode < 0:
        return None
    return ran, after.ru_utime + after.ru_stime - before.ru_utime - before.ru_stime


class Timed:
    """An engine that prints the number of matches, and the CPU seconds and the seconds of the search, without its
    start."""

    def __init__(self, command, written):
        self.command = command
        self.written = written

    def measure(self, pattern, flags, mode, file, seconds):
        answer = run([*self.command, file, *self.written(pattern, flags), mode], seconds)
        if answer is None:
            return LATE
        ran, _ = answer
        if ran.returncode:
            return LIMIT if ran.returncode == 2 else REJECTED
        count, used, taken = ran.stdout.split()
        return int(count), float(taken if float(taken) < SHORT else used)


class Kit:
    """The library `regex` of the toolchain. The CPU seconds are those of the whole program."""

    def __init__(self, program):
        self.program = program

    def measure(self, pattern, flags, mode, file, seconds):
        with open(file, "rb") as text:
            answer = run([self.program, *for_crate(pattern, flags), mode], seconds, text)
        if answer is None:
            return LATE
        ran, used = answer
        return (int(ran.stdout), used) if ran.returncode == 0 else REJECTED


def with_flags(pattern, flags):
    return [pattern, flags]


def inline(pattern, flags):
    """The pattern with its flags in front, and names in the form that all engines read."""
    letters = "".join(letter for letter in flags if letter in "ims")
    named = re.sub(r"\(\?<(?=[A-Za-z_])", "(?P<", pattern)
    return [(f"(?{letters})" if letters else "") + re.sub(r"\\k<(\w+)>", r"(?P=\1)", named)]


def for_crate(pattern, flags):
    r"""`\d`, `\w` and `\b` are those of ASCII in JavaScript, and of Unicode in the crate and the library `regex`."""
    ascii_only = {r"\d": "[0-9]", r"\D": "[^0-9]", r"\w": "[0-9A-Za-z_]", r"\W": "[^0-9A-Za-z_]", r"\b": r"(?-u:\b)"}
    [written] = inline(pattern, flags)
    return [re.sub(r"\\.", lambda found: ascii_only.get(found[0], found[0]), written)]


def skip(name, reason):
    print(f"{name} is skipped: {reason}", file=sys.stderr, flush=True)


def ours(folder, library):
    """The C library of this repository, as it is built or installed. Exits if no program can be linked with it."""
    if not Path(library).exists():
        sys.exit(f"{library} is not built")
    archives, compiler = [library], shutil.which(os.environ.get("CC", "cc"))
    if Path(library).name != INSTALLED:
        if not shutil.which("rt"):
            sys.exit("there is no rt, with whose kit the library is linked")
        kit = Path(shutil.which("rt")).resolve().parent.parent
        archives.append(kit / "c/liblibc_c.a")
        compiler = compiler or kit / "toolchain/bin/clang"
    if not compiler:
        sys.exit("there is no C compiler")
    program = Path(folder) / "regress"
    source = ["-I", ROOT / "include", HERE / "regress.c"]
    if subprocess.run([compiler, "-O2", "-o", program, *source, *archives]).returncode:
        sys.exit(f"{HERE / 'regress.c'} does not compile")
    return Timed([str(program)], with_flags)


def compiled(folder, name, library, package):
    """Compiles a C++ program, and returns its path; None if its library is not installed."""
    program = Path(folder) / name
    if not shutil.which("g++"):
        return skip(name, "there is no g++")
    command = ["g++", "-O2", "-o", program, HERE / f"{name}.cc", f"-l{library}"]
    if subprocess.run(command, capture_output=True).returncode:
        return skip(name, f"it does not compile; it needs {package}")
    return str(program)


def built_kit(folder):
    """Builds the program of the toolchain's `regex` in a folder of its own, and returns its path; None if it fails."""
    if not shutil.which("rt"):
        return skip("the library regex", "there is no rt")
    crate = Path(folder) / "crates/count_matches"
    (crate / "src").mkdir(parents=True)
    (Path(folder) / "crates.txt").write_text("count_matches: regex\n")
    shutil.copy(HERE / "count_matches.rt.in", crate / "src/main.rt")
    command = ["rt", "run", "--jobs", "1", "--", "a", "all"]
    subprocess.run(command, cwd=crate, stdin=subprocess.DEVNULL, stdout=subprocess.DEVNULL, stderr=subprocess.DEVNULL)
    program = crate / "out/count_matches"
    return str(program) if program.exists() else skip("the library regex", "rt run does not build it")


def built_crate(folder, crates):
    """Builds the program of the Rust crate `regex`, and returns its path; None if it fails. `crates` is a folder of
    sources of crates, or None for the registry."""
    if not shutil.which("cargo"):
        return skip(RUST, "there is no cargo")
    made = Path(folder) / "count_regex"
    (made / "src").mkdir(parents=True)
    (made / "Cargo.toml").write_text(MANIFEST)
    shutil.copy(HERE / "count_regex.rs", made / "src/main.rs")
    command = ["cargo", "build", "--release", "--quiet"]
    if crates:
        (made / ".cargo").mkdir()
        (made / ".cargo/config.toml").write_text(LOCAL_CRATES.format(Path(crates).resolve()))
        command.append("--offline")
    if subprocess.run(command, cwd=made, capture_output=True).returncode:
        return skip(RUST, "cargo does not build it; --crates names a folder of sources")
    return str(made / "target/release/count_regex")


def others(folder, kit, crates=None):
    """The engines beside ours that are installed, by name. `kit` is the program of the toolchain's `regex`, `skip`, or
    None to build it; `crates` a folder of sources of crates, or None for the registry."""
    engines = {}
    if shutil.which("node"):
        script = str(HERE / "count.js")
        engines["V8 interpreter"] = Timed(["node", "--regexp-interpret-all", script], with_flags)
        engines["V8"] = Timed(["node", script], with_flags)
    else:
        skip("V8", "there is no node")
    engines["Python"] = Timed([sys.executable, str(HERE / "count.py")], inline)
    for name, library, package, words in (
        ("count_pcre2", "pcre2-8", "libpcre2-dev", {"PCRE2 interpreter": ["interpreter"], "PCRE2 JIT": ["jit"]}),
        ("count_re2", "re2", "libre2-dev", {"RE2": []}),
    ):
        program = compiled(folder, name, library, package)
        if program:
            engines |= {label: Timed([program, *added], inline) for label, added in words.items()}
    program = built_crate(folder, crates)
    if program:
        engines[RUST] = Timed([program], for_crate)
    program = (kit or built_kit(folder)) if kit != "skip" else skip("the library regex", "as asked")
    if program:
        engines["kit's regex"] = Kit(program)
    return engines
