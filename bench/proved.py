"""Builds a program of bench/ that is written in Rattle, over copies of crates, so that it can be timed.

Its sources are kept as NAME.in, since the gate refuses sources outside the listed crates.
"""
import atexit
import pathlib
import resource
import shutil
import subprocess
import tempfile

TOP = pathlib.Path(__file__).resolve().parent.parent


def build(source: pathlib.Path, crates: dict[str, str], others: dict[str, pathlib.Path] | None = None, is_proved: bool = True) -> pathlib.Path:
    """Proves and builds the program, or lays it out for `rt try` where it isn't timed; `crates` has the repository's crates below it with their lines of crates.txt,
    and under the name 'program' the crates that the program names. `others` has the program's files beside main.rt,
    by their places in its folder. Answers the executable, or the folder of what is laid out."""
    room = pathlib.Path(tempfile.mkdtemp(prefix="gribi-bench-"))
    atexit.register(shutil.rmtree, room, ignore_errors=True)
    for name in (line.split()[0] for line in crates):
        if name != "program":
            shutil.copytree(TOP / "crates" / name, room / "crates" / name, ignore=shutil.ignore_patterns("out", "must-fail"))
    program = room / "crates" / "program"
    for place, kept in {"src/main.rt": source, **(others or {})}.items():
        (program / place).parent.mkdir(parents=True, exist_ok=True)
        shutil.copy(kept, program / place)
    (room / "crates.txt").write_text("".join(f"{name}: {line}\n" for name, line in crates.items()))
    (room / "HANDLES").write_text((TOP / "HANDLES").read_text())
    subprocess.run(["git", "init", "-q", str(room)], check=True)
    if not is_proved:
        return program
    subprocess.run(["rt", "run"], cwd=program, stdout=subprocess.DEVNULL, check=True)
    return program / "out" / "program"


def run(words: list[str], given: bytes = b"") -> tuple[float, bytes]:
    """The user time of one run, in seconds, and what it wrote."""
    before = resource.getrusage(resource.RUSAGE_CHILDREN).ru_utime
    done = subprocess.run(words, input=given, stdout=subprocess.PIPE, check=True)
    return resource.getrusage(resource.RUSAGE_CHILDREN).ru_utime - before, done.stdout


def compare(name: str, base: list[str], ours: list[str], rounds: int = 5) -> None:
    """Runs two programs in turn, so many times, and prints the ratio of their user times and what they wrote."""
    ratios = []
    for _ in range(rounds):
        first, wrote = run(base)
        second, said = run(ours)
        ratios.append(second / first)
        output = "same output" if wrote == said else f"{wrote.decode().strip()} / {said.decode().strip()}"
        print(f"{name}: {first:.3f} s, ours {second:.3f} s, ratio {second / first:.2f}, {output}")
    print(f"{name}: median ratio {sorted(ratios)[len(ratios) // 2]:.2f}")
