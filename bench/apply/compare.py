#!/usr/bin/env python3
"""Times `gribi apply` beside a plain Rust program on one input, and compares what they write.

usage: bench/apply/compare.py [OPERATIONS [NEXT_HOPS]]

Run it by hand on a quiet machine, with rustc at hand and ./gribi built. The gate does not run it.
"""
import pathlib
import resource
import subprocess
import sys

HERE = pathlib.Path(__file__).resolve().parent
TOP = HERE.parent.parent
ROUNDS = 5


def run(words: list[str], source: pathlib.Path, target: pathlib.Path) -> float:
    """The user time of one run, in seconds."""
    before = resource.getrusage(resource.RUSAGE_CHILDREN).ru_utime
    with open(source, "rb") as given, open(target, "wb") as kept:
        subprocess.run(words, stdin=given, stdout=kept, check=True)
    return resource.getrusage(resource.RUSAGE_CHILDREN).ru_utime - before


def main() -> None:
    operations = sys.argv[1] if len(sys.argv) > 1 else "1000000"
    hops = sys.argv[2] if len(sys.argv) > 2 else "64"
    build = HERE / "build"
    build.mkdir(exist_ok=True)
    source = build / "input.bin"
    with open(source, "wb") as out:
        subprocess.run([sys.executable, str(HERE / "make_input.py"), operations, hops], stdout=out, check=True)
    plain = build / "plain_apply"
    subprocess.run(["rustc", "--edition", "2021", "-O", "-o", str(plain), str(HERE / "plain_apply.rs")], check=True)
    subprocess.run([str(TOP / "gribi"), "apply"], stdin=subprocess.DEVNULL, check=True)
    proved = TOP / "crates" / "gribi" / "out" / "gribi"
    ratios = []
    for _ in range(ROUNDS):
        base = run([str(plain)], source, build / "plain.out")
        ours = run([str(proved), "apply"], source, build / "proved.out")
        same = (build / "plain.out").read_bytes() == (build / "proved.out").read_bytes()
        ratios.append(ours / base)
        print(f"plain {base:.3f} s, proved {ours:.3f} s, ratio {ours / base:.2f}, same output: {same}")
    print(f"median ratio {sorted(ratios)[len(ratios) // 2]:.2f}")


if __name__ == "__main__":
    main()
