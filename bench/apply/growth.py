#!/usr/bin/env python3
"""Times `gribi apply` on ADDs of 1,000, 10,000 and 100,000 next hops in random order.

usage: bench/apply/growth.py [OPERATIONS]

Run it by hand on a quiet machine, with ./gribi built. The gate does not run it. It prints the user time of an operation
for each count of next hops, and by how much it grew from the first.
"""
import pathlib
import subprocess
import sys

HERE = pathlib.Path(__file__).resolve().parent
sys.path.insert(0, str(HERE))
from compare import TOP, run  # noqa: E402

ROUNDS = 3


def main() -> None:
    operations = sys.argv[1] if len(sys.argv) > 1 else "1000000"
    build = HERE / "build"
    build.mkdir(exist_ok=True)
    subprocess.run([str(TOP / "gribi"), "apply"], stdin=subprocess.DEVNULL, check=True)
    proved = TOP / "crates" / "gribi" / "out" / "gribi"
    first = None
    for hops in ("1000", "10000", "100000"):
        source = build / f"random_{hops}.bin"
        with open(source, "wb") as out:
            subprocess.run([sys.executable, str(HERE / "make_input.py"), operations, hops, "random"], stdout=out, check=True)
        times = sorted(run([str(proved), "apply"], source, build / "proved.out") for _ in range(ROUNDS))
        each = times[ROUNDS // 2] / int(operations) * 1e9
        first = first or each
        print(f"{hops} next hops: {each:.0f} ns an operation, {each / first:.2f} times the first")


if __name__ == "__main__":
    main()
