#!/usr/bin/env python3
"""Compares `ncroute run --save` with `ncroute run` on the same scripts: first the answers, byte for byte, and the replay of what was saved, and
then the time.

usage: save.py NCROUTE ROUNDS SCRIPT..

Each is run ROUNDS times, by turns, and the least and the median time of each are printed with the ratio of the two, the bytes of the history and
the time of its replay. A time is the processor time of the whole process, with its output to the null device.
"""
import os
import statistics
import subprocess
import sys
import tempfile

from compare import seconds


def main(program, rounds, *scripts):
    with tempfile.TemporaryDirectory() as folder:
        kept = os.path.join(folder, "kept")
        saving = [program, "run", "--save", kept]
        for script in scripts:
            with open(script, "rb") as given:
                plain = subprocess.run([program, "run"], stdin=given, stdout=subprocess.PIPE)
            with open(script, "rb") as given:
                saved = subprocess.run(saving, stdin=given, stdout=subprocess.PIPE)
            replay = subprocess.run([program, "replay", kept], stdout=subprocess.PIPE)
            if (plain.stdout, plain.returncode) != (saved.stdout, saved.returncode) or not replay.stdout.startswith(b"replay ok "):
                print(f"{os.path.basename(script)}: the answers differ, or the history does not replay")
                return 1
            size = os.path.getsize(kept)
            replayed = seconds([program, "replay", kept], os.devnull)
            times = ([], [])
            for _ in range(rounds):
                times[0].append(seconds([program, "run"], script))
                os.remove(kept)
                times[1].append(seconds(saving, script))
            os.remove(kept)
            least, median = ([pick(one) for one in times] for pick in (min, statistics.median))
            print(f"{os.path.basename(script):14} run {least[0]:.3f} {median[0]:.3f}  --save {least[1]:.3f} {median[1]:.3f}  "
                  f"ratio {least[1] / least[0]:.2f} {median[1] / median[0]:.2f}  {size} bytes, replay {replayed:.3f}")
    return 0


if __name__ == "__main__":
    if len(sys.argv) < 4:
        sys.exit(__doc__)
    sys.exit(main(sys.argv[1], int(sys.argv[2]), *sys.argv[3:]))
