"""How the scripts count their checks: the last line of each is 'N passed, M failed', and ', K skipped' behind it where something could not be run."""
import os
import shutil
import sys


class NotRun(Exception):
    """Why something cannot be run here."""


def lack_of(*commands):
    """Why what takes these commands cannot be run here; nothing where it can."""
    lacking = sorted({command for command in commands if not shutil.which(command)})
    return f"there is no `{'`, `'.join(lacking)}` here" if lacking else None


class Counts:
    """How many checks passed, how many failed, and how many could not be run."""

    def __init__(self):
        self.passed = self.failed = self.skipped = 0

    def judge(self, name, wrong):
        """Counts a check, by what is wrong: that is told with the check's name. Nothing wrong is said by `None` or another false value."""
        self.passed, self.failed = self.passed + (not wrong), self.failed + bool(wrong)
        if wrong:
            print(f"{name}: {wrong}", flush=True)

    def expect(self, name, holds, told=""):
        """Counts a check, by whether it holds; what is told of one that does not is shown with its name."""
        self.judge(name, not holds and f"failed: {told}")

    def skip(self, name, why):
        """Counts a check that could not be run, and says why."""
        self.skipped += 1
        print(f"{name}: not run: {why}", flush=True)

    def add(self, passed, failed, skipped=0):
        """Counts checks that were made elsewhere."""
        self.passed, self.failed, self.skipped = self.passed + passed, self.failed + failed, self.skipped + skipped

    def all(self):
        """How many passed, failed and were skipped."""
        return self.passed, self.failed, self.skipped

    def finish(self):
        """Ends the script with its count. Where nothing was checked, it has not passed; with CI=true what could not be run has failed."""
        if os.environ.get("CI") == "true":
            self.failed, self.skipped = self.failed + self.skipped, 0
        print(f"{self.passed} passed, {self.failed} failed" + (f", {self.skipped} skipped" if self.skipped else ""))
        sys.exit(0 if self.passed + self.skipped and not self.failed else 1)
