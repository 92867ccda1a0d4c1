"""The scripts have nothing that shellcheck warns of, by .shellcheckrc. Without shellcheck they are left out."""

import shutil
import subprocess

from source import ROOT, LeftOut

SCRIPTS = (".ci/run", "completions/*", "release/*", "tests/stand_ins/*")


def check(write):
    if not shutil.which("shellcheck"):
        raise LeftOut("shellcheck is not installed")
    files = sorted(str(path.relative_to(ROOT)) for pattern in SCRIPTS for path in ROOT.glob(pattern))
    done = subprocess.run(["shellcheck", "-f", "gcc", "-S", "warning", *files], cwd=ROOT, capture_output=True, text=True)
    yield from (done.stdout + done.stderr).splitlines()
