"""The kit's module for its own tools, which lies beside rt."""
import os
import shutil
import subprocess
import sys
from pathlib import Path

ROOT = str(Path(__file__).resolve().parents[2])
if subprocess.run([f"{ROOT}/tools/need", "rt"]).returncode:
    sys.exit(2)
sys.path.insert(0, os.path.dirname(os.path.realpath(shutil.which("rt"))))
import rtlib  # noqa: E402, F401
