"""The model's run of a session: a printed one, or that of the program."""

from __future__ import annotations

import subprocess
from pathlib import Path

from .session import Session, written
from .trace import BadRun, Run, read_run

TOP = Path(__file__).resolve().parents[2]
PROGRAM = TOP / "winproxy"
BUILT = TOP / "crates" / "winproxy" / "out" / "winproxy"


class NoRun(Exception):
    """There is no run of the session: why is said."""


def printed_run(path: Path) -> Run:
    try:
        return read_run(path.read_text())
    except (OSError, BadRun) as problem:
        raise NoRun(f"{path}: {problem}") from problem


def play(text: str, program: Path = PROGRAM) -> Run:
    """Plays the text of a session. The program is built where it isn't, which takes many minutes."""
    try:
        done = subprocess.run([program, "play"], input=text, capture_output=True, text=True, timeout=7200)
    except OSError as problem:
        raise NoRun(f"{program}: {problem}") from problem
    if done.returncode == 70:
        raise NoRun(f"there is no program to play with: {done.stderr.strip()}")
    if done.stdout.startswith("refused "):
        raise NoRun(done.stdout.splitlines()[0])
    try:
        return read_run(done.stdout)
    except BadRun as problem:
        raise NoRun(str(problem)) from problem


def play_session(session: Session, program: Path = PROGRAM) -> Run:
    return play(written(session), program)
