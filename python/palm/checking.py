"""Certificates and proofs, checked by the program in a process of its own."""

from __future__ import annotations

import subprocess
from dataclasses import dataclass
from typing import Optional, Tuple

from palm.errors import PalmError, ended
from palm.process import find_program


@dataclass(frozen=True)
class Verdict:
    """What `palm check` or `palm proof` wrote, and whether it accepted the text."""

    accepted: bool
    line: str

    @property
    def names(self) -> Tuple[str, ...]:
        """The constraints on which an accepted claim rests, and nothing where it was refused."""
        return tuple(self.line.partition(" because")[2].split())


def check_certificate(text: str, program: Optional[str] = None, timeout: Optional[float] = None) -> Verdict:
    """The verdict of `palm check` on the text of a certificate; `timeout` is in seconds, and past it PalmError."""
    return _verdict("check", text, program, timeout)


def check_proof(text: str, program: Optional[str] = None, timeout: Optional[float] = None) -> Verdict:
    """The verdict of `palm proof` on the text of a proof; `timeout` is in seconds, and past it PalmError."""
    return _verdict("proof", text, program, timeout)


def _verdict(word: str, text: str, program: Optional[str], timeout: Optional[float]) -> Verdict:
    try:
        done = subprocess.run(
            [find_program(program), word], input=text.encode(), stdout=subprocess.PIPE, timeout=timeout, check=False
        )
    except subprocess.TimeoutExpired:
        raise PalmError(f"palm {word}: no verdict within {timeout:g} seconds") from None
    if done.returncode not in (0, 1):
        raise ended(done.returncode)
    return Verdict(done.returncode == 0, done.stdout.decode().rstrip("\n"))
