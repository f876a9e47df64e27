"""The version of the client, and a look at that of the program."""

from __future__ import annotations

import os
import subprocess
from collections.abc import Sequence

from .errors import ServiceEnded

__version__ = "1.0.0"
_SERVE = "serve"


def program_version(
    command: Sequence[str | os.PathLike[str]], timeout: float | None = 30.0
) -> str:
    """The version of the program that a service's command starts, as "1.0.0".

    That is what it answers to `--version` in the place of `serve`. `ServiceEnded` where it answers
    otherwise, or not within `timeout` seconds; `OSError` where it does not start.
    """
    words = [os.fspath(word) for word in command]
    words = [*(words[:-1] if words[-1:] == [_SERVE] else words), "--version"]
    try:
        ran = subprocess.run(
            words, stdin=subprocess.DEVNULL, capture_output=True, timeout=timeout, check=False
        )
    except subprocess.TimeoutExpired as late:
        said = (late.stderr or b"").decode("utf-8", "replace")
        raise ServiceEnded(None, f"{said}no version within {timeout:g} s") from None
    name, _, version = ran.stdout.decode("utf-8", "replace").strip().partition(" ")
    if ran.returncode or name != "recline" or not version:
        raise ServiceEnded(ran.returncode, ran.stderr.decode("utf-8", "replace"))
    return version
