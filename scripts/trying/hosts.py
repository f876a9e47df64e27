"""Tries reporters and a hub on two hosts, whose link loses packets and is cut for ten seconds.

    scripts/trial hosts [--collect COMMAND] [--runs N] [--kills N] [--ranks N] [--turns N]
                        [--seed S] [--seconds N]

The hosts are two network namespaces of this machine with a link between them. The hub and every
other rank are in one, the other ranks in the other; they talk over TCP, with a token. Each trial
cuts the link for N seconds (10), and most often kills ranks meanwhile; then ranks, hub and service
are killed, and the link is cut, at random. At the end the values must be the ones without a
failure, and the journal must have each note once. The link loses 3 packets of 100: where the kernel
has netem, which also delays them by 2 ms, and else by a filter of `nft` (Debian has it in
nftables); where there is neither, a line says that no packet is lost. The service is `recline
collect` or the command that is told.

Namespaces need root and `ip` (Debian has it in iproute2). Where they cannot be made, a line says
that all is left out, and the status is 77. ./test does not run this.
"""

import argparse
import os
import secrets
import subprocess
import sys
import time
from collections.abc import Callable

import command_lines
import workspace

TOP = workspace.ROOT
TESTS = TOP / "clients" / "python" / "hub_tests"
sys.path.insert(0, str(TESTS))

from trial import Trial, run_all

LEFT_OUT = 77
LINK, HUB, FAR, PORT = "recline0", "10.213.77.1", "10.213.77.2", 7_413
LOSSY = ["netem", "delay", "2ms", "loss", "3%"]
# What a filter is told that drops three packets of a hundred which come over the link.
FILTER = f"""
table inet recline {{
    chain lossy {{
        type filter hook input priority filter;
        iifname "{LINK}" numgen random mod 100 < 3 drop
    }}
}}
"""
FAR_HOST = "RECLINE_FAR_HOST"  # in the environment of what runs on the near host


def done(*words: str, told: str = "") -> bool:
    """Whether a command of the system does what it is asked, and told on its standard input."""
    try:
        ran = subprocess.run(words, capture_output=True, check=False, input=told.encode())
    except OSError:
        return False
    return ran.returncode == 0


class Hosts(Trial):
    """A trial whose hub is on this host, and every other rank on the far one."""

    def __init__(self, asked: argparse.Namespace, seed: str, folder: str) -> None:
        self.seconds, self.is_first = asked.seconds, True
        self.token = f"{folder}/token"
        with open(self.token, "x", encoding="ascii", opener=opener) as file:
            file.write(secrets.token_hex(16))
        super().__init__(asked, seed, folder)

    def listens_at(self) -> str:
        """Where the hub listens."""
        self.options += ["--token", str(self.token), "--beyond-loopback"]
        return f"tcp:{HUB}:{PORT}"

    def start_rank(self, rank: int) -> "subprocess.Popen[bytes]":
        """Starts a life of a rank, on its host."""
        host = ["ip", "netns", "exec", os.environ[FAR_HOST]] if rank % 2 else []
        words = [str(rank), str(self.ranks), str(self.turns), self.folder, self.address]
        return subprocess.Popen(
            [*host, sys.executable, str(TESTS / "rank.py"), *words, str(self.token)],
            env=self.environment, stdin=subprocess.PIPE, stderr=self.log,
        )

    def kinds(self) -> dict[str, Callable[[], None]]:
        """What can be done, by its name."""
        kinds = super().kinds()
        del kinds["connections"]
        return {**kinds, "link": self.cut_link}

    def do_something(self) -> str:
        """Does one of these: first of all the link is cut."""
        if self.is_first:
            self.is_first = False
            self.cut_link()
            return "link"
        return super().do_something()

    def cut_link(self) -> None:
        """Cuts the link, most often kills ranks while nobody hears of it, and mends the link."""
        done("ip", "link", "set", LINK, "down")
        end = time.monotonic() + self.seconds
        time.sleep(self.seconds * self.chance.uniform(0, 0.5))
        if self.chance.random() < 0.7:
            self.kill_ranks()
        time.sleep(max(end - time.monotonic(), 0))
        done("ip", "link", "set", LINK, "up")


def opener(path: str, flags: int) -> int:
    """Opens a file that nobody but its owner can read."""
    return os.open(path, flags, 0o600)


def add_words(line: argparse.ArgumentParser) -> None:
    """Adds the words of this job to those that are read."""
    line.add_argument("--collect", default="", help="the service (recline collect)")
    line.add_argument("--runs", type=int, default=3, help="how many trials (3)")
    line.add_argument("--kills", type=int, default=4, help="how often something is done (4)")
    line.add_argument("--ranks", type=int, default=4, help="how many ranks compute (4)")
    line.add_argument("--turns", type=int, default=200, help="for how many turns (200)")
    line.add_argument("--seed", default="1", help="where the random numbers begin (1)")
    line.add_argument("--seconds", type=float, default=10, help="how long the link is cut (10)")


def joined(near: str, far: str) -> bool:
    """Whether two hosts could be made, with a link between them."""
    def on(host: str, *words: str) -> bool:
        """Whether a command of `ip` is done on a host."""
        return done("ip", "-n", host, *words)

    return (
        done("ip", "netns", "add", near) and done("ip", "netns", "add", far)
        and on(near, "link", "add", LINK, "type", "veth", "peer", "name", LINK, "netns", far)
        and all(
            on(host, "addr", "add", f"{address}/30", "dev", LINK)
            and on(host, "link", "set", LINK, "up") and on(host, "link", "set", "lo", "up")
            for host, address in ((near, HUB), (far, FAR))
        )
    )


def lossy(*hosts: str) -> bool:
    """Whether the link of all hosts loses packets from now on."""
    return all(
        done("tc", "-n", it, "qdisc", "add", "dev", LINK, "root", *LOSSY)
        or done("ip", "netns", "exec", it, "nft", "-f", "-", told=FILTER)
        for it in hosts
    )


def run(asked: argparse.Namespace) -> int:
    """Makes the hosts, runs the trials on them, and answers the status."""
    if FAR_HOST in os.environ:
        return run_all(asked, Hosts)
    near, far = (f"recline-{os.getpid()}-{name}" for name in ("near", "far"))
    try:
        if not joined(near, far):
            print("trial hosts: left out: network namespaces want root, and `ip` of iproute2")
            return LEFT_OUT
        if not lossy(near, far):
            print("trial hosts: there is neither netem nor nft, so the link loses no packets")
        if not asked.collect:
            command_lines.runs(TOP / "recline")  # which builds the program, if need be
        collect = asked.collect or f"{TOP}/recline collect"
        again = ["ip", "netns", "exec", near, sys.executable, *sys.argv]
        again += ["--collect", collect]
        environment = {**os.environ, FAR_HOST: far}
        return subprocess.run(again, env=environment, check=False).returncode
    finally:
        for host in (near, far):
            done("ip", "netns", "del", host)
