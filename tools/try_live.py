#!/usr/bin/env python3
"""Runs the probe over the built gateway: its suite of frames, and a client and a container over real sockets.

    python3 tools/try_live.py [--probe FILE] [--gateway FILE]

The probe is what `rt ci` left in crates/gate_probe/out, and the gateway what it left in crates/amqp_gate/out, each also as Rattle's
own compiler made it where it did; or FILE. `suite` is run by each probe. `live` is run by each probe with each gateway, at
the addresses that it has by itself if their ports are free, and beside 255 idle clients. The status is 0 where all went well.
"""

import argparse
import os
import signal
import socket
import subprocess
import sys
import tempfile
import time
from pathlib import Path

from run_cases import runnable
from try_hostile import free_port

CRATES = Path(__file__).resolve().parent.parent / "crates"
IDLE = 255
SECONDS = 120


def built(crate):
    """The programs of a crate, by LLVM and, where it is there, by Rattle's own compiler."""
    program = CRATES / crate / "out" / crate
    other = program.with_name(f"{crate}.by-rattle")
    return [program] + ([other] if other.exists() else [])


def is_free(port):
    with socket.socket() as probe:
        try:
            probe.bind(("127.0.0.1", port))
            return True
        except OSError:
            return False


def places():
    """The words behind the program's path, for each play: none for the addresses that the probe has by itself."""
    addresses = lambda: [f"127.0.0.1:{free_port()}", f"127.0.0.1:{free_port()}"]
    own = [] if is_free(25672) and is_free(25673) else [*addresses(), "0"]
    return {"live": own, f"live beside {IDLE} idle clients": [*addresses(), str(IDLE)]}


def is_well(title, words, wanted):
    """Whether a run of the probe prints what is wanted, with status 0."""
    begun = time.monotonic()
    # (a session of its own, since the probe starts the gateway)
    run = subprocess.Popen(words, stdout=subprocess.PIPE, stderr=subprocess.PIPE, text=True, start_new_session=True)
    try:
        out, told = run.communicate(timeout=SECONDS)
    except subprocess.TimeoutExpired:
        os.killpg(run.pid, signal.SIGKILL)
        run.communicate()
        print(f"{title}: no end within {SECONDS} s")
        return False
    fine = run.returncode == 0 and out == f"{wanted}\n"
    said = wanted if fine else f"status {run.returncode}, {out.strip()!r}, {told.strip()!r}"
    print(f"{title}: {said} ({time.monotonic() - begun:.1f} s)", flush=True)
    return fine


def main():
    parser = argparse.ArgumentParser(description=__doc__, formatter_class=argparse.RawDescriptionHelpFormatter)
    parser.add_argument("--probe", type=Path)
    parser.add_argument("--gateway", type=Path)
    options = parser.parse_args()
    probes = [options.probe] if options.probe else built("gate_probe")
    gateways = [options.gateway] if options.gateway else built("amqp_gate")
    with tempfile.TemporaryDirectory() as folder:
        probes, gateways = ([runnable(path, folder) for path in paths] for paths in (probes, gateways))
        results = [is_well(f"{probe.name} suite", [probe, "suite"], "suite: 23 of 23") for probe in probes]
        for probe in probes:
            for gateway in gateways:
                for title, words in places().items():
                    results.append(is_well(f"{probe.name} {title}, {gateway.name}", [probe, "live", gateway, *words], "live: ok"))
    sys.exit(0 if all(results) else 1)


if __name__ == "__main__":
    main()
