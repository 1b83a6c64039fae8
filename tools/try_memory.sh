#!/usr/bin/env bash
# Reads values that state far more elements than they have bytes, under a limit of memory.
#
#     tools/try_memory.sh [MEGABYTES]
#
# It uses crates/tests_gate/out/tests_gate: `rt run` in crates/tests_gate makes it. Each value has less than 64 KiB,
# the limit is 256 megabytes of address space where none is given, and this is no part of the gate. The status is 0 where
# each value is refused as it must be.
set -u
cd "$(dirname "$0")/.." || exit 2
program=crates/tests_gate/out/tests_gate
if [ ! -x "$program" ]; then
    echo "usage: tools/try_memory.sh [MEGABYTES], once $program is built" >&2
    exit 2
fi
megabytes=${1:-256}

# so many times a text
times() { printf "$2%.0s" $(seq "$1"); }

# four bytes of a number
four() { printf '%08X' "$1" | sed 's/../& /g'; }

cases() {
    # an array of 6,500 arrays of 65,536 nulls, and a list of as many
    echo "read F0 $(four $((5 + 9 * 6500)))$(four 6500)F0 $(times 6500 '00 00 00 05 00 01 00 00 40 ')"
    echo "read D0 $(four $((4 + 10 * 6500)))$(four 6500)$(times 6500 'F0 00 00 00 05 00 01 00 00 40 ')"
    # 30,000 elements that each have a list of 30,000 nulls as their descriptor, and a text of 30,000 bytes
    echo "read F0 $(four $((4 + 10 + 30000 + 1 + 30000)))$(four 30000)00 D0 $(four 30004)$(four 30000)40*30000 50 07*30000"
    echo "read F0 $(four $((4 + 6 + 30000 + 1 + 30000)))$(four 30000)00 B0 $(four 30000)61*30000 50 07*30000"
}

# the calls of these cases
calls() {
    python3 -c '
import sys
from cases.calls_10 import call
from cases.told_bytes import bytes_of
for line in sys.stdin:
    print(call("value", bytes_of(line.strip().removeprefix("read "))))'
}

diff <(cases | PYTHONPATH=tools calls | (ulimit -v $((megabytes * 1024)) && "$program")) - <<'END' && echo "refused within $megabytes megabytes"
Ok(Err(At { fault: Count, at: 9 }))
Ok(Err(At { fault: Count, at: 19 }))
Ok(Err(At { fault: Count, at: 0 }))
Ok(Err(At { fault: Count, at: 0 }))
END
