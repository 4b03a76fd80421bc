#!/usr/bin/env python3
"""Measures `cq_switch check` of the largest configuration that is read.

    check.py [--program PROGRAM] [--runs N] [--fast]

It prints the table in README.md, and ends with status 1 where the configuration is refused.
"""

import os
import sys
import tempfile

from measuring import instructions, parser, per, program_of, run, table, whole

BYTES, PORTS, ADDRESSES, RULES = 1_048_576, 64, 4096, 256


def configuration():
    """Every array is as long as it may be, and a comment fills the text up to the greatest length."""
    lines = ["version = 1", 'trace = "trace.txt"', 'log = "log.txt"']
    lines += ['[[class]]\npriority = %d\ncost = %d' % (k, k + 1) for k in range(16)]
    lines += ['[[port]]\nread = "in%d.pcap"\nwrite = "out%d.pcap"' % (i, i) for i in range(PORTS)]
    lines += ['[[address]]\nmac = "02:00:00:00:%02x:%02x"\noutput = %d' % (k // 256, k % 256, k % PORTS) for k in range(ADDRESSES)]
    lines += ["[[rule]]\npcp = %d\nether_type = %d\ndscp = %d\nclass = %d" % (k % 8, 2048 + k, k % 64, k % 16) for k in range(RULES)]
    text = "\n".join(lines) + "\n# "
    return text + "x" * (BYTES - len(text) - 1) + "\n"


def main():
    options = parser("Measures `cq_switch check` of the largest configuration.", runs=9).parse_args()
    program = program_of(options)
    with tempfile.TemporaryDirectory() as folder:
        name = os.path.join(folder, "largest.toml")
        with open(name, "w", encoding="ascii") as file:
            file.write(configuration())
        words = [program, "check", name]
        spent = [run(words) for _ in range(options.runs)]
        seconds = sorted(s.seconds for s in spent)
        counted = None if options.fast else instructions(words)
        table(("configuration", "`check`", "least", "most", "instructions a byte"),
              [(whole(BYTES) + " bytes", *("%.0f ms" % (1000 * s) for s in (seconds[len(seconds) // 2], seconds[0], seconds[-1])),
                per(counted, BYTES))])
    wanted = "ok ports %d classes 16 addresses %d rules %d\n" % (PORTS, ADDRESSES, RULES)
    if any(s.said != wanted for s in spent):
        print("check.py: %r" % spent[0].said, file=sys.stderr)
        return 1
    return 0


if __name__ == "__main__":
    sys.exit(main())
