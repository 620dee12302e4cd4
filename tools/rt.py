"""The toolchain's command rt, with the libraries below each crate and their sums found once.

Usage: rt.py ARGS, in the folder where rt ARGS is run. The toolchain finds both anew for each way through the graph of
crates that leads to a library. There are tens of thousands of ways, and the sources don't change during a run.
"""
import sys

sys.dont_write_bytecode = True
import toolchain


def main(words):
    rt = toolchain.load()
    toolchain.remember(rt)
    return rt.main(words)


if __name__ == "__main__":
    sys.exit(main(sys.argv[1:]))
