"""The functions of the toolchain's command rt, for scripts that need more of them than rt offers as commands."""
import importlib.machinery
import importlib.util
import os
import shutil
import sys

ROOT = os.path.dirname(os.path.dirname(os.path.realpath(__file__)))


def load():
    """Returns rt as a module. The command is the one on the path."""
    found = shutil.which("rt")
    if not found:
        sys.exit("the toolchain's command rt is not on the path")
    loader = importlib.machinery.SourceFileLoader("rt", os.path.realpath(found))
    rt = importlib.util.module_from_spec(importlib.util.spec_from_loader("rt", loader))
    sys.modules["rt"] = rt
    loader.exec_module(rt)
    # its first call sets the handler of a signal, which only the main thread may
    rt.rtlib.guarded()
    return rt


def remember(rt):
    """Has each crate find the libraries below it, and the sum of what they are made from, once. Sources must not change."""
    crate = rt.rtlib.Crate
    below, stamp = crate.below, crate.stamp
    lists, sums = {}, {}

    def below_once(self):
        if self.folder not in lists:
            lists[self.folder] = below(self)
        return list(lists[self.folder])

    def stamp_once(self):
        if self.folder not in sums:
            sums[self.folder] = stamp(self)
        return sums[self.folder]

    crate.below, crate.stamp = below_once, stamp_once
