"""Imported first by each tool: an older python, or Ctrl-C while the other modules are imported, shows no traceback.

So this file, and each tool as far as it is read before it runs, has to be one that python 3.6 reads.
"""
import os
import sys

OLDEST = (3, 8)


def show(kind, error, trace):
    if not issubclass(kind, KeyboardInterrupt):
        sys.__excepthook__(kind, error, trace)


sys.excepthook = show
if sys.version_info < OLDEST:
    sys.exit("%s: needs python %d.%d or later, and this is %d.%d"
             % ((os.path.splitext(os.path.basename(sys.argv[0]))[0],) + OLDEST + sys.version_info[:2]))
