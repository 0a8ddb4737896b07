#!/usr/bin/env python3
"""Writes the monitor as one file, which runs alone: monitor.py with the modules that it imports from this folder.

The file goes to standard output. It needs python 3.8 or later alone; an older one, also python 2, reads as far as the
line that says so, since the modules stand in it as texts:

  make_monitor.py > vozhkell-monitor.py"""
import interrupts  # first, for what it does
import ast
import os
import sys

import vmtrace

HERE = os.path.dirname(os.path.abspath(__file__))
TOP = '''#!/usr/bin/env python3
# Says how far the page counters of a machine can be off: tools/monitor.py of Vozhkell, and the modules that it imports.
# tools/make_monitor.py has written this. Each module is a text here, which no python reads that is too old for it.
import os
import sys

if sys.version_info < ({oldest}):
    sys.exit("%s: needs python {named} or later, and this is %d.%d"
             % ((os.path.splitext(os.path.basename(sys.argv[0]))[0],) + sys.version_info[:2]))

import types


def load(name, text):
    """Makes a module of its text, which later ones can import."""
    sys.modules[name] = types.ModuleType(name)
    exec(compile(text, name + ".py", "exec", dont_inherit=True), sys.modules[name].__dict__)

'''
MODULE = """
load("{name}", r'''{text}''')
"""
END = '''
sys.modules["vmtrace"].run(sys.modules["monitor"].main)
'''


def text_of(name):
    """The text of a module, which can stand in a raw string of any python."""
    text = vmtrace.text_of(os.path.join(HERE, f"{name}.py"))
    if not text.isascii() or "'''" in text:
        raise vmtrace.BadInput(f"{name}.py: has a letter that isn't ASCII, or three apostrophes in a row")
    return text


def imported_by(name):
    """The modules of this folder that a module imports, in the order of its lines."""
    for node in ast.parse(text_of(name)).body:
        names = [node.module] if isinstance(node, ast.ImportFrom) else []
        names += [alias.name for alias in node.names] if isinstance(node, ast.Import) else []
        yield from (name for name in names if os.path.exists(os.path.join(HERE, f"{name}.py")))


def order_of(name, before):
    """The modules that a module needs and that aren't among those before, each after those that it needs, and it."""
    order = []
    for needed in imported_by(name):
        if needed not in before + order:
            order += order_of(needed, before + order)
    return [*order, name]


def main(arguments):
    vmtrace.Parser(__doc__).parse_args(arguments)
    numbers = list(map(str, interrupts.OLDEST))
    top = TOP.replace("{oldest}", ", ".join(numbers)).replace("{named}", ".".join(numbers))
    modules = [MODULE.replace("{name}", name).replace("{text}", text_of(name)) for name in order_of("monitor", [])]
    sys.stdout.write("".join([top, *modules, END]))
    return 0


if __name__ == "__main__":
    vmtrace.run(main)
