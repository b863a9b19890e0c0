"""Calls a tool in this process, which takes less time than a process for each call."""
import importlib.machinery
import importlib.util
import io
import os
import sys

TOOLS = os.path.dirname(os.path.dirname(os.path.abspath(__file__)))
sys.dont_write_bytecode = True


def path_of(name):
    return os.path.join(TOOLS, name)


def tool(name):
    """The module of a tool, whose file has no ending."""
    loader = importlib.machinery.SourceFileLoader(name.replace("-", "_"), path_of(name))
    module = importlib.util.module_from_spec(importlib.util.spec_from_loader(loader.name, loader))
    loader.exec_module(module)
    return module


def call(module, *words):
    """The status of a call with these words, and its texts on standard output and error."""
    before = sys.argv, sys.stdout, sys.stderr
    streams = [io.TextIOWrapper(io.BytesIO(), encoding="utf-8") for _ in range(2)]
    sys.argv, (sys.stdout, sys.stderr) = [module.__name__, *words], streams
    try:
        status = module.main()
    except SystemExit as end:
        status = end.code
    finally:
        sys.argv, sys.stdout, sys.stderr = before
    texts = []
    for stream in streams:
        stream.flush()
        texts.append(stream.buffer.getvalue().decode("utf-8", "surrogateescape"))
    return (status, *texts)
