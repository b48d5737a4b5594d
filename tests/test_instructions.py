"""Pictures take no more instructions than bench/results/instructions.md says, but for 3 percent."""

import importlib.machinery
import importlib.util
import os
import sys

import pytest

from shared import TOP, need

BENCH = os.path.join(TOP, "bench")
MOST = 1.03


def bench_script():
    """bench/instructions as a module, which brings those beside it."""
    if BENCH not in sys.path:
        sys.path.append(BENCH)
    loader = importlib.machinery.SourceFileLoader("bench_instructions", os.path.join(BENCH, "instructions"))
    module = importlib.util.module_from_spec(importlib.util.spec_from_loader(loader.name, loader))
    loader.exec_module(module)
    return module


SCRIPT = bench_script()


def stored():
    """The instructions that are stored, by command and plot."""
    from blocks import block, rows

    table = rows(block("bench/results/instructions.md", "bench/instructions"))[0]
    return {(row["command"], row["plot"]): int(row["instructions"].replace(",", "")) for row in table}


STORED = stored()


def test_every_plot_is_stored():
    assert list(STORED) == SCRIPT.rows(None)


@pytest.mark.parametrize("command, name", STORED)
def test_instructions(command, name, program, pytestconfig, tmp_path):
    need(pytestconfig, "valgrind")
    found = SCRIPT.measured(program, command, name, tmp_path)
    limit = STORED[command, name] * MOST
    assert found <= limit, f"{found:,} instructions, where bench/results/instructions.md says {STORED[command, name]:,}"
