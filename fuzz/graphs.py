"""Walks, flows, trees and cycles of the second checker, which the front has as `gulfezo.recheck`."""

from __future__ import annotations

import sys
from pathlib import Path

sys.path.insert(0, str(Path(__file__).resolve().parents[1] / "python"))

from gulfezo.recheck.graphs import (  # noqa: E402
    WORDS,
    Edge,
    Edges,
    Flow,
    Meaning,
    cost,
    distances,
    has_cycle,
    holds,
    is_bridged,
    joined,
    leaves,
    lightest_forest,
    maximum_flow,
    pairs,
    passes,
)

__all__ = [
    "WORDS",
    "Edge",
    "Edges",
    "Flow",
    "Meaning",
    "cost",
    "distances",
    "has_cycle",
    "holds",
    "is_bridged",
    "joined",
    "leaves",
    "lightest_forest",
    "maximum_flow",
    "pairs",
    "passes",
]
