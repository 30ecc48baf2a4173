"""Figures as a text for Prometheus, and a file with them that is replaced as a whole."""
import os
from bisect import bisect_left
from typing import Dict, Iterable, List, NamedTuple

BOUNDS = 0.001, 0.0025, 0.005, 0.01, 0.025, 0.05, 0.1, 0.25, 0.5, 1.0, 2.5, 5.0, 10.0, 30.0, 60.0


class Sample(NamedTuple):
    """A number with its labels, and what is put behind the figure's name for it, as `_sum`."""

    labels: Dict[str, str]
    value: object
    end: str = ""


class Family(NamedTuple):
    """A figure: its name, its type, what it is, and its samples with their labels."""

    name: str
    kind: str
    what: str
    samples: List[Sample]


def gauge(name: str, what: str, value: object) -> Family:
    """A figure that is one number, and may go up and down."""
    return Family(name, "gauge", what, [Sample({}, value)])


class Histogram:
    """How many times were below each of some bounds, in seconds."""

    def __init__(self):
        self._counts = [0] * (len(BOUNDS) + 1)
        self._seconds = 0.0

    def add(self, seconds: float) -> None:
        self._counts[bisect_left(BOUNDS, seconds)] += 1
        self._seconds += seconds

    def samples(self) -> List[Sample]:
        samples, below = [], 0
        for bound, count in zip(BOUNDS + ("+Inf",), self._counts):
            below += count
            samples.append(Sample({"le": str(bound)}, below, "_bucket"))
        return samples + [Sample({}, f"{self._seconds:.6f}", "_sum"), Sample({}, below, "_count")]


def escaped(value: str) -> str:
    """The value of a label."""
    return value.replace("\\", "\\\\").replace('"', '\\"').replace("\n", "\\n")


def exposed(families: Iterable[Family]) -> str:
    lines = []
    for name, kind, what, samples in families:
        lines += [f"# HELP {name} {what}", f"# TYPE {name} {kind}"]
        for labels, value, end in samples:
            told = ",".join(f'{label}="{escaped(word)}"' for label, word in labels.items())
            lines.append(f"{name}{end}{{{told}}} {value}" if told else f"{name}{end} {value}")
    return "\n".join(lines) + "\n"


def put(path: str, text: str) -> None:
    """Replaces a file as a whole. Raises `OSError`."""
    with open(path + ".new", "w", encoding="utf-8") as file:
        file.write(text)
    os.replace(path + ".new", path)
