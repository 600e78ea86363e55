"""Networks as a picture in Graphviz's DOT: a cluster each, with its question above it.

The chain's own links are bold, those that the rules force are blue, and the link that is missing is dashed.
"""

from collections.abc import Sequence
from json import dumps

from .networks import NamedNetwork

OWN = "penwidth=2"
FORCED = 'color="#3060a0", fontcolor="#3060a0", constraint=false'
MISSING = 'color="#b02020", fontcolor="#b02020", style=dashed, constraint=false'


def write(networks: Sequence[NamedNetwork]) -> str:
    clusters = "".join(cluster(number, network) for number, network in enumerate(networks))
    return f"digraph {{\n  rankdir=LR\n  node [shape=circle]\n{clusters}}}\n"


def cluster(number: int, network: NamedNetwork) -> str:
    def arrow(start: int, end: int, label: str, style: str) -> str:
        return f'"{number}.{start}" -> "{number}.{end}" [label={dumps(label)}, {style}]'

    lines = [
        f"label={dumps(f'{network.question}: no')}",
        *(f'"{number}.{place}" [label="{place}"]' for place in range(network.last + 1)),
        *(arrow(start, end, name, OWN) for start, end, name in network.own()),
        *(arrow(start, end, ", ".join(names), FORCED) for start, end, names in network.forced()),
        arrow(0, network.last, f"no {network.question.role}", MISSING),
    ]
    return f"  subgraph cluster_{number} {{\n" + "".join(f"    {line}\n" for line in lines) + "  }\n"
