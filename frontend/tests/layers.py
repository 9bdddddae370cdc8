#!/usr/bin/env python3
"""The layers of frontend/nllc_tools, read off its imports: run as a script it prints lines, imports and types by folder."""

import ast
import os
import sys
from collections import Counter
from typing import Iterator, NamedTuple

FRONTEND = os.path.dirname(os.path.dirname(os.path.abspath(__file__)))
PACKAGE = "nllc_tools"
LAYERS = ("base", "rustc", "model", "texts", "judge", "views", "commands")      # each may use itself and those before it
MOST_LINES = 300
MOST_MODULES = 15


class Module(NamedTuple):
    """A module: its name within the package, its lines, and what it says."""

    name: str
    lines: int
    tree: ast.Module

    def layer(self) -> str:
        return self.name.split(".")[0]

    def folder(self) -> str:
        return self.name.rpartition(".")[0]


def modules() -> dict[str, Module]:
    """The modules by name, those of packages themselves left out."""
    found = {}
    root = os.path.join(FRONTEND, PACKAGE)
    for folder, _, names in sorted(os.walk(root)):
        for name in sorted(names):
            if name.endswith(".py") and name != "__init__.py":
                path = os.path.join(folder, name)
                with open(path, encoding="utf-8") as file:
                    text = file.read()
                own = os.path.relpath(path, root).removesuffix(".py").replace(os.sep, ".")
                found[own] = Module(own, text.count("\n"), ast.parse(text))
    return found


def imports(module: Module, known: dict[str, Module]) -> Iterator[str]:
    """The modules of the package that a module imports, wherever it does; a name that there is none of as it stands."""
    for node in ast.walk(module.tree):
        if isinstance(node, ast.ImportFrom) and node.level:
            yield f"{'.' * node.level}{node.module or ''}"
        elif isinstance(node, ast.ImportFrom) and f"{node.module}.".startswith(f"{PACKAGE}."):
            base = (node.module or "").removeprefix(PACKAGE).removeprefix(".")
            for alias in node.names:
                inner = f"{base}.{alias.name}".removeprefix(".")
                yield inner if inner in known else base
        elif isinstance(node, ast.Import):
            for alias in node.names:
                if f"{alias.name}.".startswith(f"{PACKAGE}."):
                    yield alias.name.removeprefix(PACKAGE).removeprefix(".")


def graph(known: dict[str, Module]) -> dict[str, list[str]]:
    return {name: sorted(set(imports(module, known))) for name, module in known.items()}


def upward(edges: dict[str, list[str]]) -> list[tuple[str, str]]:
    """The imports of a module of a later layer; those of no module are such, too."""
    return [(name, other) for name, its in edges.items() for other in its
            if other not in edges or LAYERS.index(other.split(".")[0]) > LAYERS.index(name.split(".")[0])]


def cycle(edges: dict[str, list[str]]) -> list[str]:
    """The modules that are in a cycle, or that one leads to; empty where there is none."""
    left = {name: set(its) & set(edges) for name, its in edges.items()}
    while ended := {name for name, its in left.items() if not its}:
        left = {name: its - ended for name, its in left.items() if name not in ended}
    return sorted(left)


def functions(module: Module) -> list[ast.FunctionDef]:
    return [node for node in ast.walk(module.tree) if isinstance(node, ast.FunctionDef)]


def is_typed(function: ast.FunctionDef) -> bool:
    """Whether all of its arguments, and its result, have types."""
    arguments = [*function.args.posonlyargs, *function.args.args, *function.args.kwonlyargs,
                 *filter(None, (function.args.vararg, function.args.kwarg))]
    return function.returns is not None and all(one.annotation or one.arg in ("self", "cls") for one in arguments)


def main() -> int:
    known = modules()
    edges = graph(known)
    print(f"{'folder':24}{'modules':>8}{'lines':>8}{'functions':>10}{'typed':>7}")
    for folder in dict.fromkeys(module.folder() for module in known.values()):
        inside = [module for module in known.values() if module.folder() == folder]
        its = [function for module in inside for function in functions(module)]
        print(f"{folder:24}{len(inside):>8}{sum(module.lines for module in inside):>8}{len(its):>10}{sum(map(is_typed, its)):>7}")
    print(f"{'all':24}{len(known):>8}{sum(module.lines for module in known.values()):>8}")
    print("imports from layer to layer:")
    pairs = Counter((known[name].layer(), known[other].layer()) for name, its in edges.items() for other in its if other in known)
    for (layer, other), count in sorted(pairs.items(), key=lambda one: tuple(map(LAYERS.index, one[0]))):
        print(f"  {layer} -> {other}: {count}")
    print("upward:", upward(edges) or "none")
    print("in cycles:", cycle(edges) or "none")
    return 0


if __name__ == "__main__":
    sys.exit(main())
