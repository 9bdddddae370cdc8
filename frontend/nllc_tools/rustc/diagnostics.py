"""What rustc and Cargo write as JSON, as far as it is read here."""

from __future__ import annotations

from typing import Optional, TypedDict


class SourceLine(TypedDict):
    text: str


class Expansion(TypedDict):
    """That a macro made what stands at a place: where the macro is used."""

    span: DiagnosticSpan


class DiagnosticSpan(TypedDict):
    """A place that a diagnostic names."""

    file_name: str
    line_start: int
    line_end: int
    column_start: int
    column_end: int
    is_primary: bool
    text: list[SourceLine]
    label: Optional[str]
    suggested_replacement: Optional[str]
    expansion: Optional[Expansion]


class Code(TypedDict):
    code: str


class Child(TypedDict):
    """A note or a help of a diagnostic."""

    message: str
    level: str
    spans: list[DiagnosticSpan]


class Diagnostic(TypedDict):
    """An error, a warning or a note."""

    message: str
    code: Optional[Code]
    level: str
    spans: list[DiagnosticSpan]
    children: list[Child]
    rendered: str


class CargoMessage(TypedDict, total=False):
    """What `cargo check` tells, such as what rustc says of a crate."""

    message: Diagnostic


class Target(TypedDict):
    name: str


class Package(TypedDict):
    """A package of a project, by `cargo metadata`."""

    id: str
    name: str
    manifest_path: str
    targets: list[Target]


class Metadata(TypedDict):
    """What `cargo metadata` says of a project; older ones name no default members."""

    packages: list[Package]
    workspace_members: list[str]
    workspace_default_members: list[str]
    target_directory: str
