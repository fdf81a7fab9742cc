"""The files of the crates: Rust with contracts (.rt), and definitions and proofs (.antt)."""

from __future__ import annotations

from dataclasses import dataclass
from pathlib import Path


@dataclass(frozen=True)
class Source:
    """A file, by its path below the top of the repository."""

    path: str
    lines: tuple[str, ...]

    @property
    def crate(self) -> str:
        return self.path.split("/")[1]

    @property
    def folder(self) -> str:
        """src, specs or proofs"""
        return self.path.split("/")[2]

    @property
    def is_rust(self) -> bool:
        return self.path.endswith(".rt")


def sources(top: Path) -> list[Source]:
    """The files of all crates that are written by hand, in the order of their paths."""
    paths = sorted(
        path
        for folder in ("src", "specs", "proofs")
        for path in top.glob(f"crates/*/{folder}/**/*")
        if path.suffix in (".rt", ".antt")
    )
    return [Source(str(path.relative_to(top)), tuple(path.read_text().splitlines())) for path in paths]
