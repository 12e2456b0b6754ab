"""The archive that programs are linked with: its sha256, where it is there and as new as what it is made from (tools/library goes by the same)."""
import hashlib

from reading import needed_by
from sources import CRATES, ROOT

ARCHIVE = ROOT / "target" / "staticlib" / "libouriscado.a"


def made_from():
    """The files and folders that the archive is made from."""
    yield ROOT / "crates.txt"
    for name in needed_by("ouriscado_c"):
        for part in ("src", "specs", "proofs"):
            yield from [CRATES / name / part, *(CRATES / name / part).rglob("*")]


def is_current(archive, sources):
    """Whether an archive is there, and nothing that it is made from is newer."""
    return archive.exists() and not any(path.exists() and path.stat().st_mtime > archive.stat().st_mtime for path in sources)


def archive_sum():
    """The archive's sha256; none where there is no current one."""
    return hashlib.sha256(ARCHIVE.read_bytes()).hexdigest() if is_current(ARCHIVE, made_from()) else None
