"""Fetches a file of a source package of Debian, by apt, into a folder; nothing of it is stored here."""
from __future__ import annotations

import functools
import subprocess
import tarfile
import tempfile
from pathlib import Path


def release() -> str:
    """The name of the running release."""
    text = Path("/etc/os-release").read_text()
    lines = dict(line.split("=", 1) for line in text.splitlines() if "=" in line)
    return lines.get("VERSION_CODENAME", "").strip('"')


def fetch(package: str, name: str, folder: Path) -> Path:
    """Fetches the source package and takes out the one file; raises where it isn't to be had."""
    (folder / "lists" / "partial").mkdir(parents=True)
    (folder / "sources.list").write_text(f"deb-src http://deb.debian.org/debian {release()} main\n")
    options = ["-q", "-o", f"Dir::Etc::SourceList={folder}/sources.list", "-o", "Dir::Etc::SourceParts=/dev/null",
               "-o", f"Dir::State::Lists={folder}/lists", "-o", "APT::Sandbox::User=root"]
    for words in (["update"], ["source", "--download-only", package]):
        subprocess.run(["apt-get", *options, *words], cwd=folder, check=True, capture_output=True)
    archive = next(folder.glob("*.orig.tar.*"))
    with tarfile.open(archive) as files:
        member = next(one for one in files if one.name.endswith("/" + name))
        text = files.extractfile(member).read()
    path = folder / Path(name).name
    path.write_bytes(text)
    return path


@functools.cache
def picorv32() -> str:
    """The text of PicoRV32, which is fetched once."""
    with tempfile.TemporaryDirectory() as folder:
        return fetch("nextpnr", "ice40/benchmark/picorv32.v", Path(folder)).read_text()
