"""Makes an archive of the proved programs for Linux, their tools and their pages, for machines without the Rattle kit.

    release [FOLDER]   makes pp6600-VERSION-linux.tar.gz, and beside it a file with its sha256, in FOLDER (else out)

The archive is an installation (share/install) with links at its top, so that the commands of the pages work there as in the
repository. The programs are those of dist/, and dist/sources must have their checksums and that of the sources. A checkout of git
must be as committed. The same commit makes the same bytes: the names are sorted, and owner, modes and time are fixed."""

import os
import sys

from packaging import TOP, archive, folder, moment, of_commit, output, pack_commit, programs, read, save, version

from pp6600.shell.installation import ALL, LIST, OWN, PAGES
from pp6600.shell.manifest import File, SymbolicLink

LINKS = {"pp6600": "bin/pp6600", "pp6600-python": f"{OWN}/pp6600-python", "tools": f"{OWN}/tools", "docs": f"{PAGES}/docs",
         "examples": f"{PAGES}/examples", "exercises": f"{PAGES}/exercises", "install": f"{OWN}/install",
         "VERSION": f"{OWN}/VERSION"}


def contents():
    """Returns the files and links of the archive."""
    proved = programs(ALL)
    installed = of_commit(proved, f"{PAGES}/docs/definitions.html")
    page = read("share", "release.md").decode().replace("VERSION", version(), 1)
    listed = "".join(f"{path}\n" for path in sorted([*installed, LIST]))
    return {**installed, LIST: File(listed.encode()), **{name: SymbolicLink(target) for name, target in LINKS.items()},
            **{f"dist/{name}": SymbolicLink(f"../{OWN}/{name}") for name in proved}, "dist/sources": File(read("dist", "sources")),
            "README.md": File(page.encode())}


def main():
    target = folder(__doc__)
    pack_commit(target)
    output(sys.executable, os.path.join(TOP, "docs", "definitions.py"))  # makes docs/definitions.html, which is not tracked
    top = f"pp6600-{version()}-linux"
    save(target, f"{top}.tar.gz", archive(top, contents(), moment()))
