"""Makes the package for Node, without a network and without Node.

    npm [FOLDER]   makes pp6600-VERSION.tgz, and beside it a file with its sha256, in FOLDER (else out); npm install FILE installs
                   it

It has the proved module for WebAssembly, which dist/sources must name, and the module for JavaScript over it. A checkout of git
must be as committed. The same commit makes the same bytes: the names are sorted, and owner, modes and time are fixed."""

from packaging import TOP, archive, folder, moment, pack_commit, programs, save, version

from pp6600.shell.installation import PAGE_MODULE
from pp6600.shell.libraries import NODE, for_javascript
from pp6600.shell.manifest import read


def main():
    target = folder(__doc__)
    pack_commit(target)
    files = for_javascript(TOP, read(programs("x86_64")[PAGE_MODULE]))
    save(target, f"pp6600-{version()}.tgz",
         archive("package", {path[len(NODE) + 1:]: entry for path, entry in files.items()}, moment()))
