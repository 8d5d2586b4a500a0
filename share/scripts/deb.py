"""Makes packages for Debian and its relatives, by dpkg-deb.

    deb [FOLDER]   makes pp6600_VERSION-1_ARCHITECTURE.deb in FOLDER (else out), and beside each a file with its sha256: amd64 and
                   arm64 with the proved programs for them, as far as dist/ has them, and all, with the simulator in Python alone

Each is an installation (share/install) below /usr. dist/sources must have the checksums of the programs and of the sources. A
checkout of git must be as committed. The same commit makes the same bytes: names are sorted, and owner, modes and time are
fixed."""

import email.utils
import hashlib
import os
import shutil
import tempfile

from packaging import NO_LICENCE, fail, folder, has_programs, moment, of_commit, output, pack_commit, programs, save, version

from pp6600.shell.archives import gzipped
from pp6600.shell.installation import LOADED, OWN, PAGE_MODULE, install, put
from pp6600.shell.manifest import File, SymbolicLink, files_below

REVISION = 1
ARCHITECTURES = {"amd64": "x86_64", "arm64": "aarch64", "all": ""}  # and the machines of their programs
MAINTAINER = "Tiphurya maintainers <maintainers@users.noreply.tiphurya.example>"
CONTROL = """Package: pp6600
Version: {version}
Architecture: {architecture}
Maintainer: {maintainer}
Installed-Size: {size}
Depends: {library}python3 (>= 3.9)
Suggests: rlwrap
{provides}Section: otherosfs
Priority: optional
Description: console simulator of the CDC 6600's peripheral processors
 pp6600 runs the programs of the ten small computers that did the input and
 output of the CDC 6600, the supercomputer of 1964. It steps through them
 forward and back, so when a program goes wrong you go back to the instruction
 that did it. It is proved that each line typed has one exact answer, and that
 going back restores the machine exactly.
 .
 With it come its tools, pages, examples and exercises, and pp6600-python, a
 second simulator that is not proved{alone}.
 {licence}
"""
PROVIDES = "Provides: node-pp6600\n"
COPYRIGHT = f"pp6600 is a part of the project Tiphurya. {NO_LICENCE}\n"
CHANGES = """pp6600 ({version}) unstable; urgency=medium

  * What changed is in changelog.gz.

 -- {maintainer}  {date}
"""
ALONE = "; this package has no other"  # the one for all architectures
# What lintian would say, and why it is so.
OVERRIDES = """\
# The programs are the files of which dist/sources has the checksums, byte for byte: stripped or linked anew they would be
# others. One needs no C library, so that it starts where the C library is older, or another one.
{programs}# It was never uploaded to Debian, so no wish for a package is closed.
pp6600: initial-upload-closes-no-bugs *
# What is in gzip's form is stored there, for each version of a compressor would write other bytes.
pp6600: changelog-not-compressed-with-max-compression *
pp6600: poor-compression-in-manual-page *
"""
OF_PROGRAM = """pp6600: unstripped-binary-or-object [usr/libexec/pp6600/{name}]
pp6600: statically-linked-binary [usr/libexec/pp6600/{name}]
"""
OF_LIBRARY = """pp6600: unstripped-binary-or-object [usr/libexec/pp6600/{name}]
pp6600: shared-library-lacks-prerequisites [usr/libexec/pp6600/{name}]
"""
# it is tried first; the other one needs no libc
OF_FIRST = "pp6600: missing-dependency-on-libc needed by usr/libexec/pp6600/pp6600\n"
# What Python compiles is made and taken away as dh_python3 has it.
SCRIPTS = {"postinst": """#!/bin/sh
set -e
if [ "$1" = configure ] && [ -z "${DPKG_ROOT:-}" ] && command -v py3compile >/dev/null; then
    py3compile -p pp6600 /usr/libexec/pp6600
fi
""", "prerm": """#!/bin/sh
set -e
find "${DPKG_ROOT:-}/usr/libexec/pp6600" "${DPKG_ROOT:-}/usr/share/pp6600" -name __pycache__ -prune -exec rm -r {} +
"""}
INTERPRETERS = {b"#!/usr/bin/env python3\n": b"#!/usr/bin/python3\n", b"#!/usr/bin/env bash\n": b"#!/bin/bash\n"}  # Debian's policy


def with_interpreter(file):
    """Returns a file whose first line names its interpreter by its path."""
    first, end, rest = file.data.partition(b"\n")
    return file._replace(data=INTERPRETERS.get(first + end, first + end) + rest)


def about(made, proved):
    """Returns what a package has beside the installation, by its path below the root."""
    changes = CHANGES.format(version=f"{version()}-{REVISION}", maintainer=MAINTAINER, date=email.utils.formatdate(made))
    programs = [OF_PROGRAM.format(name=name) for name in sorted(proved) if not name.endswith(LOADED)]
    libraries = [OF_LIBRARY.format(name=name) for name in sorted(proved) if name.endswith(".so")]
    overrides = OVERRIDES.format(programs="".join([OF_FIRST] * ("pp6600-static" in proved) + programs + libraries))
    return {"usr/share/doc/pp6600/changelog.Debian.gz": File(gzipped(changes.encode())),
            "usr/share/doc/pp6600/copyright": File(COPYRIGHT.encode()),
            "usr/share/lintian/overrides/pp6600": File(overrides.encode())}


def control(architecture, files, proved):
    """Returns the files that describe a package with these files, and with these programs among them."""
    library = "libc6 (>= 2.34), " if "pp6600" in proved and "pp6600-static" not in proved else ""
    sums = "".join(f"{hashlib.md5(file.data).hexdigest()}  {path}\n" for path, file in sorted(files.items()))
    text = CONTROL.format(version=f"{version()}-{REVISION}", architecture=architecture, maintainer=MAINTAINER, licence=NO_LICENCE,
                          library=library, provides=PROVIDES if PAGE_MODULE in proved else "", alone=ALONE if architecture == "all"
                          else "",
                          size=sum(-(-len(file.data) // 1024) for file in files.values()))
    return {"DEBIAN/md5sums": File(sums.encode()), "DEBIAN/control": File(text.encode()),
            **({"DEBIAN/triggers": File(b"activate-noawait ldconfig\n")} if any(name.endswith(".so") for name in proved) else {}),
            **{f"DEBIAN/{name}": File(script.encode(), True) for name, script in SCRIPTS.items()}}


def package(architecture, installed, proved):
    """Returns the bytes of a package."""
    made = moment()
    entries = {path: with_interpreter(entry) if isinstance(entry, File) else entry for path, entry in installed.items()}
    entries["lib/python3/dist-packages/pp6600"] = SymbolicLink(f"../../../{OWN}/tools/pp6600")
    with tempfile.TemporaryDirectory() as room:
        root, path = os.path.join(room, "root"), os.path.join(room, "made.deb")
        install(entries, os.path.join(root, "usr"))
        put(about(made, proved), root)
        files = {path: entry for path, entry in files_below(root).items() if isinstance(entry, File)}
        put(control(architecture, files, proved), root)
        output("dpkg-deb", "--root-owner-group", "-Zgzip", "--build", root, path,
               env={**os.environ, "SOURCE_DATE_EPOCH": str(made)})
        with open(path, "rb") as file:
            return file.read()


def main():
    target = folder(__doc__)
    if not shutil.which("dpkg-deb"):
        fail("there is no dpkg-deb here")
    pack_commit(target)
    os.umask(0o022)
    for architecture, machine in ARCHITECTURES.items():
        if not machine or has_programs(machine):
            proved = programs(machine)
            save(target, f"pp6600_{version()}-{REVISION}_{architecture}.deb",
                 package(architecture, of_commit(proved, separate=True), proved))
