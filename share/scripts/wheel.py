"""Makes packages for pip, without a network and without what is beside Python's standard library.

    wheel [FOLDER]   makes them in FOLDER (else out), and beside each a file with its sha256:
      one for each platform with a proved program in dist/, with that program, the simulator in Python, and the tools
      pp6600-VERSION-py3-none-any.whl, the same without a proved program, for other machines

dist/sources must have the checksums of the programs and of the sources. A checkout of git must be as committed. The same commit
makes the same bytes: the names are sorted, and modes and time are fixed."""

from packaging import folder, pack_commit, programs, save
from wheels import pages, platforms, wheel


def main():
    target = folder(__doc__)
    pack_commit(target)
    common = pages()
    for machine, platform in platforms().items():
        save(target, *wheel(platform, programs(machine), common))
