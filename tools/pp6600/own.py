# Performed first by each command, from its own folder: `find_first` says in which folders the command's own packages are. Whatever
# PYTHONPATH, the working folder or a .pth file says, Python then takes them from there, and nothing else. Any Python can read this.

import os
import sys

if sys.version_info < (3, 9):
    sys.stderr.write("{}: Python 3.9 or later is needed, and this is Python {}.{}\n".format(
        os.path.basename(sys.argv[0]), sys.version_info[0], sys.version_info[1]))
    sys.exit(2)


def find_first(**folders):  # type: (str) -> None
    """Lets the packages and modules with these names be those of these folders."""
    from importlib.machinery import PathFinder

    class Own:
        """Finds these alone."""

        @staticmethod
        def find_spec(name, path=None, target=None):  # type: ignore[no-untyped-def]
            above = name.partition(".")[0]
            return PathFinder.find_spec(name, path or [folders[above]]) if above in folders else None

    for name, module in list(sys.modules.items()):
        folder = folders.get(name.partition(".")[0])
        if folder and not (getattr(module, "__file__", None) or "").startswith(os.path.join(folder, "")):
            del sys.modules[name]  # a .pth file has imported it
    sys.meta_path.insert(0, Own)
