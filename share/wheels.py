"""The packages for pip, made without a network and without what is beside Python's standard library: what pip and build call, as
pyproject.toml says. `pip install .` in a checkout makes the package for this machine, `pip install -e .` one that runs the checkout
itself, and `python3 -m build` an archive of the sources, and of it the package.

The folder dist is the project's own. What is to be made there, as build does if it is not told otherwise, is made in the folder out
beside it."""

import os
import sys

FOLDER = os.path.dirname(os.path.realpath(__file__))
TOOLS = os.path.join(os.path.dirname(FOLDER), "tools")
sys.path[:] = [path for path in sys.path if path != FOLDER]  # pip puts it first
with open(os.path.join(TOOLS, "pp6600", "own.py"), encoding="ascii") as own:
    exec(own.read())
find_first(pp6600=TOOLS, packaging=FOLDER)  # noqa: F821

import base64  # noqa: E402
import hashlib  # noqa: E402
import re  # noqa: E402
import time  # noqa: E402

from packaging import NO_LICENCE, TOP, archive, has_programs, moment, of_commit, output, read, version  # noqa: E402

from pp6600.engine.choice import MACHINE_HERE  # noqa: E402
from pp6600.shell.archives import EARLIEST, zipped  # noqa: E402
from pp6600.shell.installation import part, programs_for, without_lost_links  # noqa: E402
from pp6600.shell.manifest import File, files_below  # noqa: E402
from pp6600.shell.manifest import read as read_file  # noqa: E402

ANY = "any"
COMMANDS = "pp6600_commands.py"  # what the commands call
METADATA = """Metadata-Version: 2.1
Name: pp6600
Version: {version}
Summary: {summary}
{classifiers}Requires-Python: {python}
Description-Content-Type: text/markdown

{what} {licence}

{readme}"""
PROVED = "The proved program for {platform}, its tools, and pp6600-python, which is not proved, for other machines."
IN_PYTHON = ("The tools, and pp6600-python, which is not the proved program. That one is in the packages for x86-64 and aarch64 "
             "Linux.")


def platforms():
    """Returns the tag of each platform for whose machine dist has a program, by its machine."""
    found = {}
    if has_programs("x86_64"):  # the program without a C library starts on each Linux
        is_static = os.path.exists(os.path.join(TOP, "dist", "pp6600-static"))
        found["x86_64"] = "manylinux_2_17_x86_64.musllinux_1_1_x86_64" if is_static else "manylinux_2_34_x86_64"
    if has_programs("aarch64"):
        found["aarch64"] = "manylinux_2_17_aarch64.musllinux_1_1_aarch64"
    if has_programs("windows"):
        found["windows"] = "win_amd64"
    return {**found, "": ANY}


def package(programs):
    """Returns the files of the Python package, by their names in the archive, with these programs in it."""
    found = {path[len("tools/"):]: entry for path, entry in part("tools/pp6600").items()}
    found.update({f"pp6600/{name}": read_file(path) for name, path in programs.items() if not name.endswith(".a")})
    return {**found, "pp6600/VERSION": File(read("VERSION"))}


def pages():
    """Returns the pages, the examples, the exercises and the manual pages, which pip puts into the folder share of the
    environment."""
    found = {path: entry for path, entry in of_commit({}).items()
             if path.startswith(("share/pp6600/", "share/man/")) and isinstance(entry, File)}
    return {f"pp6600-{version()}.data/data/{path}": entry for path, entry in without_lost_links(found).items()}


def of_project(pattern):
    """Returns what stands in the lines of pyproject.toml that a pattern is of."""
    return re.findall(f"^{pattern}$", read("pyproject.toml").decode(), flags=re.M)


def about(platform):
    """Returns the files that say what the package is."""
    tags = "".join(f"Tag: py3-none-{tag}\n" for tag in platform.split("."))
    texts = {"METADATA": metadata(IN_PYTHON if platform == ANY else PROVED.format(platform=platform.split(".")[0])),
             "WHEEL": f"Wheel-Version: 1.0\nGenerator: pp6600\nRoot-Is-Purelib: {str(platform == ANY).lower()}\n{tags}",
             "entry_points.txt": "[console_scripts]\n"
             + "".join(f"{name} = {entry}\n" for name, entry in of_project(r'(pp6600\S*) = "(\S+)"'))}
    return {f"pp6600-{version()}.dist-info/{name}": File(text.encode()) for name, text in texts.items()}


def metadata(what):
    """Returns the text of METADATA: what pyproject.toml says, a sentence about this package, and README.md."""
    (summary,), (python,) = of_project('description = "(.*)"'), of_project('requires-python = "(.*)"')
    classifiers = "".join(f"Classifier: {one}\n" for one in of_project(r' +"(.* :: .*)",'))
    return METADATA.format(version=version(), summary=summary, python=python, classifiers=classifiers, what=what,
                           licence=NO_LICENCE, readme=read("README.md").decode())


def record(files, own):
    """Returns the list of all files with their checksums."""
    rows = []
    for name, entry in sorted(files.items()):
        digest = base64.urlsafe_b64encode(hashlib.sha256(entry.data).digest()).rstrip(b"=").decode()
        rows.append(f"{name},sha256={digest},{len(entry.data)}\n")
    return File("".join([*rows, f"{own},,\n"]).encode())


def packed(platform, files):
    """Returns the name and the bytes of a package with these files for a platform."""
    files, own = {**files, **about(platform)}, f"pp6600-{version()}.dist-info/RECORD"
    time_of_files = max(time.gmtime(moment())[:6], EARLIEST)
    return f"pp6600-{version()}-py3-none-{platform}.whl", zipped({**files, own: record(files, own)}, time_of_files)


def wheel(platform, programs, pages):
    """Returns the name and the bytes of the package for a platform."""
    return packed(platform, {**package(programs), COMMANDS: File(read("share", COMMANDS)), **pages})


def save(folder, name, data):
    """Writes a package into a folder, or if that is the project's own folder dist, into the folder out beside it. Returns where it
    is from the folder."""
    where = os.path.join("..", "out") if os.path.exists(os.path.join(folder, "sources")) else ""
    os.makedirs(os.path.join(folder, where), exist_ok=True)
    with open(os.path.join(folder, where, name), "wb") as file:
        file.write(data)
    return os.path.join(where, name)


# What pip and build call. Each returns the name of what it has made.


def build_wheel(wheel_directory, config_settings=None, metadata_directory=None):
    """Makes the package for this machine."""
    machine = MACHINE_HERE if MACHINE_HERE in platforms() else ""
    return save(wheel_directory, *wheel(platforms()[machine], programs_for(machine), pages()))


def build_editable(wheel_directory, config_settings=None, metadata_directory=None):
    """Makes a package that runs this checkout where it is."""
    commands = re.sub("(?m)^FOLDER = .*$", lambda _: f"FOLDER = {TOOLS!r}", read("share", COMMANDS).decode())
    return save(wheel_directory,
                *packed(ANY, {"pp6600.pth": File(os.fsencode(f"{TOOLS}\n")), COMMANDS: File(os.fsencode(commands))}))


def build_sdist(sdist_directory, config_settings=None):
    """Makes an archive of the sources: all that the commit has, or what was unpacked of one."""
    if os.path.exists(os.path.join(TOP, ".git")):
        files = {path: read_file(os.path.join(TOP, path)) for path in output("git", "ls-files", "-z").split("\0") if path}
    else:
        files = files_below(TOP)
    return save(sdist_directory, f"pp6600-{version()}.tar.gz",
                archive(f"pp6600-{version()}", {**files, "PKG-INFO": File(metadata(IN_PYTHON).encode())}, moment()))
