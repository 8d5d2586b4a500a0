"""The debug adapter in editors, where they are there: docs/PANEL.md is followed to the culprit of the overwritten loader."""

import json
import os
import shutil
import unittest
import zipfile
from xml.etree import ElementTree

from tests.cases import part
from tests.debug_client import LOADER
from tests.fixtures import DECK
from tests.support import TOP, Case, program, read, run, write
from tests.terminal import IS_HERE, Terminal

MODES = "/usr/share/emacs/site-lisp/elpa"
INIT = """(setq inhibit-startup-screen t make-backup-files nil)
(load "{top}/share/editors/emacs/pp6600-debug.el")
(setq pp6600-debug-adapter '("{top}/tools/debug-adapter"))
"""


def has_dap_mode():
    return os.path.isdir(MODES) and any(name.startswith("dap-mode") for name in os.listdir(MODES))


@unittest.skipUnless(IS_HERE and shutil.which("emacs") and has_dap_mode(), "there is no emacs with dap-mode, or no tmux")
class Emacs(Case):
    """Emacs in a terminal."""

    def setUp(self):
        """Makes the script and the deck, as the page does."""
        write(self.path("loader"), "".join(f"{line}\n" for line in LOADER))
        shutil.copy(DECK, self.folder)
        write(self.path(".emacs"), INIT.format(top=TOP))
        environment = {"HOME": self.folder, "PP6600": program(), "PYTHONDONTWRITEBYTECODE": "1"}
        self.terminal = Terminal(["emacs", "-nw"], 120, 40, kind="screen", environment=environment, folder=self.folder)
        self.addCleanup(self.terminal.close)
        self.assert_shows("*scratch*")

    def assert_shows(self, text):
        self.assertTrue(self.terminal.shows(text), "\n".join(self.terminal.text()))

    def command(self, name, *answers):
        self.terminal.type("\x1bx")
        for prompt, answer in (("M-x", name), *answers):
            self.assert_shows(prompt)
            self.terminal.type(f"{answer}\r")

    def test_the_culprit(self):
        self.command("pp6600-debug", ("Script:", "loader"), ("Deck", "deck"))
        self.assert_shows("0111  0032  PSN 32")
        self.terminal.tmux("send-keys", "F12")
        for shown, typed in (">>", "WATCH M 0 106\r"), ("OK", "BACK W\r"):
            self.assert_shows(shown)
            self.terminal.type(typed)
        for text in "BACK 675 SLOT 00", "0106  7512  DCN 12":  # the listing is read again
            self.assert_shows(text)
        self.command("dap-ui-locals")
        for text in "PHASE: 7112", "P: 0106":
            self.assert_shows(text)
        self.command("pp6600-step-back")
        self.assert_shows("P: 0105")
        self.command("pp6600-reverse-continue")
        self.assert_shows("PHASE: 0000")


PACKAGE = json.loads(read("share", "editors", "vscode", "package.json"))
GIVES = PACKAGE["contributes"]
TYPES = ("string", "integer", "boolean", "object", "array")  # of settings
NAME = "[a-z0-9][a-z0-9-]*"
CATEGORIES = {"Debuggers", "Programming Languages", "Snippets", "Formatters", "Themes", "Other"}


class Files(Case):
    """What the files for editors say is so."""

    def test_settings(self):
        vscode = GIVES["debuggers"][0]
        kate = json.loads(read("share", "editors", "kate", "dap.json"))["dap"]["pp6600"]
        names = set(vscode["configurationAttributes"]["launch"]["properties"])
        page = read("docs", "PANEL.md").split("### What a session is begun with", 1)[1]
        for name in sorted(names):
            self.assertIn(f"`{name}`", page)
        self.assertLessEqual(set(kate["configurations"]["launch"]["request"]) - {"command"}, names)
        self.assertEqual((vscode["runtime"], [vscode["runtime"]]), ("pp6600-debug-adapter", kate["run"]["command"]))


class Extension(Case):
    """VS Code's extension: package.json as VS Code's page of extension manifests and that of contribution points have it."""

    def test_fields(self):
        names = "name displayName description publisher version engines categories extensionKind contributes"
        self.assertEqual(set(names.split()), set(PACKAGE))
        for text, form in ((PACKAGE["name"], NAME), (PACKAGE["publisher"], NAME), (PACKAGE["version"], r"\d+\.\d+\.\d+"),
                           (PACKAGE["engines"]["vscode"], r"\^1\.\d+\.0")):
            self.assertRegex(text, f"^{form}$")
        self.assertLessEqual(set(PACKAGE["categories"]), CATEGORIES)
        self.assertLessEqual(set(PACKAGE["extensionKind"]), {"workspace", "ui"})
        self.assertEqual({"languages", "grammars", "problemMatchers", "breakpoints", "debuggers"}, set(GIVES))

    def test_languages(self):
        names = {extension: one["id"] for one in GIVES["languages"] for extension in one["extensions"]}
        self.assertEqual({".pp": "pp6600", ".pplist": "pp6600-listing"}, names)
        for ids in (one["language"] for one in GIVES["breakpoints"]), GIVES["debuggers"][0]["languages"]:
            self.assertEqual(set(names.values()), set(ids))
        for grammar in GIVES["grammars"]:
            self.assertIn(grammar["language"], names.values())
            self.assertEqual(grammar["scopeName"], json.loads(read("share", "editors", "vscode", grammar["path"]))["scopeName"])

    def test_debugger(self):
        debugger, = GIVES["debuggers"]
        names = "type label languages runtime configurationAttributes initialConfigurations configurationSnippets"
        self.assertEqual(set(names.split()), set(debugger))
        settings = debugger["configurationAttributes"]["launch"]["properties"]
        for name, setting in settings.items():
            self.assertTrue(setting.get("type") in TYPES or isinstance(setting.get("enum"), list), name)
            self.assertTrue(setting["description"].endswith("."), name)
        for body in (*debugger["initialConfigurations"], *(one["body"] for one in debugger["configurationSnippets"])):
            self.assertEqual(("pp6600", "launch"), (body["type"], body["request"]))
            self.assertLessEqual(set(body) - {"type", "request", "name"}, set(settings))

    def test_archive(self):
        """The same bytes each time, and each file of a type that the archive names."""
        made = []
        for _ in range(2):
            folder = self.room()
            done = run(os.path.join(TOP, "share", "vsix"), folder)
            path = os.path.join(folder, f"pp6600-debug-{PACKAGE['version']}.vsix")
            self.assertEqual((f"vsix: {path}\n", "", 0), done)
            made.append(part(folder, os.path.basename(path)))
        self.assertEqual(*made)
        with zipfile.ZipFile(path) as archive:
            names = archive.namelist()
            self.assertEqual((sorted(names), {(1980, 1, 1, 0, 0, 0)}), (names, {one.date_time for one in archive.infolist()}))
            self.assertEqual(PACKAGE, json.loads(archive.read("extension/package.json")))
            self.assertIn("extension/syntaxes/pp6600.tmLanguage.json", names)
            types = ElementTree.fromstring(archive.read("[Content_Types].xml"))
            self.assertEqual({os.path.splitext(name)[1] for name in names if name != "[Content_Types].xml"},
                             {one.get("Extension") for one in types})
            manifest = ElementTree.fromstring(archive.read("extension.vsixmanifest"))
        found = {one.tag.split("}")[1]: one for one in manifest.iter()}
        self.assertEqual([PACKAGE[name] for name in ("name", "version", "publisher")],
                         [found["Identity"].get(name) for name in ("Id", "Version", "Publisher")])
        self.assertEqual((PACKAGE["displayName"], PACKAGE["description"]), (found["DisplayName"].text, found["Description"].text))
        self.assertIn(found["Asset"].get("Path"), names)

    def test_bad_hands(self):
        for words in (["--nonsense"], [""], ["x", "y"], ["/dev/null/x"]):
            done = run(os.path.join(TOP, "share", "vsix"), *words)
            self.assertEqual(("", 1, 2), (done.out, done.err.count("\n"), done.status))
            self.assertTrue(done.err.startswith("vsix: "), done.err)
