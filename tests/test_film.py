"""Tests tools/film: what it writes, and that docs/films has what it makes today. What it says is in tests/sessions/film.txt.

Other expected values are those of docs/FILM.md and of the run's own files.
"""

import base64
import glob
import hashlib
import os
import re

from tests.films import FOLDER, FilmCase, about, shown_film, stored, unpacked
from tests.support import TOP, Case, read, write

from pp6600.front.film.joining import JoinError, joined

BYTE = "\udcff"  # a byte of a command line that is not UTF-8, as Python has it


class Tool(FilmCase):
    """What the tool writes and says."""

    def test_around(self):
        """docs/FILM.md: it opens after a turn."""
        script = "SET A 0 1\nSTEP 10\nBACK 4\nSET A 1 1\nSTEP 10\n"
        self.assertEqual([0, 0o14], [about(read(self.film("--around", turn, script=script)))["opens"] for turn in ("0", "14")])

    def test_module(self):
        """The simulator in a page is that of dist/, byte for byte."""
        with open(os.path.join(TOP, "dist", "pp6600.wasm"), "rb") as file:
            self.assertEqual(file.read(), unpacked(read(self.film(script="STEP\n")), "simulator"))

    def test_headings(self):
        """The title that was asked for, or the name of the script's file, or of its folder if it is called script; never the page's
        own source."""
        script, odd = (write(self.path(name), "STEP\n") for name in ("a <script>", f"b{BYTE}"))
        for words, wanted in (((script,), "a &lt;script&gt;"), ((odd,), "b\ufffd"), (("--title", f"c{BYTE}", script), "c\ufffd"),
                              (("examples/handshake/script",), "handshake"), ((), "standard input"),
                              (("--title", "/*--script--*/<!--film-->"), "/*--script--*/&lt;!--film--&gt;")):
            with self.subTest(words=words):
                made = read(self.film(*words, script="STEP\n"))
                self.assertEqual([wanted], re.findall(r"<title>(.*?)</", made))

    def test_one_page(self):
        """Each module is in the script of the page or of its worker, or in both, once, and no mark of the template is left."""
        made, web = read(self.film(script="STEP\n")), os.path.join(TOP, "tools", "pp6600", "front", "film", "web")
        shared, *own = (unpacked(made, part).decode("utf-8") for part in ("shared", "view", "engine"))
        scripts = [shared + one for one in own]
        for path in (os.path.join(web, "main.js"), *glob.glob(os.path.join(web, "*", "*js"))):
            name = re.sub(r"\W", "_", os.path.splitext(os.path.relpath(path, web))[0])
            self.assertIn(sorted(script.count(f"const m_{name} = (() => {{") for script in scripts), ([0, 1], [1, 1]), path)
        self.assertEqual([], re.findall(r"<!--\w+-->|/\*--\w+--\*/", made))

    def test_rooms_import_one_way(self):
        """A folder of the page imports from itself and from those before it."""
        web, folders = os.path.join(TOP, "tools", "pp6600", "front", "film", "web"), ("machine", "engine", "page", "views")
        for at, folder in enumerate(folders):
            for path in glob.glob(os.path.join(web, folder, "*js")):
                self.assertLessEqual(set(re.findall(r'^import .* from "\.\./(\w+)/', read(path), flags=re.M)), set(folders[:at]),
                                     path)

    def test_scripts_that_may_run(self):
        """The page runs its own two scripts, by their checksums, and none that stands in a text."""
        made = read(self.film(script="STEP\n"))
        policy, (first,) = (re.search(r'Content-Security-Policy" content="(.*?)"', made)[1],
                            re.findall(r"<script>(.*?)</script>", made, flags=re.S))
        sums = [base64.b64encode(hashlib.sha256(script).digest()).decode()
                for script in (first.encode(), unpacked(made, "shared") + unpacked(made, "view"))]
        self.assertEqual(f"default-src 'none'; script-src 'sha256-{sums[0]}' 'sha256-{sums[1]}' 'wasm-unsafe-eval' blob:; "
                         f"worker-src blob:; "
                         "style-src 'unsafe-inline'", policy)

    def test_old_browsers(self):
        """The script that says that a browser is too old has no word that an old browser does not know."""
        first = read("tools", "pp6600", "front", "film", "web", "first.js")
        self.assertEqual([], re.findall(r"=>|`|\?\.|\b(?:async|await|class|const|let)\b", re.sub("//.*", "", first)))

    def test_files_of_the_run(self):
        """The page has the script, the deck and the panel byte for byte, and how one runs them again."""
        room = self.folder
        contents = {"script": b"STEP 3\r\n* caf\xe9 \xff\nGO", "deck": b"* one card\n0001 0002\n",
                    "my panel": b"1 2 3 4 5 6\n7 10 11 12 13 14\n"}
        for name, data in contents.items():
            write(self.path(name), data)
        words = ("--deck", f"{room}/deck", "--panel", f"{room}/my panel", "--central", "32")
        kept = about(read(self.film(*words, f"{room}/script", status=1)))
        self.assertEqual(contents, {file["name"]: file["bytes"].encode("latin-1") for file in kept["files"]})
        self.assertEqual(["script", "deck", "panel"], [file["kind"] for file in kept["files"]])
        self.assertEqual("pp6600 --central 32 --deck deck --panel 'my panel' script", kept["again"])
        os.mkdir(self.path("other"))
        os.rename(f"{room}/deck", f"{room}/other/script")
        same = about(read(self.film("--deck", f"{room}/other/script", f"{room}/script", status=1)))
        self.assertEqual("pp6600 --deck deck-script script", same["again"])
        typed = about(read(self.film(script="STEP\n")))
        self.assertEqual(([{"kind": "script", "name": "script", "bytes": "STEP\n"}], "pp6600 script"),
                         (typed["files"], typed["again"]))

    def test_docs_films(self):
        """docs/films has what tools/film makes today. Only the deflated bytes may differ, by the zlib that made them."""
        for name in stored():
            pages = read(shown_film(name)), read(FOLDER, f"{name}.html")
            with self.subTest(name, part="page"):
                self.assertEqual(*(re.sub(r'(?s)(id="(?:film|style|simulator|shared|engine|view)">\n).*?(\n</script>)', r"\1\2",
                                          page) for page in pages))
            with self.subTest(name, part="film"):
                self.assertEqual(*map(about, pages))


class Joining(Case):
    """Modules become one script, or a sentence says why not."""

    def joined(self, **texts):
        for name, text in texts.items():
            write(self.path(f"{name}.js"), text)
        return joined(self.path("a.js"))

    def test_in_order(self):
        made = self.joined(a='import { B, c } from "./b.js";\nexport const a = B + c();\n',
                           b="export const B = 1, C = 2;\nexport function c() { return C; }\n")
        self.assertEqual('"use strict";\nconst m_b = (() => {\nconst B = 1, C = 2;\nfunction c() { return C; }\nreturn { B, C, c '
                         '};\n})();\n'
                         'const m_a = (() => {\nconst { B, c } = m_b;\nconst a = B + c();\nreturn { a };\n})();\n', made)

    def test_without_comments(self):
        """What is in a string stays."""
        made = self.joined(a='// of all\nexport const a = 1; // of one\n  // of a line\nexport const b = {\n  c: "http://x // '
                             'y",\n};\n')
        self.assertEqual('"use strict";\nconst m_a = (() => {\nconst a = 1;\nconst b = {\nc: "http://x // y",\n};\nreturn { a, b '
                         '};\n})();\n', made)

    def test_refused(self):
        for texts, wanted in (({"a": 'import { b } from "./b.js";\n', "b": 'import { a } from "./a.js";\nexport const b = 1;\n'},
                               "a cycle: .*a.js -> .*b.js -> .*a.js"),
                              ({"a": 'import { b } from "./b.js";\n', "b": "export const c = 1;\n"}, "no module exports b"),
                              ({"a": "export default 1;\n"}, "export default 1"),
                              ({"a": 'import "./b.js";\n', "b": ""}, 'import "./b.js"')):
            with self.subTest(texts), self.assertRaisesRegex(JoinError, wanted):
                self.joined(**texts)
