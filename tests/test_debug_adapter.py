"""The debug adapter, by a client over pipes: the dialogues of tests/debug, and what these can't show."""

import json
import os
import signal
import stat
import unittest

from tests.debug_client import HAS_GO, DebugCase, Refusal
from tests.debug_dialogue import FOLDER, Dialogue, cases, files, text_of
from tests.steps import StepCase
from tests.support import PATIENCE, add_tests, read

LOOPS = read(FOLDER, "loops").splitlines()


class Dialogues(DebugCase, StepCase):
    """The answers are those of docs/PANEL.md and docs/CONSOLE.md, and of examples/overwritten-loader."""

    def begin(self, requests):
        is_run_while_asked = any(request.startswith(("start", "pause")) for request, _ in requests)
        client = self.client(folder=self.folder) if is_run_while_asked else self.own_client(self.folder)
        self.dialogue = Dialogue(client, self.folder, requests)

    def check_step(self, request, wanted):
        self.assertEqual(text_of(request, wanted), text_of(request, self.dialogue.answers(request)))


add_tests(Dialogues, Dialogues.check, [(f"{os.path.basename(path)[:-len('.txt')]} {shows[1:80]}", requests)
                                       for path in files() for shows, requests in cases(path)])


class Answers(DebugCase):
    """Answers too long for a dialogue."""

    @unittest.skipUnless(HAS_GO, "there is no go or no go-dap: no message of a session is decoded by it")
    def test_messages(self):
        """They are decoded at the end of each class of tests, of this one too."""
        self.loader()

    def test_files(self):
        client = self.loader()
        path = client.listing()
        self.assertEqual("PP00.pplist", os.path.basename(path))
        self.assertEqual(0o444, stat.S_IMODE(os.stat(path).st_mode))
        lines = read(path).splitlines()
        self.assertEqual((4096, 1), (len(lines), len({len(line) for line in lines})))
        self.assertEqual("0106  0027  PSN 27", lines[0o106].rstrip())
        self.assertEqual("0000  0000  PSN 00", read(client.listing(9)).splitlines()[0].rstrip())
        self.assertEqual("\n".join(lines) + "\n", client.ask("source", source={"path": path}, sourceReference=0)["content"])
        self.assertEqual("\n".join(lines) + "\n", client.ask("source", sourceReference=1)["content"])

    def test_a_listing_is_written_in_place(self):
        client = self.loader()
        before = os.stat(client.listing())
        client.stop_after("evaluate", expression="SET M 0 7777 0100", context="repl")
        after = os.stat(client.listing())
        self.assertEqual((before.st_ino, before.st_size), (after.st_ino, after.st_size))

    def test_two_sessions(self):
        first, second = self.loader(), self.loader()
        self.assertNotEqual(first.listing(), second.listing())
        folder = os.path.dirname(second.listing())
        self.assertEqual((0, ""), second.end())
        self.assertEqual((True, False), (os.path.exists(first.listing()), os.path.exists(folder)))

    def test_disassembled_beyond_the_memory(self):
        client = self.session(LOOPS)
        got = client.ask("disassemble", memoryReference="0x001ffe", instructionOffset=-5000,
                         instructionCount=100000)["instructions"]
        self.assertEqual((100000, 4096), (len(got), sum(one["instruction"] != "(no cell)" for one in got)))
        self.assertEqual(["(no cell)", "0000  0000  PSN 00", "7777  0000  PSN 00", "(no cell)"],
                         [got[at]["instruction"] for at in (904, 905, 5000, 5001)])

    def test_pointing_never_acts(self):
        client = self.loader()
        for context in ("hover", "watch", "variables"):
            for text in ("STEP 12", "BACK", "SET A 0 1", "nonsense", "8", ":STEP" if context != "watch" else "STEP", "",
                         "M 0 10000"):
                with self.subTest(text, context=context), self.assertRaises(Refusal):
                    client.ask("evaluate", expression=text, frameId=1, context=context)
        self.assertEqual("1300", client.turns())


class BadHands(DebugCase):
    def check_ended(self, client, folder, said, status):
        self.assertEqual(status, client.process.wait(PATIENCE))
        self.assertIn(said, client.end()[1])
        self.assertFalse(os.path.exists(folder), "the listings are removed")

    def test_what_is_no_message(self):
        for data, said in ((b"Content-Len", "has no Content-Length"), (b"hello\r\n\r\n", "has no Content-Length"),
                           (b"Content-Length: x\r\n\r\n", "has no Content-Length"),
                           (b"Content-Length: 100\r\n\r\n{}", "ends before its length"),
                           (b"Content-Length: -1\r\n\r\n{}", "has no Content-Length"),
                           (b"Content-Length: 3\r\n\r\n{a}", "is not JSON"), (b"Content-Length: 2\r\n\r\n[]", "is not a request"),
                           (b"Content-Length: 99999999999\r\n\r\n", "has no Content-Length"),
                           (b"Content-Length: 1\r\n\r\n{", "is not JSON"),
                           (b'Content-Length: 13\r\n\r\n{"command":1}', "is not a request")):
            with self.subTest(data):
                client = self.loader()
                folder = os.path.dirname(client.listing())
                client.process.stdin.write(data)
                client.process.stdin.close()
                self.check_ended(client, folder, f"debug-adapter: what the editor wrote is no message: it {said}\n", 2)

    def test_a_client_that_dies(self):
        for command in (None, "continue"):
            client = self.session(LOOPS)
            folder = os.path.dirname(client.listing())
            if command:
                client.ask(command, threadId=1)
            client.process.stdin.close()
            self.check_ended(client, folder, "", 0)

    def test_a_signal(self):
        for number, status in ((signal.SIGTERM, 0), (signal.SIGHUP, 0), (signal.SIGINT, -signal.SIGINT)):
            with self.subTest(number):
                client = self.session(LOOPS)
                folder = os.path.dirname(client.listing())
                client.ask("continue", threadId=1)
                client.process.send_signal(number)
                self.check_ended(client, folder, "", status)

    def test_arguments_that_are_none(self):
        """An editor may leave them out, and write null; others are refused."""
        client = self.session(LOOPS)
        for number, arguments in (899, {}), (900, {"arguments": None}):
            client.write(json.dumps({"seq": number, "type": "request", "command": "threads", **arguments}).encode())
            self.assertEqual(10, len(client.answer(number)["threads"]))
        client.write(json.dumps({"seq": 901, "type": "request", "command": "threads", "arguments": [1]}).encode())
        with self.assertRaises(Refusal):
            client.answer(901)
        self.assertEqual((0, ""), client.end())

    def test_pause_at_once(self):
        client = self.session(LOOPS)
        for command in ("continue", "continue", "reverseContinue"):
            client.send(command, threadId=1)
            client.ask("pause", threadId=1)
            client.event("stopped")

    def test_no_message_during_a_run(self):
        client = self.session(LOOPS)
        client.ask("continue", threadId=1)
        client.process.stdin.write(b"hello\r\n\r\n")
        client.process.stdin.flush()
        self.assertEqual(2, client.process.wait(PATIENCE))
        self.assertIn("is no message", client.end()[1])
