"""Programs that never answer, are stopped, print without an end or can't be started, by stand-ins; and whom a process ends with."""

import contextlib
import os
import signal
import subprocess
import sys
import tempfile
import threading
import time
import unittest

from acquire import Deadline, Program, ProgramMissing, Session, TimeOver, Unexpected

THREE = {"variables": ["a", "b"], "domain": [1, 2], "relations": [{"name": "differ", "arity": 2, "formula": ["!=", "$0", "$1"]}], "scopes": "all"}
PYTHON = os.path.dirname(os.path.dirname(os.path.abspath(__file__)))
SOON, LATE = 0.6, 20.0

# What starts a program in a thread that ends, says both process numbers, and stays until it is killed.
STARTS_IN_A_THREAD = f"""
import os, sys, threading, time
sys.path.insert(0, {PYTHON!r})
from acquire import Program
made = []
def starts():
    run = Program(sys.argv[1]).run([])
    made.extend((run, run.line()))  # it has asked for the signal by then
one = threading.Thread(target=starts)
one.start()
one.join()
print(made[0].pid, made[1], flush=True)
time.sleep(60)
"""


def is_there(pid):
    """Whether a process lives; one that has ended and nobody has waited for doesn't."""
    try:
        with open(f"/proc/{pid}/stat", encoding="ascii") as file:
            return file.read().rpartition(")")[2].split()[0] != "Z"
    except FileNotFoundError:
        return False


class Shown(Deadline):
    """A deadline that counts its ticks."""

    ticks = 0

    def tick(self):
        self.ticks += 1


class StandIns(unittest.TestCase):
    """Each body is a script of the shell in the program's place."""

    def setUp(self):
        self.folder = self.enterContext(tempfile.TemporaryDirectory())

    def program(self, body, name="program", **more):
        path = os.path.join(self.folder, name)
        with open(path, "w", encoding="utf-8") as file:
            file.write(f"#!/bin/sh\n{body}\n")
        os.chmod(path, 0o755)
        return Program(path, **more)

    def over(self, call):
        """What `TimeOver` says of a call that is cut soon."""
        began = time.monotonic()
        with self.assertRaises(TimeOver) as raised:
            call()
        self.assertLess(time.monotonic() - began, LATE)
        return raised.exception

    def test_a_call_that_never_ends_is_cut_and_hands_on_what_came(self):
        deadline = Shown(SOON)
        said = self.over(lambda: self.program("echo one; exec sleep 60").call([], deadline=deadline))
        self.assertEqual(["one"], said.lines)
        self.assertGreaterEqual(deadline.ticks, 2)

    def test_one_deadline_is_for_several_calls(self):
        deadline, program = Deadline(SOON), self.program("sleep 0.1")
        def calls():
            while True:
                program.call([], deadline=deadline)
        self.over(calls)
        self.assertTrue(deadline.over)

    def test_a_run_that_says_nothing_is_cut(self):
        run = self.program("exec sleep 60").run([])
        self.over(lambda: run.line(Deadline(SOON)))
        run.kill()

    def test_a_run_that_asks_and_asks_is_cut(self):
        run = self.program("while :; do echo q1 a=1; done").run([])
        deadline = Deadline(SOON)
        def lines():
            while True:
                run.line(deadline)
        self.over(lines)
        run.kill()

    def test_a_program_that_is_stopped_is_cut_and_ended(self):
        run = self.program("echo q1 a=1; read -r answer; echo q2 a=1; read -r answer").run([])
        self.assertEqual("q1 a=1", run.line(Deadline(LATE)))
        os.kill(run.pid, signal.SIGSTOP)
        run.write(b"yes\n")
        self.over(lambda: run.line(Deadline(SOON)))
        self.assertEqual(-signal.SIGKILL, run.close())

    def test_a_session_is_cut_and_its_program_is_gone(self):
        program = self.program(f'echo $$ >{self.folder}/pid; echo q1 a=1 b=1; read -r answer; read -r answer; exec sleep 60')
        session = Session(THREE, program=program, patience=SOON)
        self.over(lambda: session.answer(True))
        self.assertIsNone(session.question)
        with open(os.path.join(self.folder, "pid"), encoding="ascii") as file:
            self.assertFalse(is_there(file.read().strip()))

    def test_an_output_without_an_end(self):
        with self.assertRaisesRegex(Unexpected, "more and more"):
            self.program("exec yes", most=1 << 20).call([], deadline=Deadline(LATE))

    def test_an_end_of_a_run_without_an_end(self):
        run = self.program("echo q1 a=1; exec yes", most=1 << 20).run([])
        self.assertEqual("q1 a=1", run.line(Deadline(LATE)))
        with self.assertRaisesRegex(Unexpected, "more and more"):
            run.rest(Deadline(LATE))
        run._process.kill()
        run.close()

    def test_as_much_as_may_be_printed(self):
        program = self.program("head -c 100000 /dev/zero", most=100_000)
        self.assertEqual(100_000, len(program.call([], deadline=Deadline(LATE)).text))

    def test_a_line_without_an_end(self):
        run = self.program("exec tr '\\0' x </dev/zero").run([])
        with self.assertRaisesRegex(Unexpected, "a line without an end"):
            run.line(Deadline(LATE))
        run._process.kill()
        run.close()

    def test_input_that_nobody_reads(self):
        self.assertEqual("done\n", self.program("echo done").call([], b"x" * (1 << 22), Deadline(LATE)).text)

    def test_what_cannot_be_started(self):
        self.program("").call([])
        path = os.path.join(self.folder, "program")
        for name, reason in (("none", "No such file"), (self.folder, "Permission denied")):
            with self.subTest(name), self.assertRaisesRegex(ProgramMissing, reason):
                Program(os.path.join(self.folder, name)).call([])
        os.chmod(path, 0o644)
        with self.assertRaisesRegex(ProgramMissing, "Permission denied"):
            Program(path).run([])

    def test_it_ends_with_the_process_and_not_with_the_thread(self):
        self.program("trap 'exit 3' TERM; echo here; while :; do sleep 0.1; done")
        parent = subprocess.Popen([sys.executable, "-c", STARTS_IN_A_THREAD, os.path.join(self.folder, "program")], stdout=subprocess.PIPE, text=True)
        with parent:
            pid, said = parent.stdout.readline().split()
            self.assertEqual("here", said)
            time.sleep(SOON)
            self.assertTrue(is_there(pid), "it ended with the thread")
            parent.kill()
        end = time.monotonic() + LATE
        while is_there(pid) and time.monotonic() < end:
            time.sleep(0.05)
        self.assertFalse(is_there(pid), "it outlived the process")

    def test_a_process_that_is_forked_starts_programs_as_well(self):
        program = self.program("echo here")
        program.call([])
        forked = os.fork()
        if forked == 0:
            with contextlib.suppress(BaseException):
                os._exit(0 if program.call([], deadline=Deadline(LATE)).text == "here\n" else 1)
            os._exit(2)
        self.assertEqual(0, os.waitpid(forked, 0)[1])

    def test_many_threads(self):
        program, said = self.program('echo "$1"'), []
        threads = [threading.Thread(target=lambda number=number: said.append(program.call([str(number)]).text)) for number in range(20)]
        for thread in threads:
            thread.start()
        for thread in threads:
            thread.join()
        self.assertEqual({f"{number}\n" for number in range(20)}, set(said))


if __name__ == "__main__":
    unittest.main()
