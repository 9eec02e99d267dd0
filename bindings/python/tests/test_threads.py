"""Several threads on one hang, short stacks, and Ctrl-C."""

import os
import pathlib
import subprocess
import sys
import threading
import unittest

import rizhavaan
from rizhavaan import Hang, Pattern
from tests.common import stage_rig


def long_run():
    """A hang and a pattern of some fifty million places."""
    edges = "".join(f"{i} -1-> {j}\n" for i in range(85) for j in range(85) if i != j)
    path = "[query]\nvertices 4\n0 -any-> 1\n1 -any-> 2\n2 -any-> 3\n"
    return Hang.from_text(f"[graph]\nvertices 85\n{edges}"), Pattern.from_text(path)


class Threads(unittest.TestCase):
    def test_two_on_one_hang(self):
        ends = {(i, (i * 7 + k * k) % 500) for i in range(500) for k in range(1, 8)}
        hang = Hang.from_text("[graph]\nvertices 500\n" + "".join(f"{a} -1-> {b}\n" for a, b in sorted(ends)))
        pattern = Pattern.from_text("[query]\nvertices 3\n0 -any-> 1\n1 -any-> 2\n")
        expected = list(hang.find(pattern))
        wrong = []

        def work():
            for _ in range(20):
                if list(hang.find(pattern)) != expected or hang.count(pattern) != len(expected):
                    wrong.append(1)

        threads = [threading.Thread(target=work) for _ in range(4)]
        for thread in threads:
            thread.start()
        for thread in threads:
            thread.join()
        self.assertEqual(wrong, [])

    def test_a_short_stack(self):
        """The engine takes a megabyte of stack, and gets it whatever the caller's thread has."""
        hang = Hang.from_text(*stage_rig())
        before, found = threading.stack_size(256 * 1024), []
        try:
            thread = threading.Thread(target=lambda: found.append(len(hang.find("over-people"))))
            thread.start()
            thread.join()
        finally:
            threading.stack_size(before)
        self.assertEqual(found, [8])

    def test_the_lock_is_released(self):
        """While one thread waits for a long run, another goes on."""
        hang, path = long_run()
        done = threading.Event()
        thread = threading.Thread(target=lambda: (hang.count(path), done.set()))
        steps = 0
        thread.start()
        while not done.is_set():
            steps += 1
        thread.join()
        self.assertGreater(steps, 1_000)


    def test_ctrl_c_between_calls(self):
        """It takes effect when the call that is running has ended."""
        code = """
import os, signal, threading
from tests.test_threads import long_run
hang, path = long_run()
# A process that a script starts in the background passes it over.
signal.signal(signal.SIGINT, signal.default_int_handler)
try:
    threading.Timer(0.01, os.kill, (os.getpid(), signal.SIGINT)).start()
    for _ in range(1_000):
        hang.count(path)
except KeyboardInterrupt:
    print("stopped")
"""
        paths = [str(pathlib.Path(file).parents[1]) for file in (rizhavaan.__file__, __file__)]
        environment = {**os.environ, "PYTHONPATH": os.pathsep.join(paths)}
        command = [sys.executable, "-B", "-c", code]
        run = subprocess.run(command, env=environment, stdout=subprocess.PIPE, timeout=300)
        self.assertEqual(run.stdout, b"stopped\n")


if __name__ == "__main__":
    unittest.main()
