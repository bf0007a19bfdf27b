"""Tests of gate/gate_time.py, with a command `rt` that proves nothing."""
import os
import signal
import subprocess
import sys
import tempfile
import time
import unittest
from pathlib import Path

SCRIPT = Path(__file__).resolve().parents[1] / "gate" / "gate_time.py"


class GateTime(unittest.TestCase):
    def setUp(self):
        folder = tempfile.TemporaryDirectory()
        self.addCleanup(folder.cleanup)
        self.folder = Path(folder.name)

    def begun(self, text):
        """The script, with an `rt` of this text."""
        (self.folder / "rt").write_text(f"#!/bin/sh\n{text}\n")
        (self.folder / "rt").chmod(0o755)
        return subprocess.Popen(
            [sys.executable, SCRIPT], env={**os.environ, "PATH": f"{self.folder}:{os.environ['PATH']}"}, text=True,
            stdout=subprocess.PIPE, stderr=subprocess.PIPE, start_new_session=True,
            preexec_fn=lambda: signal.signal(signal.SIGINT, signal.SIG_DFL),
        )

    def test_the_status_is_that_of_the_gate(self):
        running = self.begun("exit 3")
        said, _ = running.communicate(timeout=30)
        self.assertEqual(running.returncode, 3)
        self.assertIn("s by the clock", said)

    def test_an_interrupt_ends_it(self):
        running = self.begun(f"touch {self.folder}/begun; exec sleep 60")
        for _ in range(200):
            if (self.folder / "begun").exists():
                break
            time.sleep(0.05)
        os.killpg(running.pid, signal.SIGINT)
        running.communicate(timeout=30)
        self.assertNotEqual(running.returncode, 0)


if __name__ == "__main__":
    unittest.main()
