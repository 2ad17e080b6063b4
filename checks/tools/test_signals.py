"""Looks at signals that come to a hunt, as test_tools does at the rest: that it tells what it has, and leaves nothing."""
import os
import re
import shutil
import signal
import subprocess
import sys
import tempfile
import time

import looking
from test_pages import sound
from looking import Hunting, environment, heed_interrupts


class Signals(Hunting):
    def begun(self, *more, **kinds):
        self.room_of_files = tempfile.mkdtemp(prefix="cbi tmp ")
        self.addCleanup(shutil.rmtree, self.room_of_files, True)
        words = ["cbi-hunt", "upper.c", "--inputs", "both", "--rate", "2", "--runs", "1000000", "--jobs", "2", *more]
        return subprocess.Popen(words, cwd=self.room, env=dict(environment(), TMPDIR=self.room_of_files), stdout=subprocess.PIPE, stderr=subprocess.PIPE, start_new_session=True, **kinds)

    def at_work(self):
        """Whether a batch is there."""
        return any(os.path.isdir(path) and os.listdir(path) for path in (os.path.join(self.room_of_files, name, "batches") for name in os.listdir(self.room_of_files)))

    def test_nothing_is_left_after_a_signal(self):
        for number, whole in ((signal.SIGTERM, False), (signal.SIGTERM, True), (signal.SIGHUP, True), (signal.SIGINT, True)):
            begun = self.begun(preexec_fn=heed_interrupts)
            self.wait_for(self.at_work)
            (os.killpg if whole else os.kill)(begun.pid, number)
            out, err = begun.communicate()
            self.assertEqual((begun.returncode, err), (130, b""), (number, whole))
            self.assertIn(b"interrupted, so this is what there is", out)
            self.assertEqual(os.listdir(self.room_of_files), [])

    def test_one_that_timeout_ends_tells_what_it_has(self):
        """`timeout` sends its signal to the process, and then to its group: that is one asking."""
        begun = self.begun(preexec_fn=heed_interrupts)
        self.wait_for(self.at_work)
        os.kill(begun.pid, signal.SIGTERM)
        time.sleep(0.02)
        os.killpg(begun.pid, signal.SIGTERM)
        out, err = begun.communicate()
        self.assertEqual((begun.returncode, err), (130, b""))
        self.assertIn(b"interrupted, so this is what there is", out)
        self.assertEqual(os.listdir(self.room_of_files), [])

    def test_a_second_signal_ends_it_too(self):
        """It comes while the hunt waits for what its processes are at. It then tells nothing of its runs; the first by itself has it tell what it has."""
        hold, held = os.path.join(self.room, "hold"), os.path.join(self.room, "held")
        slow = self.write("slow/cbi", f"""#!/bin/sh
if [ "$1" = runs ] && [ -e '{hold}' ]; then
    : >'{held}'
    while [ -e '{hold}' ]; do sleep 0.05; done
fi
exec '{looking.CBI}' "$@"
""")
        os.chmod(slow, 0o755)
        begun = self.begun("--cbi", slow, preexec_fn=heed_interrupts)
        self.wait_for(self.at_work)
        self.write("hold", "")
        self.wait_for(lambda: os.path.exists(held))
        for number in (signal.SIGTERM, signal.SIGTERM, signal.SIGHUP):
            os.kill(begun.pid, number)
            time.sleep(0.2)
        os.remove(hold)
        self.assertEqual(begun.communicate(timeout=60), (b"", b"cbi-hunt: interrupted\n"))
        self.assertEqual((begun.returncode, os.listdir(self.room_of_files)), (130, []))
        self.assertRaises(ProcessLookupError, os.killpg, begun.pid, 0)

    def test_one_that_a_shell_begins_in_the_background_stops_by_term_alone(self):
        begun = self.begun(preexec_fn=lambda: signal.signal(signal.SIGINT, signal.SIG_IGN))
        self.wait_for(self.at_work)
        os.killpg(begun.pid, signal.SIGINT)
        self.assertRaises(subprocess.TimeoutExpired, begun.wait, 1)
        os.kill(begun.pid, signal.SIGTERM)
        begun.communicate()
        self.assertEqual((begun.returncode, os.listdir(self.room_of_files)), (130, []))

    def test_an_explained_command_leaves_nothing_either(self):
        self.write("turns.c", "int main(void) { int i; for (i = 0; i < 2000000000; i++); return 0; }\n")
        self.write("turns", self.call("cbi", "transform", "--mode", "plain", "turns.c")[0])
        folder = tempfile.mkdtemp(prefix="cbi tmp ")
        self.addCleanup(shutil.rmtree, folder, True)
        for number in (signal.SIGTERM, signal.SIGHUP, signal.SIGINT):
            begun = subprocess.Popen(["cbi-explain", "--", "cbi", "run", "--turns", "100000000", "turns"], cwd=self.room, env=dict(environment(), TMPDIR=folder), stdout=subprocess.PIPE, stderr=subprocess.PIPE,
                                     preexec_fn=heed_interrupts)
            self.wait_for(lambda: os.listdir(folder))
            begun.send_signal(number)
            self.assertEqual(begun.communicate(), (b"", b"cbi-explain: interrupted\n"))
            self.assertEqual((begun.returncode, os.listdir(folder)), (130, []))

    def test_a_signal_that_python_swallowed_is_heeded_all_the_same(self):
        """What a handler raises behind a fork is told and lost. Here it is lost in an object that goes, before the first batch is there."""
        self.write("lose.py", f"""\
import os, signal, sys, threading
sys.path.insert(0, {looking.TOOLS!r})
from cbi_hunt import here, hunting
sys.unraisablehook = lambda lost: None
class Going:
    def __del__(self):
        os.kill(os.getpid(), signal.SIGTERM)
        for _ in range(1000):
            pass
before = here.taken
def taken(*words):
    before(*words)
    Going()
here.taken = taken
sys.argv = ["cbi-hunt", "upper.c", "--inputs", "both", "--rate", "2", "--runs", "1000000", "--jobs", "1"]
sys.exit(hunting.main())
""")
        out, _ = self.call(sys.executable, "lose.py", due=130)
        made = re.search(r"^(\d+) runs on 12 inputs: .*; interrupted, so this is what there is$", out, re.MULTILINE)
        self.assertLess(int(made[1]), 1000000)

    def test_nothing_is_left_behind_a_pipe_that_closes(self):
        folder = tempfile.mkdtemp(prefix="cbi tmp ")
        self.addCleanup(shutil.rmtree, folder, True)
        done = subprocess.run(["bash", "-c", "cbi-hunt upper.c --inputs both --runs 24 --html page.html | head -n 1; echo ${PIPESTATUS[0]}"], cwd=self.room, env=dict(environment(), TMPDIR=folder),
                              stdout=subprocess.PIPE, stderr=subprocess.PIPE, check=False)
        self.assertEqual((done.stderr, os.listdir(folder)), (b"", []))
        sound(self, self.read("page.html").decode())
