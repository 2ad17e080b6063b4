"""Looks at hunts on a farm of hosts, as test_tools does at the rest: here, or with a stand-in for ssh, so that no network is asked for."""
import os
import platform
import shutil
import signal
import subprocess
import sys
import tempfile

import looking
from looking import Hunting, call, environment, heed_interrupts

sys.path.insert(0, looking.TOOLS)
from cbi_show import files  # noqa: E402

# What stands in for ssh: it runs the words in the home of the host that they name, with the variables that sshd gives.
SSH = """\
#!/bin/sh
while [ "${1#-}" != "$1" ]; do
    case $1 in -[lopS]) shift ;; esac
    shift
done
host=$1
shift
[ "$1" = -- ] && shift
cd "ROOM/$host/home" 2>/dev/null || { echo "ssh: connect to host $host port 22: No route to host" >&2; exit 255; }
case $*,$(ls ..) in
*gone_away* | *--sender*leaves*) touch ../gone_away; echo "ssh: connect to host $host port 22: No route to host" >&2; exit 255 ;;
*perl*dies*) echo "Timeout, server $host not responding." >&2; exit 255 ;;
esac
PATH=$(cat ../path)
HOME=$PWD
SHELL=/bin/sh
export HOME PATH SHELL
exec sh -c "$*"
"""


# What stands in for sbatch: it says a number, and runs the tasks of the array one after another. The second one is lost once, where ROOM/loses says so.
SBATCH = """\
#!/bin/sh
echo "$*" >>"ROOM/asked"
for word; do
    case $word in
    --array=1-*) last=${word#--array=1-} ;;
    --chdir=*) folder=${word#--chdir=} ;;
    esac
done
echo 7
cd "$folder"
for number in $(seq "${last%%%*}"); do
    [ "$number" = 2 ] && rm "ROOM/loses" 2>/dev/null && continue
    SLURM_ARRAY_TASK_ID=$number sh "$word" >>said 2>&1
done
"""


class Farm(Hunting):
    def setUp(self):
        super().setUp()
        self.before = set(os.listdir(os.path.expanduser("~")))

    def test_a_farm_makes_the_same_runs(self):
        if not shutil.which("parallel") or "GNU parallel" not in call("parallel", "--version")[1]:
            self.skipTest("there is no GNU parallel here")
        self.write("hosts", "2/:\n")
        self.hunt("--inputs", "both", "--rate", "2", "--runs", "60", "--keep", "here")
        self.hunt("--inputs", "both", "--rate", "2", "--runs", "60", "--keep", "farm", "--farm", "hosts")
        self.assertEqual(self.read("farm/runs"), self.read("here/runs"))
        self.hunt("--inputs", "both", "--rate", "2", "--runs", "60", "--keep", "parts here", "--parts", "2")
        self.hunt("--inputs", "both", "--rate", "2", "--runs", "60", "--keep", "parts farm", "--parts", "2", "--farm", "hosts")
        self.assertEqual(self.read("parts farm/runs"), self.read("parts here/runs"))
        self.assertIn("there is no such file", self.hunt("--inputs", "both", "--rate", "2", "--runs", "99", "--keep", "farm", "--farm", "no hosts", due=2))
        self.assertEqual(self.left([]), [])

    def test_a_farm_asks_for_no_home_of_ours(self):
        homes = self.farm("near")
        words = ["cbi-hunt", "upper.c", "--inputs", "both", "--rate", "2", "--runs", "60", "--jobs", "1"]
        self.call(*words, "--keep", "here")
        for number, home in enumerate((None, "/", self.path("nowhere"))):
            given = {name: value for name, value in environment().items() if name != "HOME"}
            given.update({} if home is None else {"HOME": home})
            done = subprocess.run([*words, "--keep", f"farm {number}", "--farm", "hosts"], cwd=self.room, env=given, stdout=subprocess.PIPE, stderr=subprocess.PIPE, check=False)
            self.assertEqual((done.returncode, done.stderr), (0, b""), home)
            self.assertEqual(self.read(f"farm {number}/runs"), self.read("here/runs"))
        self.assertEqual(self.left(homes) + [name for name in os.listdir("/") if name.startswith(".cbi-hunt-")], [])

    def test_a_farm_does_without_hosts_that_cannot_help(self):
        homes = self.farm("near", "bare", "gone", "dying", "leaving")
        self.write("bare/path", self.bare)
        shutil.rmtree(self.path("gone"))
        self.write("dying/dies", "")
        self.write("leaving/leaves", "")
        words = ["upper.c", "--inputs", "both", "--rate", "2", "--runs", "130", "--jobs", "1"]  # six batches, so that each host has one at once
        self.call("cbi-hunt", *words, "--keep", "here")
        _, err = self.call("cbi-hunt", *words, "--keep", "farm", "--farm", "hosts")
        self.assertEqual(self.read("farm/runs"), self.read("here/runs"))
        due = [f"ssh: connect to host {host} port 22: No route to host" for host in ("gone", "leaving")] + ["Timeout, server dying not responding."]
        due += [] if shutil.which("cbi", path=self.bare) else [f"on {platform.node()}: cbi isn't on the path, which is {self.bare}"]
        for said in due:
            self.assertEqual(err.count(f"cbi-hunt: other hosts made up for this: {said}\n"), 1, err)
        self.write("hosts", self.read("hosts").split(b"\n", 1)[1])
        _, err = self.call("cbi-hunt", *words, "--keep", "none", "--farm", "hosts", due=2)
        for said in due:
            self.assertIn(f"\n  {said}\n", err)
        self.assertTrue(err.startswith("cbi-hunt: the farm made no runs of 130, and parallel ended with status "), err)
        self.assertEqual(self.left(homes[:4]), [])

    def test_tasks_of_slurm_make_the_same_runs(self):
        place = tempfile.mkdtemp(prefix="cbi-slurm-")
        self.addCleanup(shutil.rmtree, place)
        words = ["cbi-hunt", "upper.c", "--inputs", "both", "--rate", "2", "--runs", "130", "--jobs", "1"]
        self.call(*words, "--keep", "here")
        bare = os.pathsep.join([os.path.dirname(looking.CBI), looking.TOOLS, os.path.dirname(sys.executable)])
        if not shutil.which("sbatch", path=bare):
            done = self.on_slurm(words, bare, due=2)
            self.assertEqual(done, b"cbi-hunt: --farm slurm asks for Slurm, and there is no sbatch on the path\n")
        for name, text in (("sbatch", SBATCH.replace("ROOM", self.room)), ("scancel", "#!/bin/sh\n")):
            with open(os.path.join(place, name), "w", encoding="ascii") as file:
                file.write(text)
            os.chmod(os.path.join(place, name), 0o755)
        self.write("loses", "")
        self.assertEqual(self.on_slurm(words, place + os.pathsep + environment()["PATH"]), b"")
        self.assertEqual(self.read("farm/runs"), self.read("here/runs"))
        asked = [[word for word in line.split(" ") if word.startswith("--array=")] for line in self.read("asked").decode().splitlines()]
        self.assertEqual(asked, [["--array=1-6%1"], ["--array=1-1%1"]])  # six batches, and then the one that was lost
        self.assertEqual(self.left([]), [])

    def on_slurm(self, words, path, due=0):
        """A hunt with tasks of Slurm, and this path; what it writes to err."""
        done = subprocess.run([*words, "--keep", "farm", "--farm", "slurm"], cwd=self.room, env=dict(environment(), PATH=path), stdout=subprocess.PIPE, stderr=subprocess.PIPE, check=False)
        self.assertEqual(done.returncode, due, done.stderr)
        return done.stderr

    def test_a_farm_that_is_interrupted_leaves_nothing_on_a_host(self):
        homes = self.farm("near")
        words = ["cbi-hunt", "upper.c", "--inputs", "both", "--rate", "2", "--runs", "2000", "--jobs", "1", "--keep", "farm", "--farm", "hosts"]
        begun = subprocess.Popen(words, cwd=self.room, env=environment(), stdout=subprocess.PIPE, stderr=subprocess.PIPE, start_new_session=True, preexec_fn=heed_interrupts)
        self.wait_for(lambda: os.path.isdir(self.path("farm/batches")) and os.listdir(self.path("farm/batches")))
        os.killpg(begun.pid, signal.SIGINT)
        out, err = begun.communicate()
        self.assertEqual((begun.returncode, err), (130, b""))
        made = sum(1 for run in files.read_collection(self.path("farm/runs")))
        self.assertIn(f"\n{made} runs on 12 inputs".encode(), out)
        self.assertTrue(0 < made < 2000, out)
        self.assertEqual(self.left(homes), [])

    def farm(self, *hosts):
        """A file `hosts` of hosts that a stand-in for ssh comes to: each is a folder, which is its home and has its path."""
        if not shutil.which("parallel") or "GNU parallel" not in call("parallel", "--version")[1] or not shutil.which("rsync"):
            self.skipTest("there is no GNU parallel here, or no rsync")
        place = tempfile.mkdtemp(prefix="cbi-ssh-")
        self.addCleanup(shutil.rmtree, place)
        self.bare = os.pathsep.join([os.path.dirname(sys.executable), "/usr/bin", "/bin"])
        with open(os.path.join(place, "ssh"), "w", encoding="ascii") as file:
            file.write(SSH.replace("ROOM", self.room))
        os.chmod(os.path.join(place, "ssh"), 0o755)
        for host in hosts:
            self.write(f"{host}/path", os.path.dirname(looking.CBI) + os.pathsep + self.bare)
            os.makedirs(self.path(host, "home"))
        self.write("hosts", "".join(f"1/{place}/ssh {host}\n" for host in hosts))
        return [self.path(host, "home") for host in hosts]

    def left(self, homes):
        """What is left in these homes, and in our own."""
        ours = {name for name in os.listdir(os.path.expanduser("~")) if name.startswith(".cbi-hunt-")}
        return [name for home in homes if os.path.isdir(home) for name in os.listdir(home)] + sorted(ours - self.before)
