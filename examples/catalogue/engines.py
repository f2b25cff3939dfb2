"""The engines that run the worker on batches: GNU parallel over ssh, and Slurm. README.md says what they need."""

import collections
import os
import subprocess
import sys
import time

from files import RUN, say, write

NEEDED = "bash tar zstd rsync sha256sum split cmp"
MOST_TASKS = 1000  # of a job array: Slurm's MaxArraySize is 1001 as it comes
SSH_WORDS = ("-o BatchMode=yes -o ConnectTimeout=10 -o ServerAliveInterval=10 -o ServerAliveCountMax=3"
             " -o ControlMaster=auto -o ControlPersist=60")


def start(words, lock):
    """Starts an engine. The lock goes along, so that the next run of the driver waits for one that outlives this."""
    with open(f"{RUN}/errors", "ab") as errors:
        return subprocess.Popen(words, cwd=RUN, stdin=subprocess.DEVNULL, stdout=errors, stderr=errors,
                                pass_fds=[lock.fileno()])


def socket_folder():
    """A folder of the user's own for ssh's sockets, whose paths may have 108 bytes."""
    folder = os.path.join(os.environ.get("XDG_RUNTIME_DIR") or os.path.expanduser("~/.cache"), "catalogue")
    os.makedirs(folder, mode=0o700, exist_ok=True)
    return folder


class Parallel:
    """GNU parallel over ssh, on hosts that share nothing. `:` is this host."""

    is_slow_to_end = False

    def __init__(self, hosts, lock):
        self.hosts, self.lock = hosts, lock
        self.places = sum(map(int, hosts.values()))
        self.work = f".brake-catalogue-{os.uname().nodename}-{os.getpid()}"
        self.ssh = f"{os.environ.get('CATALOGUE_SSH', 'ssh')} {SSH_WORDS} -o ControlPath={socket_folder()}/%C"

    def ready(self):
        """The hosts that answer and have what the worker needs; the others are told. It opens the connections that
        the engine uses, which disturb each other where several are opened side by side."""
        need = f"command -v {NEEDED} >/dev/null"
        asked = {host: subprocess.Popen(["bash", "-c", need] if host == ":" else [*self.ssh.split(), host, need],
                                        stdin=subprocess.DEVNULL, stdout=subprocess.DEVNULL, stderr=subprocess.DEVNULL)
                 for host in self.hosts}
        lost = [host for host, run in asked.items() if run.wait() != 0]
        for host in lost:
            say(f"{host} doesn't answer or lacks one of {NEEDED}: it is left out")
        return [host for host in self.hosts if host not in lost]

    def names(self, batches, hosts, planners):
        """The names of the batches, each with all hosts' groups but its planner's. A batch without a group would run
        anywhere, so it waits."""
        names = []
        for batch in batches:
            groups = "+".join(f"g{i}" for i, host in enumerate(hosts) if host != planners.get(batch))
            names += [f"{batch.name}@{groups}"] if groups else []
        if len(names) < len(batches):
            say(f"{len(batches) - len(names)} batches wait for a host that didn't plan them")
        return names

    def start(self, command, batches, planners, words):
        hosts = self.ready()
        # Each host is a group of its own.
        write(f"{RUN}/hosts", "".join(f"@g{i}/{self.hosts[host]}/{host}\n" for i, host in enumerate(hosts)))
        names = self.names(batches, hosts, planners) if hosts else []
        if command == "plan":
            names, files = [name.partition("@")[0] for name in names], ["--return", "{}.out", "--retries", "3"]
        else:
            # No retries: with groups, GNU parallel 20221122 waits for ever where a job has failed on all of them.
            files = ["--transferfile", "{}.out", "--return", "{}.verdict", "--hostgroups"]
        write(f"{RUN}/names", "".join(f"{name}\n" for name in names))
        # Nothing is sent to this host, where the folder of the work is looked for below the current one.
        if not os.path.lexists(f"{RUN}/{self.work}"):
            os.symlink(".", f"{RUN}/{self.work}")
        engine = ["parallel", "--will-cite", "--plain", "--sshloginfile", "hosts", "--ssh", self.ssh,
                  "--joblog", f"{command}.{time.time_ns()}.joblog", "--timeout", "3600", "--workdir", self.work,
                  "--termseq", "TERM,5000,KILL,25",  # a worker removes its folder
                  "--basefile", "worker", "--basefile", "brake", "--transferfile", "{}.in", *files, "--cleanup",
                  "./worker", command, "{}", *words, "::::", "names"]
        return [start(engine, self.lock)] if names else []


class Slurm:
    """Slurm's job arrays, one for each planner, whose node it excludes. The nodes share the folder."""

    places = 1  # not known
    is_slow_to_end = True  # sbatch looks seldom

    def __init__(self, lock):
        self.lock = lock

    def start(self, command, batches, planners, words):
        by_planner = collections.defaultdict(list)
        for batch in batches:
            by_planner[planners.get(batch, "")].append(batch)
        return [self.start_array(command, its[first:first + MOST_TASKS], planner, words)
                for planner, its in by_planner.items() for first in range(0, len(its), MOST_TASKS)]

    def start_array(self, command, batches, planner, words):
        names = f"{command}.{time.time_ns()}.names"
        write(f"{RUN}/{names}", "".join(f"{batch.name}\n" for batch in batches))
        script = " ".join(["./worker", command, f'$(sed -n "$SLURM_ARRAY_TASK_ID p" {names})', *words])
        return start(["sbatch", "--wait", "--quiet", "--requeue", *([f"--exclude={planner}"] if planner else []),
                      f"--array=1-{len(batches)}", f"--job-name=brake-{command}", "--ntasks=1", "--time=60",
                      "--output=/dev/null", f"--error={names}.%a.errors", "--wrap", script], self.lock)


def wait(engine, runs, command, missing):
    """Waits for an engine's runs, and says how far they are: each second on a terminal, else each half minute."""
    begin = told = time.time()
    count = len(missing())
    while any(run.poll() is None for run in runs):
        time.sleep(0.2)
        done, now = count - len(missing()), time.time()
        if done == count and engine.is_slow_to_end:
            for run in runs:
                run.terminate()
        if now - told >= (1 if sys.stderr.isatty() else 30):
            rest = f", about {(now - begin) * (count - done) / done:.0f} s to go" if done else ""
            say(f"{command}: {done} of {count} batches{rest}")
            told = now
    why = f"; {RUN}/errors says what the others told" if missing() else ""
    say(f"{command}: {count - len(missing())} of {count} batches in {time.time() - begin:.1f} s{why}")
