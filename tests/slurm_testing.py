"""A Slurm of one machine for tests: munged, slurmctld and slurmd on loopback, with a key, a configuration, states
and ports of their own in a folder."""
import os
import pathlib
import shutil
import signal
import socket
import subprocess
import time

NEEDS = ("munged", "slurmctld", "slurmd", "sbatch", "squeue", "scancel", "sinfo", "runuser")
PATIENCE = 60  # seconds until the machine is idle, or a daemon has ended

CONF = """ClusterName=local
SlurmctldHost={host}(127.0.0.1)
SlurmUser=root
AuthType=auth/munge
AuthInfo=socket={room}/munge/socket
SlurmctldPort={first}
SlurmdPort={second}
StateSaveLocation={room}/state
SlurmdSpoolDir={room}/spool
SlurmctldPidFile={room}/slurmctld.pid
SlurmdPidFile={room}/slurmd.pid
SlurmctldLogFile={room}/slurmctld.log
SlurmdLogFile={room}/slurmd.log
ProctrackType=proctrack/linuxproc
TaskPlugin=task/none
SelectType=select/cons_tres
SelectTypeParameters=CR_Core
ReturnToService=2
MpiDefault=none
KillWait=2
NodeName={host} NodeAddr=127.0.0.1 CPUs={cores} State=UNKNOWN
PartitionName=all Nodes={host} Default=YES MaxTime=INFINITE State=UP
"""


def missing():
    """Why there can be no Slurm here, or None."""
    absent = [name for name in NEEDS if not shutil.which(name)]
    if absent:
        return f"{', '.join(absent)} not installed"
    return None if os.geteuid() == 0 else "Slurm's daemons want root"


def free_ports(count):
    held = [socket.socket() for _ in range(count)]
    for one in held:
        one.bind(("127.0.0.1", 0))
    ports = [one.getsockname()[1] for one in held]
    for one in held:
        one.close()
    return ports


class Slurm:
    def __init__(self, room):
        self.room = pathlib.Path(room)
        self.environment = {**os.environ, "SLURM_CONF": str(self.room / "slurm.conf")}

    def __enter__(self):
        try:
            self.start()
        except BaseException:
            self.stop()
            raise
        return self

    def __exit__(self, *_):
        self.stop()

    def call(self, *words):
        subprocess.run(
            [str(word) for word in words],
            env=self.environment,
            stdin=subprocess.DEVNULL,
            stdout=subprocess.DEVNULL,
            stderr=subprocess.DEVNULL,
            timeout=PATIENCE,
            check=True,
        )

    def start(self):
        munge, host = self.room / "munge", socket.gethostname().split(".")[0]
        self.room.chmod(0o711)
        for name in ("state", "spool", "munge"):
            (self.room / name).mkdir()
        key = munge / "key"
        key.write_bytes(os.urandom(1024))
        for path, mode in ((key, 0o400), (munge, 0o700)):
            shutil.chown(path, "munge")
            path.chmod(mode)
        self.call(
            "runuser",
            "-u",
            "munge",
            "--",
            "munged",
            f"--socket={munge}/socket",
            f"--key-file={key}",
            f"--pid-file={munge}/pid",
            f"--log-file={munge}/log",
            f"--seed-file={munge}/seed",
            "--force",
        )
        first, second = free_ports(2)
        (self.room / "slurm.conf").write_text(
            CONF.format(host=host, room=self.room, first=first, second=second, cores=os.cpu_count())
        )
        self.call("slurmctld")
        self.call("slurmd", "-N", host)
        self.wait_until(
            lambda: b"idle"
            in subprocess.run(
                ["sinfo", "-h", "-o", "%T"], env=self.environment, capture_output=True, check=False
            ).stdout
        )

    def wait_until(self, is_so):
        end = time.monotonic() + PATIENCE
        while not is_so():
            if time.monotonic() > end:
                raise AssertionError(f"Slurm doesn't get ready: {(self.room / 'slurmctld.log').read_text()[-800:]}")
            time.sleep(0.2)

    def stop(self):
        """Ends the daemons by their own numbers."""
        pids = [
            int(path.read_text())
            for path in (self.room / "slurmd.pid", self.room / "slurmctld.pid", self.room / "munge/pid")
            if path.exists() and path.read_text().strip().isdigit()
        ]
        for pid in pids:
            try:
                os.kill(pid, signal.SIGTERM)
            except ProcessLookupError:
                pass
        end = time.monotonic() + PATIENCE
        while any(is_running(pid) for pid in pids) and time.monotonic() < end:
            time.sleep(0.1)


def is_running(pid):
    """Whether a process is there that hasn't ended: one that nobody has waited for has."""
    try:
        return pathlib.Path(f"/proc/{pid}/stat").read_text().rpartition(")")[2].split()[0] != "Z"
    except OSError:
        return False
