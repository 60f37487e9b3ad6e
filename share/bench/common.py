"""What `measure` and `grow` share: a folder in memory, the programs in C, the processor time of a command."""
import argparse
import os
import platform
import subprocess
import sys

HERE = os.path.dirname(os.path.abspath(__file__))
NETWORK = os.path.join(HERE, "../../crates/site_cli/data/network.txt")
# Between the two best runs of one program.
MOST_UNREST = 1.1
# Bytes of a transport packet.
SIZE = 188


def stop(why):
    sys.exit(f"{os.path.basename(sys.argv[0])}: {why}")


class Bench:
    """A folder in memory with the programs in C and the inputs."""

    def __init__(self, program, folder, rounds):
        self.program, self.folder, self.rounds = os.path.abspath(program), folder, rounds
        for name in ("cost", "packets"):
            self.compile(name, name)

    def compile(self, name, out, *words):
        source = os.path.join(HERE, f"{name}.c")
        subprocess.run(["cc", "-O3", "-march=native", *words, "-o", self.at(out), source], check=True)

    def at(self, name):
        return os.path.join(self.folder, name)

    def run(self, words, out=None):
        """Processor seconds and peak memory in kB of a command; its standard output goes into a file."""
        cost = self.at("cost.txt")
        with open(out or os.devnull, "wb") as to:
            ended = subprocess.run([self.at("cost"), cost, *words], stdout=to, stderr=subprocess.PIPE)
        if ended.returncode:
            stop(f"{' '.join(words)}: status {ended.returncode}: {ended.stderr.decode()}")
        with open(cost) as it:
            seconds, memory = it.read().split()
        return float(seconds), int(memory)

    def own(self, *words):
        return [self.program, *words]

    def size(self, name):
        return os.path.getsize(self.at(name)) / 1e6


def make_packets(bench, megabytes, name="in.ts"):
    bench.run([bench.at("packets"), str(megabytes * 1_000_000), bench.at(name)])


def write_file(name, data):
    with open(name, "wb") as to:
        to.write(data)


def lossy(data, first):
    """Transport packets, of which one in a thousand was lost."""
    return b"".join(data[at : at + SIZE] for at in range(0, len(data), SIZE) if at // SIZE % 1000 != first)


def machine():
    return f"{platform.processor() or platform.machine()}, {os.cpu_count()} processors, load {os.getloadavg()[0]:.1f}"


def parser_of(text, megabytes):
    parser = argparse.ArgumentParser(description=text, formatter_class=argparse.RawDescriptionHelpFormatter)
    parser.add_argument("program")
    parser.add_argument("--megabytes", type=int, default=megabytes)
    parser.add_argument("--rounds", type=int, default=5)
    parser.add_argument("--folder", default="/dev/shm")
    return parser
