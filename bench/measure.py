"""How long work takes, and how many instructions a program runs."""
import os
import subprocess
import tempfile
import time


def best(rounds, work):
    """The seconds of the fastest of so many rounds."""
    times = []
    for _ in range(rounds):
        start = time.perf_counter()
        work()
        times.append(time.perf_counter() - start)
    return min(times)


def told(program, script):
    """What the program prints for a script."""
    return subprocess.run([program], input=script.encode(), capture_output=True, check=True).stdout.decode()


def spent(program, script):
    """The seconds that a processor runs the program, which other load moves less than those of a clock."""
    with tempfile.TemporaryFile() as source:
        source.write(script.encode())
        source.seek(0)
        child = subprocess.Popen([program], stdin=source, stdout=subprocess.DEVNULL)
        _, status, usage = os.wait4(child.pid, 0)
    child.returncode = os.waitstatus_to_exitcode(status)
    if child.returncode != 0:
        raise subprocess.CalledProcessError(child.returncode, [program])
    return usage.ru_utime + usage.ru_stime


def counted(program, script):
    """How many instructions callgrind counts, and what the program prints."""
    command = ["valgrind", "--tool=callgrind", "--callgrind-out-file=/dev/null", program]
    run = subprocess.run(command, input=script.encode(), capture_output=True, check=True)
    words = run.stderr.decode().split()
    return int(words[words.index("Collected") + 2]), run.stdout.decode()


def instructions(program, script):
    """How many instructions callgrind counts."""
    return counted(program, script)[0]
