#!/usr/bin/env python3
"""Signals that come while flow writes files: signals.py FOLDER-OF-FLOW [SEED].

They come inside each call of the system that is made, before its work and after it (failing.c), at random moments, and while
flow waits for a fifo, a pipe or a terminal. Each time: flow ends by the signal; no temporary file is left; what is reported, in
lines, in the count and in the report, is what is in the folder; and a table that is not there is reported as interrupted.
"""
import itertools
import os
import pty
import random
import shutil
import signal
import subprocess
import sys
import tempfile
import time

FLOW = os.path.abspath(sys.argv[1])
SEED = int(sys.argv[2]) if len(sys.argv) > 2 else 1
ENDING = [signal.SIGHUP, signal.SIGINT, signal.SIGTERM]
CALLS = ["open", "read", "mkstemp", "write", "fchmod", "fsync", "close", "rename"]
HEADER = "name\tsha256_in\tsha256_out\trefusal\tplace\tnodes_in\tnodes_out"

SKIP = bytes.fromhex("0a000100010000000100 0a000300000000000000 04003000")
HARDENED_SKIP = bytes.fromhex("0a000100010001000100 0a000300000000000000 04003000")
ORPHAN = bytes.fromhex("0a000100010000000200 0a000300000000000000 04003000 04003000")

checks = 0


def expect(condition, *what):
    global checks
    checks += 1
    if not condition:
        print("signals: failed:", *what)
        sys.exit(1)


def take_default_signals():
    """A shell may have started the test with some of them ignored."""
    for number in ENDING + [signal.SIGPIPE]:
        signal.signal(number, signal.SIG_DFL)


def start(arguments, preexec=take_default_signals, **more):
    environment = dict(os.environ, LC_ALL="C", **more.pop("environment", {}))
    pipes = {"stdin": subprocess.DEVNULL, "stdout": subprocess.PIPE, "stderr": subprocess.PIPE, **more}
    return subprocess.Popen([FLOW + "/flow", *arguments], env=environment, preexec_fn=preexec, **pipes)


def finish(process):
    """What it printed; it must come to its end soon."""
    began = time.monotonic()
    try:
        out, err = process.communicate(timeout=20)
    except subprocess.TimeoutExpired:
        process.kill()
        expect(False, process.args, "does not end")
    return (out or b"").decode(), (err or b"").decode(), time.monotonic() - began


def run(arguments, **more):
    process = start(arguments, **more)
    out, err, _ = finish(process)
    return process.returncode, out, err


def with_signal(name, n, late, number, **more):
    when = {"LATE": "1"} if late else {}
    return dict(LD_PRELOAD=FLOW + "/test/failing.so", RAISE=f"{name}:{n}", SIGNAL=str(int(number)), **when, **more)


def write(path, contents):
    with open(path, "wb") as file:
        file.write(contents)


def read(path):
    with open(path, "rb") as file:
        return file.read()


def fresh(folder):
    shutil.rmtree(folder, ignore_errors=True)
    os.mkdir(folder)


def temporaries():
    return [name for _, _, names in os.walk(".") for name in names if name.startswith(".flow-")]


# ---- What a batch leaves behind ----

def lines_of(names, refused):
    return [f"{name}: refused by 6 at byte 20: node 0 (skip, byte 20) is a child of no node" if name in refused
            else f"{name}: 1 -> 1 nodes, 24 bytes" for name in names]


def counts_of(done, refused, interrupted):
    line = f"{len(done) - len(refused)} hardened, {len(refused)} refused"
    return line + (f", {interrupted} interrupted" if interrupted else "")


def check_batch(names, number, out, status, what, heard=True):
    """The batch `flow harden --into out --report report NAMES`, ended by the signal; returns how many tables were done."""
    expect(status == -number, what, "status", status)
    expect(temporaries() == [], what, "left", temporaries())
    report = read("report").decode().splitlines()
    expect(report[0] == HEADER and [line.split("\t")[0] for line in report[1:]] == names, what, "report", report)
    done = [line.split("\t")[0] for line in report[1:] if line.split("\t")[3] != "interrupted"]
    rest = names[len(done):]
    expect(done == names[:len(done)], what, report)
    expect(report[1 + len(done):] == [f"{name}\t-\t-\tinterrupted\t-\t-\t-" for name in rest], what, report)
    refused = [name for name in done if name.startswith("orphan")]
    hardened = [name for name in done if name not in refused]
    refusals = [line.split("\t")[3] for line in report[1:1 + len(done)]]
    expect(refusals == ["6" if name in refused else "0" for name in done], what, report)
    expect(sorted(os.listdir("out")) == sorted(hardened), what, "folder", os.listdir("out"), "report", report)
    expect(all(read("out/" + name) == HARDENED_SKIP for name in hardened), what, "contents")
    if heard:
        expect(out.splitlines() == lines_of(done, refused) + [counts_of(done, refused, len(rest))], what, "printed", out)
    return len(done)


def batch(names):
    fresh("out")
    write("report", b"old\n")
    return ["harden", "--into", "out", "--report", "report", *names]


# ---- Inside calls ----

def reached(check, name, late):
    """Calls `check` for the first call of this name, the second and so on, as long as it says that there is one."""
    n = 1
    while check(name, n, late, ENDING[n % len(ENDING)]):
        n += 1
    return n - 1


def check_each_call(check):
    for name, late in itertools.product(CALLS, (False, True)):
        expect(reached(check, name, late) > 0, name, "is never called")


def check_calls_of_batch():
    names, met = ["a", "orphan", "b"], set()

    def check(name, n, late, number):
        status, out, err = run(batch(names), environment=with_signal(name, n, late, number))
        if status == 1:
            return False
        met.add(check_batch(names, number, out, status, (name, n, late, number)))
        expect(err == "", name, n, err)
        return True

    check_each_call(check)
    expect(met == {1, 2, 3}, "ended after so many tables:", met)


def check_calls_of(arguments, target, new):
    """One output file: it is as it was, or new and whole."""
    def check(name, n, late, number):
        write(target, b"old\n")
        status, _, err = run(arguments, environment=with_signal(name, n, late, number))
        if status == 0:
            return False
        what = arguments, name, n, late, number
        expect(status == -number and err == "" and temporaries() == [], what, status, err, temporaries())
        expect(read(target) in (b"old\n", new), what, "wrote", read(target))
        return True

    check_each_call(check)


def check_failing_write():
    """A write fails, and meanwhile the signal comes: the table has failed, and the next one is interrupted."""
    for name, late, fails in ("unlink", False, "fchmod"), ("unlink", True, "fchmod"), ("mkstemp", True, "write"):
        status, out, _ = run(batch(["a", "b"]), environment=with_signal(name, 1, late, signal.SIGTERM, FAIL=fails))
        expect(status == -signal.SIGTERM and temporaries() == [], name, fails, status, temporaries())
        expect(out == "a: failed\n0 hardened, 0 refused, 1 failed, 1 interrupted\n", name, fails, out)
        refusals = [line.split("\t")[3] for line in read("report").decode().splitlines()]
        expect(refusals == ["refusal", "-", "interrupted"] and os.listdir("out") == [], name, fails, refusals)


def check_failing_read():
    status, out, err = run(batch(["a", "b"]), environment=with_signal("read", 1, False, signal.SIGTERM, FAIL="read"))
    expect(status == -signal.SIGTERM and err == "flow: a: Input/output error\n", "read", status, err)
    expect(out == "a: failed\n0 hardened, 0 refused, 1 failed, 1 interrupted\n", "read", out)


def check_unsynced_folder():
    """The sync of the folder alone fails, and the signal comes in it: the table is hardened."""
    status, out, err = run(batch(["a", "b"]), environment=with_signal("fsync", 2, False, signal.SIGTERM, FAIL="fsync:2"))
    expect(check_batch(["a", "b"], signal.SIGTERM, out, status, "unsynced") == 1, "unsynced")
    expect(err == "flow: out/a: is written, but its folder is not synced: Input/output error\n", "unsynced", err)


def check_two_at_once():
    """As timeout sends them: they are one."""
    status, out, _ = run(batch(["a", "b"]), environment=with_signal("mkstemp", 1, True, signal.SIGTERM, TWICE="1"))
    expect(check_batch(["a", "b"], signal.SIGTERM, out, status, "held, two at once") == 1, "held, two at once")
    status, out, _ = run(batch(["a", "b"]), environment=with_signal("read", 1, True, signal.SIGTERM, TWICE="1"))
    expect(check_batch(["a", "b"], signal.SIGTERM, out, status, "two at once") == 1, "two at once")


# ---- At random moments ----

def check_random(rounds):
    """A signal before the batch begins ends flow with nothing done; behind its end it meets nobody."""
    names, met = [f"t{i}" for i in range(40)], 0
    for name in names:
        write(name, SKIP)
    began = time.monotonic()
    run(batch(names))
    whole = time.monotonic() - began
    for _ in range(rounds):
        number, process = random.choice(ENDING), start(batch(names))
        time.sleep(random.uniform(0, whole))
        process.send_signal(number)
        out, _, _ = finish(process)
        if process.returncode == 0 or read("report") == b"old\n":
            expect(temporaries() == [] and (process.returncode == 0 or os.listdir("out") == []), "random", os.listdir("out"))
            continue
        met += 0 < check_batch(names, number, out, process.returncode, ("random", number)) < len(names)
    expect(met > 0, "no batch was met at work")


# ---- While flow waits ----

def is_asleep(process):
    """Does this process handle signals by now, and has the system put it to sleep?"""
    lines = dict(line.split(":\t", 1) for line in read(f"/proc/{process}/status").decode().splitlines() if ":\t" in line)
    return int(lines["SigCgt"], 16) >> (signal.SIGTERM - 1) & 1 and lines["State"].startswith("S")


def wait_until_asleep(process):
    """Until it is so for a while, as in a call that waits."""
    asleep = 0
    for _ in range(1000):
        time.sleep(0.01)
        asleep = asleep + 1 if is_asleep(process) else 0
        if asleep == 5:
            return
    os.kill(process, signal.SIGKILL)
    expect(False, process, "does not wait")


def interrupt_waiting(arguments, number, **more):
    process = start(arguments, **more)
    wait_until_asleep(process.pid)
    process.send_signal(number)
    return (*finish(process), process.returncode)


def full_pipe():
    """Its two ends, both open: nothing goes in any more."""
    ends = os.pipe()
    os.set_blocking(ends[1], False)
    try:
        while True:
            os.write(ends[1], b"\n")
    except BlockingIOError:
        os.set_blocking(ends[1], True)
    return ends


def check_waiting_for_input(number):
    names = ["a", "fifo", "b"]
    out, err, took, status = interrupt_waiting(batch(names), number)
    expect(check_batch(names, number, out, status, ("open", number)) == 1 and err == "" and took < 0.9, "open waits", err, took)
    writer = os.open("fifo", os.O_RDWR)
    out, err, took, status = interrupt_waiting(batch(names), number)
    expect(check_batch(names, number, out, status, ("read", number)) == 1 and err == "" and took < 0.9, "read waits", err, took)
    os.close(writer)


def check_signal_just_before_waiting():
    """Between the last look for a signal and the call that waits: the call is broken off within a second or so."""
    names = ["a", "fifo", "b"]
    status, out, _ = run(batch(names), environment=with_signal("open", 3, False, signal.SIGINT)) # a, its folder, fifo
    expect(check_batch(names, signal.SIGINT, out, status, "just before open") == 1, "just before open")
    writer = os.open("fifo", os.O_RDWR)
    status, out, _ = run(batch(names), environment=with_signal("read", 3, False, signal.SIGINT)) # a, its end, fifo
    expect(check_batch(names, signal.SIGINT, out, status, "just before read") == 1, "just before read")
    os.close(writer)


def check_waiting_for_output():
    arguments = batch(["a", "b"])
    os.mkfifo("out/a")
    out, err, took, status = interrupt_waiting(arguments, signal.SIGINT)
    expect(status == -signal.SIGINT and out == "0 hardened, 0 refused, 2 interrupted\n", "an output waits", status, out)
    expect(err == "flow: out/a: Interrupted system call\n" and took < 0.9, "an output waits", err, took)


def check_waiting_for_lines():
    ends = full_pipe()
    names = ["a", "b"]
    out, err, took, status = interrupt_waiting(batch(names), signal.SIGTERM, stdout=ends[1])
    expect(check_batch(names, signal.SIGTERM, out, status, "a line waits", heard=False) == 1, "a line waits")
    expect(err == "flow: standard output: Interrupted system call\n" and took < 0.9, "a line waits", err, took)
    for end in ends:
        os.close(end)


def check_waiting_for_report():
    arguments = ["fifo" if argument == "report" else argument for argument in batch(["a"])]
    out, err, took, status = interrupt_waiting(arguments, signal.SIGINT)
    expect(status == -signal.SIGINT and out.endswith("1 hardened, 0 refused\n"), "the report waits", status, out)
    expect(err == "flow: fifo: Interrupted system call\n" and took < 0.9, "the report waits", err, took)
    expect(os.listdir("out") == ["a"], "the report waits", os.listdir("out"))


def check_further_signal():
    """Where all that is told must wait, the end takes seconds; a further signal, over a second later, ends flow at once."""
    ends = full_pipe()
    process = start(batch(["missing", "a"]), stdout=ends[1], stderr=ends[1])
    wait_until_asleep(process.pid)
    process.send_signal(signal.SIGINT)
    time.sleep(1.5)
    process.send_signal(signal.SIGTERM)
    _, _, took = finish(process)
    expect(process.returncode == -signal.SIGTERM and took < 0.5, "a further signal", process.returncode, took)
    for end in ends:
        os.close(end)


def check_ignored():
    """What was ignored stays ignored, as under nohup."""
    def ignore():
        take_default_signals()
        signal.signal(signal.SIGHUP, signal.SIG_IGN)

    writer = os.open("fifo", os.O_RDWR)
    process = start(batch(["a", "fifo"]), preexec=ignore)
    wait_until_asleep(process.pid)
    process.send_signal(signal.SIGHUP)
    time.sleep(0.1)
    os.write(writer, SKIP)
    os.close(writer)
    out, _, _ = finish(process)
    expect(process.returncode == 0 and out.endswith("2 hardened, 0 refused\n"), "ignored", process.returncode, out)


def check_terminal():
    """The key that interrupts, while a table is read from the terminal."""
    child, terminal = pty.fork()
    if child == 0:
        take_default_signals()
        os.execv(FLOW + "/flow", ["flow", "harden", "-o", "typed", "--report", "report", "-"])
    wait_until_asleep(child)
    os.write(terminal, b"\x03")
    _, status = os.waitpid(child, 0)
    os.close(terminal)
    expect(os.WIFSIGNALED(status) and os.WTERMSIG(status) == signal.SIGINT, "terminal", status)
    expect(read("report").decode() == HEADER + "\nstandard input\t-\t-\tinterrupted\t-\t-\t-\n", "terminal", read("report"))


def main():
    random.seed(SEED)
    memory = "/dev/shm" if os.access("/dev/shm", os.W_OK) else None # where an fsync takes no time
    with tempfile.TemporaryDirectory(dir=memory) as folder:
        os.chdir(folder)
        for name, contents in ("a", SKIP), ("b", SKIP), ("orphan", ORPHAN), ("skip.flow", b"skip\n"):
            write(name, contents)
        os.mkfifo("fifo")
        check_calls_of_batch()
        check_calls_of(["harden", "-o", "target", "a"], "target", HARDENED_SKIP)
        check_calls_of(["assemble", "-o", "target", "skip.flow"], "target", SKIP)
        check_calls_of(["sheet", "--raw", "-o", "target", "a"], "target", bytes.fromhex("0e008000 0100 0100 00000000 0000"))
        check_failing_write()
        check_failing_read()
        check_unsynced_folder()
        check_two_at_once()
        check_random(60)
        for number in ENDING:
            check_waiting_for_input(number)
        check_signal_just_before_waiting()
        check_waiting_for_output()
        check_waiting_for_lines()
        check_waiting_for_report()
        check_further_signal()
        check_ignored()
        check_terminal()
        os.chdir("/")
    print(f"signals: {checks} checks passed")


main()
