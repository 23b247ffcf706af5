"""Runs of the programs that a row can't say: over an input that fails behind each of its bytes, with an output that has room for
fewer bytes than are written, over the texts of `make`, and of jobs beside their script."""
import contextlib
import fcntl
import os
import resource
import socket
import struct
import subprocess
import tempfile
import termios
import threading

from row_files import TOP

TIMEOUT = 120
MASK = (1 << 64) - 1
WB = b"0fe 508\n200 6\n201 f00000800\n2ff 800\nend\n"

# Commands, with the lines of an input, what is written once these lines are known, and the status. Nothing follows a part
# without lines: it is written once the input has ended.
KNOWN = [
    ("mtrr", b"check", [(b"fe 508\n2ff c06\n", b""), (b"", b"accepted\n")], 0),
    (
        "mtrr",
        b"replay",
        [
            (b"cpus 2\ndump\n" + WB, b"accepted\n"),
            (b"ram 100000 64\nmap 0 1000 100000 0\n", b"ok\n"),
            (b"map 1 1000 100000 0\n", b"ok\n"),
            (b"store 0 1000 2a\n", b"stored WB\n"),
            (b"word 100000\n", b"memory 0000000000000000\n"),
            (b"update\n200 0\nend\n", b"complete 1\n"),
            (
                b"report\n",
                b"cpu 0 running era 1 lines 0 dirty 0 buffers 0 entries 0 stale 0 cd 0 pge 0\n"
                b"cpu 1 running era 1 lines 0 dirty 0 buffers 0 entries 0 stale 0 cd 0 pge 0\nregisters same\n",
            ),
            (b"word 100000\n", b"memory 000000000000002a\n"),
            (b"load 1 1000\n", b"value 000000000000002a UC\n"),
        ],
        0,
    ),
    (
        "mtrr",
        b"replay",
        [
            (b"cpus 1\ndump\n0fe 400\n2ff 800\nend\n", b"accepted\n"),
            (b"update\n2ff 806\n", b""),
            (b"", b"bad text 8:1 no end\n"),
        ],
        3,
    ),
    ("mtrr", b"check", [(b"x\n0fe 508\n", b""), (b"", b"bad text 1:1 bad line\n")], 3),
    ("mtrr", b"replay", [(b"end\n", b"bad text 1:1 bad line\n"), (b"cpus 2\n", b"")], 3),
    ("mtrr", b"replay", [(b"end", b""), (b"", b"bad text 1:1 bad line\n")], 3),
    (
        "mtrr",
        b"proc 2",
        [(WB + b"disable=0 #####\n", b"cleared 0\n"), (b"disable=0 #####\n", b"not used\n"), (b"", b"era 1\n")],
        0,
    ),
    ("mtrr-import", b"rdmsr", [(b"+ rdmsr", b"")], 1),
    (
        "mtrr-import",
        b"rdmsr maxphyaddr=39",
        [
            (b"+ rdmsr 0xfe\n0\n+ rdmsr 0x277\n7040600070406\n+ rdmsr 0x2ff\nc00\n", b""),
            (b"", b"maxphyaddr 39\n0fe 0000000000000000\n277 0007040600070406\n2ff 0000000000000c00\n"),
        ],
        0,
    ),
]


def unread(ours):
    """Whether the other side hasn't read all that was sent."""
    return struct.unpack("i", fcntl.ioctl(ours, termios.TIOCOUTQ, b"\0\0\0\0"))[0] > 0


def run_of_failing_read(words, data, size):
    """Runs a program whose reads give this data in pieces of so many bytes, then fail once, and after that are at the end."""
    ours, theirs = socket.socketpair()
    # (a byte that isn't read here resets the other side)
    theirs.send(b".")
    with subprocess.Popen(words, stdin=theirs, stdout=subprocess.PIPE, stderr=subprocess.DEVNULL) as ran:
        theirs.close()
        killer = threading.Timer(TIMEOUT, ran.kill)
        killer.start()
        with ours, contextlib.suppress(ConnectionError):
            for start in range(0, len(data), size):
                ours.send(data[start : start + size])
                while unread(ours) and ran.poll() is None:
                    os.sched_yield()
        output, _ = ran.communicate()
        killer.cancel()
    return ran.returncode, output


def run_with_room(words, data, room):
    """Runs a program whose output takes so many bytes, and fails behind them."""

    def limit():
        resource.setrlimit(resource.RLIMIT_FSIZE, (room, room))

    with tempfile.TemporaryFile() as output:
        ran = subprocess.run(words, input=data, stdout=output, stderr=subprocess.DEVNULL, timeout=TIMEOUT,
                             preexec_fn=limit, restore_signals=False)
        output.seek(0)
        return ran.returncode, output.read()


def first_wrong(runs):
    """The first run that isn't as wanted, or None."""
    return next((run for run in runs if run[1] != run[2]), None)


def failing_reads(words, parts):
    """Each read fails in turn: then exactly what is known is written."""
    data = b"".join(lines for lines, _ in parts)
    for size in (1, 8, 4096):
        for count in range(len(data) + 1):
            known, read = b"", 0
            for lines, text in parts:
                read += len(lines)
                known += text if lines and read <= count else b""
            yield (size, count), run_of_failing_read(words, data[:count], size), (4, known)


def rooms(words, data, text, counts):
    """Outputs with too little room get as much of the text as they have room for."""
    for count in counts:
        yield count, run_with_room(words, data, count), (5, text[:count])


def failing_runs(programs):
    for number, (name, words, parts, status) in enumerate(KNOWN):
        if name not in programs:
            continue
        words = [programs[name].encode(), *words.split()]
        data, text = b"".join(lines for lines, _ in parts), b"".join(text for _, text in parts)
        told = f"{name} {number}"
        yield f"{told}: a read fails", first_wrong(failing_reads(words, parts)), None
        yield f"{told}: a write fails", first_wrong(rooms(words, data, text, range(len(text)))), None
        yield f"{told}: just enough room", run_with_room(words, data, len(text)), (status, text)


def output_of(words, data=b""):
    ran = subprocess.run(words, input=data, capture_output=True, timeout=TIMEOUT)
    return ran.returncode, ran.stdout


def errors_of(words, output):
    """The status of a program that writes to this output, and its standard error."""
    ran = subprocess.run(words, stdin=subprocess.DEVNULL, stdout=output, stderr=subprocess.PIPE, timeout=TIMEOUT, cwd=TOP)
    return ran.returncode, ran.stderr


def errors_unread(words):
    """The same if nobody reads the output."""
    ours, theirs = os.pipe()
    os.close(ours)
    with open(theirs, "wb") as output:
        return errors_of(words, output)


def explained_runs(program):
    """Runs of `mtrr-explain` over an output that takes nothing, a name that isn't UTF-8, and a file without an end."""
    first, said = b"examples/first.dump", b"mtrr-explain: "
    faults = [program.encode(), b"faults"]
    yield "mtrr-explain: nobody reads the output", errors_unread([*faults, first, b"no such file"]), (2, b"")
    yield "mtrr-explain: nobody reads the help", errors_unread([program, "--help"]), (2, b"")
    with open("/dev/full", "wb") as output:
        wanted = 2, said + b"standard output: No space left on device (os error 28)\n"
        yield "mtrr-explain: the output is full", errors_of([*faults, first, b"no such file"], output), wanted
    ran = subprocess.run([*faults, b"\xff.dump", b"/dev/zero", first], capture_output=True, timeout=TIMEOUT, cwd=TOP)
    errors = said + b"\xef\xbf\xbd.dump: its name isn't UTF-8\n" + said + b"/dev/zero: more than 16 MB\n"
    yield "mtrr-explain: two files without an answer", (ran.returncode, ran.stdout.partition(b"\n")[0], ran.stderr), (2, first + b": no fault", errors)


def stepped(x):
    """The number that a draw results in."""
    return (x * 6364136223846793005 + 1442695040888963407) & MASK


def accesses(k, x):
    """64 accesses of a job from a number on, and the number behind them."""
    lines = []
    for _ in range(64):
        is_load = (stepped(x) >> 33) % 4 < 2
        x = stepped(stepped(x))
        address = (x >> 33) % 512 * 8
        lines.append(f"load {k} {address:x}\n" if is_load else f"store {k} {address:x} {x:x}\n")
    return "".join(lines), x


def script_of_jobs():
    """The jobs of the number 7 one after the other, an update between, and at the end all words of memory."""
    script = "cpus 16\ndump\n" + WB.decode()
    script += "".join(f"ram {k:x}00000 64\n" for k in range(16)) + "".join(f"map {k} 0 {k:x}00000 0\n" for k in range(16))
    first = [accesses(k, k + 7) for k in range(16)]
    script += "".join(lines for lines, _ in first) + "update\n200 4\nend\n"
    script += "".join(accesses(k, x)[0] for k, (_, x) in enumerate(first))
    return (script + "".join(f"word {k:x}00{8 * word:03x}\n" for k in range(16) for word in range(512))).encode()


def sum_of(text, word):
    return sum(int(line.split()[1], 16) for line in text.split(b"\n") if line.startswith(word)) & MASK


def long_runs(program):
    """Runs of `mtrr` over long texts."""
    status, text = output_of([program, b"replay"], script_of_jobs())
    sums = f"values {sum_of(text, b'value '):016x}\nmemory {sum_of(text, b'memory '):016x}\n".encode()
    yield "mtrr: jobs end as one by one", (status, output_of([program, b"private", b"16", b"7", b"64"])), (0, (0, sums))
    _, text = output_of([program, b"make", b"7"])
    lines = text.split(b"\n")
    yield "mtrr: the text of 7", (len(lines), lines[1041], lines[-2:]), (5170, b"store 14 16988 e8155a62cd769fcc", [b"report", b""])
    status, told = output_of([program, b"replay"], text)
    yield "mtrr: its transcript", (status, told.count(b"\n")), (0, 5273)
    for words, wanted in ((b"make 7", text), (b"private 2 7 0", b"values 0000000000000000\nmemory 0000000000000000\n")):
        found = run_of_failing_read([program, *words.split()], b"", 1)
        yield f"mtrr: {words.decode()} reads nothing", found, (0, wanted)
    report = b"".join(b"cpu %d running era 0 lines 0 dirty 0 buffers 0 entries 0 stale 0 cd 0 pge 0\n" % k for k in range(16))
    text = b"accepted\n" + 60 * (report + b"registers same\n")
    script = b"cpus 16\ndump\n0fe 400\n2ff 800\nend\n" + 60 * b"report\n"
    found = rooms([program, b"replay"], script, text, range(0, len(text), 4096))
    yield "mtrr: a write of many fails", first_wrong(found), None
