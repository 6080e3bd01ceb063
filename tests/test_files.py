"""Odd files: one name for two of them, folders, pipes, standard input, empty files, full devices, a
limit on the size of files, interrupted loads, and files that change while they are read. For Linux
on x86-64."""
import ctypes
import os
import pathlib
import resource
import signal
import subprocess
import threading
import time

from tests import pages, support
from tests.support import BW, ROOT

SCHEMA = ROOT / "examples" / "common.schema"
CSV = ROOT / "examples" / "common.csv"
COUNT = "SELECT COUNT(*) FROM t"
FIVE = "COUNT(*)/5"


def shown(done):
    """Returns what a call printed, in one line, and its status if that isn't 0."""
    text = support.text_of(done.stdout + done.stderr).rstrip("\n").replace("\n", "/")
    return text + (f" (status {done.returncode})" if done.returncode else "")


def run(words, **options):
    return shown(subprocess.run(words, stdin=subprocess.DEVNULL, capture_output=True, check=False,
                                timeout=60, **options))


def bw(*words, **options):
    return run([BW, *map(str, words)], **options)


def sh(command):
    done = support.sh(command, pathlib.Path.cwd(), SCHEMA=str(SCHEMA), CSV=str(CSV))
    text = (done.out + done.err).rstrip("\n").replace("\n", "/")
    return text + (f" (status {done.status})" if done.status else "")


def whole(layout="planes"):
    """Returns the table file of the common rows."""
    path = pathlib.Path("whole.bw")
    assert bw("load", "--layout", layout, SCHEMA, CSV, path) == ""
    return path.read_bytes()


def fill(name, bytes_):
    path = pathlib.Path(name)
    path.write_bytes(bytes_)
    return path


def state(path, before, after):
    """Returns what became of a file: unchanged, the whole text, a prefix of it, or something
    else."""
    now = path.read_bytes() if path.exists() else None
    if now == before:
        return "as it was"
    if now == after:
        return "whole"
    return f"a prefix of {len(now)} bytes" if now is not None and \
        after.startswith(now) else "something else"


# requests of ptrace, and the offsets of two registers: the number of a system call, and its first
# argument
TRACE_ME, PEEK_USER, DETACH, UNTIL_CALL, SET_OPTIONS, MARK_CALLS = 0, 3, 17, 24, 0x4200, 1
CALL_NUMBER, FIRST_ARGUMENT = 8 * 15, 8 * 14
# the numbers of system calls: read, and pread64
READ, READ_AT = 0, 17
LIBC = ctypes.CDLL(None, use_errno=True)
LIBC.ptrace.argtypes = [ctypes.c_long, ctypes.c_long, ctypes.c_void_p, ctypes.c_void_p]
LIBC.ptrace.restype = ctypes.c_long


def ptrace(request, process=0, at=0, data=0):
    ctypes.set_errno(0)
    value = LIBC.ptrace(request, process, at, data)
    if ctypes.get_errno():
        raise OSError(ctypes.get_errno(), "ptrace")
    return value


def stopped_at_read(process, path, wanted, call):
    """Runs a traced process until its read of a file of this number begins, by a system call. Tells
    whether it came to that."""
    path, reads, begins = str(pathlib.Path(path).resolve()), 0, False
    _, status = os.waitpid(process, 0)
    ptrace(SET_OPTIONS, process, 0, MARK_CALLS)
    while not (os.WIFEXITED(status) or os.WIFSIGNALED(status)):
        if os.WSTOPSIG(status) == signal.SIGTRAP | 0x80:
            begins = not begins
            if begins and ptrace(PEEK_USER, process, CALL_NUMBER) == call:
                read_from = f"/proc/{process}/fd/{ptrace(PEEK_USER, process, FIRST_ARGUMENT)}"
                reads += os.readlink(read_from) == path
                if reads == wanted:
                    return True
        ptrace(UNTIL_CALL, process)
        _, status = os.waitpid(process, 0)
    return False


def bw_meanwhile(path, change, *words, read=2, call=READ):
    """Returns what a call prints if a file is changed at the start of this read of it. In a small
    file the second read finds the end."""
    begun = subprocess.Popen([BW, *map(str, words)], stdin=subprocess.DEVNULL,
                             stdout=subprocess.PIPE, stderr=subprocess.PIPE,
                             preexec_fn=lambda: ptrace(TRACE_ME))
    if not stopped_at_read(begun.pid, path, read, call):
        return "no such read"
    change()
    ptrace(DETACH, begun.pid)
    out, err = begun.communicate(timeout=60)
    return shown(subprocess.CompletedProcess(words, begun.returncode, out, err))


def aged(name, bytes_):
    """Writes a file whose time is an hour ago, and returns its path."""
    path = fill(name, bytes_)
    os.utime(path, (time.time() - 3600,) * 2)
    return path


def rewrite(path, bytes_, at=0):
    """Writes bytes over those of a file."""
    with open(path, "r+b") as file:
        file.seek(at)
        file.write(bytes_)


def table_of(name, rows):
    """Returns the table file of rows of two columns."""
    text = "a,b\n" + "".join(f"{a},{b}\n" for a, b in rows)
    assert bw("load", "two.schema", fill("two.csv", text.encode()), name) == ""
    return pathlib.Path(name).read_bytes()


class Files(support.TestCase):
    """Calls in a new folder."""

    def setUp(self):
        folder = self.new_folder()
        pages.furnish(folder)
        self.addCleanup(os.chdir, os.getcwd())
        os.chdir(folder)

    def case(self, what, came, wanted):
        with self.subTest(what):
            self.assertEqual(came, wanted)

    def test_one_name_for_two_files(self):
        """OUT is an input too."""
        table = whole()
        copy = fill("rows.csv", CSV.read_bytes())
        inputs = "error: {} is an input, and can't be OUT too (status 2)"
        self.case("load S C C, over the rows themselves", bw("load", SCHEMA, copy, copy),
                  inputs.format("rows.csv"))
        self.case("and the rows' file is", state(copy, CSV.read_bytes(), table), "as it was")
        self.case("load S C C, by another name", bw("load", SCHEMA, copy, "./rows.csv"),
                  inputs.format("rows.csv"))
        pathlib.Path("link.csv").symlink_to(copy)
        self.case("load S C C, by a link", bw("load", SCHEMA, copy, "link.csv"),
                  inputs.format("rows.csv"))
        os.link(copy, "hard.csv")
        self.case("load S C C, by a hard link", bw("load", SCHEMA, copy, "hard.csv"),
                  inputs.format("rows.csv"))
        os.link(schema_copy := fill("u.schema", SCHEMA.read_bytes()), "hard.schema")
        self.case("load S C S, by a hard link", bw("load", schema_copy, CSV, "hard.schema"),
                  inputs.format("u.schema"))
        self.case("and the schema is", state(schema_copy, SCHEMA.read_bytes(), table), "as it was")
        self.case("and the rows' file is", state(copy, CSV.read_bytes(), table), "as it was")
        schema = fill("t.schema", SCHEMA.read_bytes())
        self.case("load S C S, over the schema", bw("load", schema, CSV, schema),
                  inputs.format("t.schema"))
        self.case("and the schema is", state(schema, SCHEMA.read_bytes(), table), "as it was")
        self.case("load from a device to the same one",
                  bw("load", SCHEMA, "/dev/null", "/dev/null"),
                  "bw: 201 no heading at record 0 (status 3)")

    def test_out_is_there(self):
        """OUT, or a table that is read, is written by the same call."""
        table = whole()
        copy = fill("bad.csv", b"a,b\n300,0\n")
        refused = "bw: 205 out of range at record 1 (status 3)"
        out = fill("old.bw", table)
        self.case("load over an older table, with rows that are refused",
                  bw("load", SCHEMA, copy, out),
                  refused)
        self.case("and the table is", state(out, table, b""), "as it was")
        self.case("dump T > T, where the shell empties T first", sh("bw dump old.bw > old.bw"),
                  "bw: 305 truncated at byte 0 (status 3)")
        self.case("and T is", f"{out.stat().st_size} bytes", "0 bytes")
        out.write_bytes(table)
        self.case("query T >> T, which adds the answer to the table",
                  sh(f"bw query old.bw '{COUNT}' >> old.bw"), "")
        self.case("and T is refused from then on", bw("dump", out),
                  "bw: 309 bytes after the end at byte 952 (status 3)")
        out.unlink()
        link = pathlib.Path("link.bw")
        link.symlink_to("old.bw")
        self.case("load to a link to a file that isn't there", bw("load", SCHEMA, CSV, link), "")
        self.case("and the file that it links to is", state(out, None, table), "whole")

    def test_folders(self):
        """A folder in place of a file."""
        pathlib.Path("folder").mkdir()
        table = fill("t.bw", whole())
        self.case("SCHEMA", bw("direct", "folder", CSV, COUNT), "bw: 701 read failed (status 5)")
        self.case("CSV", bw("direct", SCHEMA, "folder", COUNT), "bw: 701 read failed (status 5)")
        self.case("CSV, with a schema that is refused", bw("direct", CSV, "folder", COUNT),
                  "bw: 101 line form at line 1 (status 3)")
        self.case("TABLE", bw("query", "folder", COUNT), "bw: 701 read failed (status 5)")
        self.case("FILE of check", bw("check", SCHEMA, COUNT, "folder"),
                  "bw: 701 read failed (status 5)")
        self.case("OUT", bw("load", SCHEMA, CSV, "folder"), "bw: 702 write failed (status 5)")
        self.case("OUT in a folder that isn't there", bw("load", SCHEMA, CSV, "none/t.bw"),
                  "bw: 702 write failed (status 5)")
        self.case("OUT in a file", bw("load", SCHEMA, CSV, f"{table}/t.bw"),
                  "bw: 702 write failed (status 5)")

    def test_pipes(self):
        """A named pipe, and standard input."""
        table = whole()
        for name, given, words in (
            ("SCHEMA", SCHEMA.read_bytes(), ("direct", "pipe", CSV, COUNT)),
            ("CSV", CSV.read_bytes(), ("direct", SCHEMA, "pipe", COUNT)),
            ("TABLE", table, ("query", "pipe", COUNT)),
        ):
            os.mkfifo("pipe")
            feeder = threading.Thread(target=fill, args=("pipe", given))
            feeder.start()
            self.case(f"{name} is a pipe", bw(*words), FIVE)
            feeder.join()
            os.unlink("pipe")
        os.mkfifo("pipe")
        got = []
        reader = threading.Thread(target=lambda: got.append(pathlib.Path("pipe").read_bytes()))
        reader.start()
        self.case("OUT is a pipe", bw("load", SCHEMA, CSV, "pipe"), "")
        reader.join()
        self.case("and what came through it is", "the table" if got == [table]
                  else "something else",
                  "the table")
        os.unlink("pipe")
        fill("t.bw", table)
        self.case("TABLE is /dev/stdin, from a file", sh(f"bw query /dev/stdin '{COUNT}' < t.bw"),
                  FIVE)
        self.case("TABLE is /dev/stdin, from a pipe",
                  sh(f"cat t.bw | bw query /dev/stdin '{COUNT}'"), FIVE)
        self.case("CSV is /dev/stdin, from a pipe",
                  sh(f'cat "$CSV" | bw direct "$SCHEMA" /dev/stdin \'{COUNT}\''), FIVE)
        self.case("OUT is /dev/stdout, to a pipe",
                  sh('bw load "$SCHEMA" "$CSV" /dev/stdout | cmp - t.bw'),
                  "")
        self.case("OUT is -, which is a file of that name",
                  bw("load", SCHEMA, CSV, "-") + state(pathlib.Path("-"), None, table), "whole")
        self.case("SCHEMA is /dev/zero, which never ends", bw("direct", "/dev/zero", CSV, COUNT),
                  "bw: 106 schema too long (status 3)")
        self.case("TABLE is /dev/zero", bw("query", "/dev/zero", COUNT),
                  "bw: 301 magic at byte 0 (status 3)")
        self.case("TABLE is /dev/stdin, which is closed", sh(f"bw query /dev/stdin '{COUNT}' <&-"),
                  "bw: 701 read failed (status 5)")
        self.case("SCHEMA and CSV are both /dev/stdin, from a pipe", sh(
                 f'cat "$SCHEMA" "$CSV" | bw direct /dev/stdin /dev/stdin \'{COUNT}\''),
                  "bw: 101 line form at line 4 (status 3)")

    def test_endings(self):
        """Empty files, and files without a last line feed."""
        empty = fill("empty", b"")
        self.case("SCHEMA is empty", bw("direct", empty, CSV, COUNT),
                  "bw: 101 line form at line 1 (status 3)")
        self.case("CSV is empty", bw("direct", SCHEMA, empty, COUNT),
                  "bw: 201 no heading at record 0 (status 3)")
        self.case("CSV is a heading alone", bw("direct", SCHEMA, fill("h.csv", b"a,b"), COUNT),
                  "COUNT(*)/0")
        self.case("TABLE is empty", bw("query", empty, COUNT),
                  "bw: 305 truncated at byte 0 (status 3)")
        self.case("FILE of check is empty", bw("check", SCHEMA, COUNT, empty),
                  "bw: 506 no result at line 1 (status 3)")
        self.case("SQL is empty", bw("direct", SCHEMA, CSV, ""),
                  "bw: 402 syntax at byte 0 (status 3)")
        self.case("SCHEMA without its last line feed",
                  bw("direct", fill("s", SCHEMA.read_bytes().rstrip(b"\n")), CSV, COUNT), FIVE)
        self.case("CSV without its last line feed",
                  bw("direct", SCHEMA, fill("c", CSV.read_bytes().rstrip(b"\n")), COUNT), FIVE)
        schema = fill("s", SCHEMA.read_bytes().replace(b"\n", b"\r\n"))
        csv = fill("c", CSV.read_bytes().replace(b"\n", b"\r\n"))
        self.case("both with a carriage return before each line feed",
                  bw("direct", schema, csv, COUNT),
                  FIVE)
        trips = ROOT / "examples" / "trips.schema"
        short = (ROOT / "examples" / "short_trips.prog").read_bytes().rstrip(b"\n")
        statement = "SELECT COUNT(*) FROM trips WHERE minutes < 8"
        self.case("FILE of check without its last line feed",
                  bw("check", trips, statement, fill("p", short)),
                  "accepted: 1 instructions, 0 skips, 16 nodes, 9 chains, 12 rows")

    def test_devices(self):
        """Full devices and closed outputs."""
        table = whole()
        self.case("load to /dev/full", bw("load", SCHEMA, CSV, "/dev/full"),
                  "bw: 702 write failed (status 5)")
        self.case("query > /dev/full", sh(f"bw query whole.bw '{COUNT}' > /dev/full"),
                  "bw: 702 write failed (status 5)")
        self.case("query with standard output closed", sh(f"bw query whole.bw '{COUNT}' >&-"),
                  "bw: 702 write failed (status 5)")
        self.case("query with both outputs full",
                  sh(f"bw query whole.bw '{COUNT}' > /dev/full 2> /dev/full"), " (status 5)")
        self.case("query --stats with a full standard error",
                  sh(f"bw query --stats whole.bw '{COUNT}' 2> /dev/full"), FIVE + " (status 5)")
        self.case("session --stats with a full standard error",
                  sh(f"echo '{COUNT}; {COUNT}' | bw session --stats whole.bw 2> /dev/full"),
                  f"{FIVE}//{FIVE} (status 5)")
        self.case("session with a full standard error",
                  sh(f"echo 'SELECT zz FROM t; {COUNT}' | bw session --stats whole.bw "
                     "2> /dev/full"),
                  f"/{FIVE} (status 3)")
        self.case("load with its input and both outputs closed",
                  sh('bw load "$SCHEMA" "$CSV" closed.bw <&- >&- 2>&-') +
                  state(pathlib.Path("closed.bw"), None, table), "whole")
        self.case("dump | head -n 1, of a short table", sh("bw dump whole.bw | head -n 1"), "a,b")

    def test_a_limit_of_the_size_of_files(self):
        """`ulimit -f 1`, which counts blocks of 512 bytes in some shells and of 1,024 in others."""
        table = whole()
        for ignored in (False, True):
            out = pathlib.Path("limited.bw")
            out.write_bytes(b"old")

            def limit():
                resource.setrlimit(resource.RLIMIT_FSIZE, (512, 512))
                signal.signal(signal.SIGXFSZ, signal.SIG_IGN if ignored else signal.SIG_DFL)

            came = bw("load", SCHEMA, CSV, out, preexec_fn=limit)
            if ignored:
                self.case("load under a limit of 512 bytes, its signal ignored", came,
                          "bw: 702 write failed (status 5)")
            else:
                self.case("load under a limit of 512 bytes", came, f" (status {-signal.SIGXFSZ})")
            self.case("and OUT, which was there before, is", state(out, b"old", table),
                      "a prefix of 512 bytes")
            self.case("and a dump of it says", bw("dump", out),
                      "bw: 305 truncated at byte 512 (status 3)")
            self.case("and a query", bw("query", out, COUNT),
                      "bw: 305 truncated at byte 512 (status 3)")
            came = bw("load", SCHEMA, fill("bad.csv", b"a,b\n300,0\n"), fill("kept.bw", b"old"),
                      preexec_fn=limit)
            self.case("a refused load under it", came,
                      "bw: 205 out of range at record 1 (status 3)")
            self.case("and OUT is", state(pathlib.Path("kept.bw"), b"old", table), "as it was")

    def test_ended_loads(self):
        """Loads of 500,000 or 2,000,000 rows that are ended at ten moments: five while they read
        and build, five while they write."""
        rows = "".join(f"{i * 7 % 256},{'' if i % 20 == 0 else i * 5 % 21 - 10}\n"
                       for i in range(1000))
        csv = fill("large.csv", ("a,b\n" + rows * support.sample(500, 2000)).encode())
        out = pathlib.Path("large.bw")
        words = [BW, "load", SCHEMA, csv]
        begun = time.monotonic()
        load = subprocess.Popen([*words, out])
        while not out.exists() and load.poll() is None:
            time.sleep(0.0002)
        before = time.monotonic() - begun
        assert load.wait() == 0
        table = out.read_bytes()
        os.mkfifo("slow")
        for moment in range(10):
            ending = signal.SIGTERM if moment % 2 else signal.SIGKILL
            out.write_bytes(b"old")
            load = subprocess.Popen([*words, out if moment < 6 else "slow"])
            if moment < 5:
                told = f"{1000 * before * (moment + 0.3) / 5:.0f} ms after its begin"
                time.sleep(before * (moment + 0.3) / 5)
                load.send_signal(ending)
            elif moment == 5:
                told = "once OUT was emptied"
                while out.stat().st_size == 3 and load.poll() is None:
                    pass
                load.send_signal(ending)
            else:
                # OUT is a pipe, so that the load is ended while it writes; what arrived is then
                # stored
                # as OUT
                size = len(table) * (moment - 5) // 5
                told = f"once {size} bytes were taken from a pipe that is OUT"
                with open("slow", "rb") as pipe:
                    came = pipe.read(size)
                    load.send_signal(ending)
                    out.write_bytes(came + pipe.read())
            ended = "ended" if load.wait() < 0 else "done before"
            found = state(out, b"old", table)
            if found.startswith("a prefix"):
                says = {bw("dump", out), bw("query", out, COUNT)}
                refused = says == {f"bw: 305 truncated at byte {out.stat().st_size} (status 3)"}
                found += ", which dump and query refuse" if refused \
                    else f", of which they say {says}"
                wanted = found if refused else "a prefix that is refused"
            else:
                wanted = found if found != "something else" else "OUT as it was, whole or a prefix"
            self.case(f"{ending.name} {told}", f"{ended}, and OUT is {found}",
                      f"{ended}, and OUT is {wanted}")

    def test_changes(self):
        """A file that changes while it is read."""
        try:
            subprocess.run(["true"], preexec_fn=lambda: ptrace(TRACE_ME), check=False)
        except subprocess.SubprocessError:
            self.skipTest("files that change: let processes trace their children")
        failed = "bw: 701 read failed (status 5)"
        fill("two.schema", b"TABLE t\nCOLUMN a 0 255\nCOLUMN b 0 255\n")
        one, other = (table_of("made.bw", [(n % 7 + k, n % 11) for n in range(100000)])
                      for k in (0, 100))
        sums = "SELECT COUNT(*), SUM(a), SUM(b) FROM t"
        table = "t.bw"
        for command in (["query", table, sums], ["dump", table]):
            aged(table, one)
            answer = bw(*command)
            for what, read, change in (
                ("gets another table's bytes, after the first piece", 2,
                 lambda: rewrite(table, other)),
                ("gets another table's bytes, before its end is seen",
                 3, lambda: rewrite(table, other)),
                ("loses its last byte, before its end is seen",
                 3, lambda: os.truncate(table, len(one) - 1)),
                ("is written again with the same bytes", 3, lambda: rewrite(table, one)),
            ):
                aged(table, one)
                self.case(f"{command[0]}, T {what}",
                          bw_meanwhile(table, change, *command, read=read),
                          failed)
            aged(table, one)
            self.case(f"{command[0]}, T gets a byte more",
                      bw_meanwhile(table, lambda: rewrite(table, b"x", len(one)), *command, read=3),
                      f"bw: 309 bytes after the end at byte {len(one)} (status 3)")
            changes = (
                ("is replaced by another file", lambda: os.replace(fill("new.bw", other), table)),
                ("is removed", lambda: os.unlink(table)))
            for what, change in changes:
                aged(table, one)
                came = bw_meanwhile(table, change, *command, read=2)
                self.case(f"{command[0]}, T {what}", "as before" if came == answer else came,
                          "as before")
        aged(table, one)
        told = bw("info", table)
        came = bw_meanwhile(table, lambda: rewrite(table, other), "info", table, read=1)
        self.case("info, T gets another table's bytes of the same header",
                  "as before" if came == told else came, "as before")
        csv, schema = "rows.csv", "s.schema"
        other_csv = CSV.read_bytes().replace(b"1", b"2")
        for command in (["direct", schema, csv, COUNT], ["load", schema, csv, "out.bw"],
                        ["infer", csv]):
            aged(schema, SCHEMA.read_bytes())
            aged(csv, CSV.read_bytes())
            self.case(f"{command[0]}, C gets other rows",
                      bw_meanwhile(csv, lambda: rewrite(csv, other_csv), *command), failed)
        self.case("and OUT is", state(pathlib.Path("out.bw"), None, b""), "as it was")
        for command in (["direct", schema, csv, COUNT], ["plan", schema, COUNT]):
            aged(schema, SCHEMA.read_bytes())
            self.case(f"{command[0]}, S is written again",
                      bw_meanwhile(schema, lambda: rewrite(schema, SCHEMA.read_bytes()), *command),
                      failed)
        aged(table, one)
        self.case("and --explain says",
                  bw_meanwhile(table, lambda: rewrite(table, other), "--explain", "query", table,
                               COUNT),
                  "bw: 701 read failed/    t.bw changed while it was read (status 5)")
