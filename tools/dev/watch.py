"""Calls of the program whose calls of the system are watched, failed or broken off (shim.c), and the model of the disk below an
image, as it stands behind each of them."""
import os
import signal
import subprocess
from collections import namedtuple

from nvmtools.calls import Stop

PAGE = 4096
IMAGE, BESIDE, FOLDER = 1, 2, 3
EINTR = 4
MOST_PAGE = 256
SECONDS = 600

# a call of the system, as shim.c tells it
Told = namedtuple("Told", "op which offset length result error data")
# a call of the program: its status (negative: the signal that ended it), its lines, its calls of the system, what it said besides
Ran = namedtuple("Ran", "status lines told said")


class Program:
    """A program under the shim, which is built into a folder."""

    def __init__(self, path, folder):
        self.path, self.folder = os.path.abspath(path), folder
        self.shim, self.log = f"{folder}/shim.so", f"{folder}/log"
        source = f"{os.path.dirname(os.path.abspath(__file__))}/shim.c"
        built = subprocess.run([os.environ.get("CC", "cc"), "-O1", "-shared", "-fPIC", "-o", self.shim, source, "-ldl"],
                               capture_output=True, text=True)
        if built.returncode:
            raise Stop(f"{source} can't be built:\n{built.stderr}")
        # (where the program is built with a sanitizer, another library may come before it)
        self.env = {**os.environ, "ASAN_OPTIONS": "detect_leaks=0:verify_asan_link_order=0"}

    def begin(self, image, words, watched=True, **how):
        """Begins a call. What is given by name is for the shim, as kill="3:b" for SHIM_KILL."""
        env = dict(self.env)
        if watched:
            env.update({"LD_PRELOAD": self.shim, "SHIM_IMAGE": image, "SHIM_LOG": self.log})
            env.update({f"SHIM_{name.upper()}": str(value) for name, value in how.items() if value is not None})
            if os.path.exists(self.log):
                os.remove(self.log)
        return subprocess.Popen([self.path, image, *words], stdin=subprocess.PIPE, stdout=subprocess.PIPE,
                                stderr=subprocess.PIPE, env=env)

    def call(self, image, words, lines, after=None, **how):
        """A whole call, or one that is killed after so many seconds."""
        run = self.begin(image, words, **how)
        try:
            out, said = run.communicate(text_of(lines), timeout=SECONDS if after is None else after)
        except subprocess.TimeoutExpired:
            if after is None:
                raise Stop(f"{self.path} {' '.join(words)}: it doesn't end") from None
            run.send_signal(signal.SIGKILL)
            out, said = run.communicate()
        if b"Sanitizer" in said:
            raise Stop(f"{self.path}: {said.decode(errors='replace')[:2000]}", 1)
        told = read_log(self.log) if how.get("watched", True) else []
        return Ran(run.returncode, out.decode().splitlines(), told, said.decode(errors="replace"))


def text_of(lines):
    return ("\n".join(lines) + "\n").encode()


def read_log(path):
    if not os.path.exists(path):
        return []
    with open(path, "rb") as file:
        raw = file.read()
    told, at = [], 0
    while at < len(raw):
        end = raw.index(b"\n", at)
        op, *numbers = raw[at:end].decode().split()
        which, offset, length, result, error, size = map(int, numbers)
        at = end + 1 + size
        told.append(Told(op, which, offset, length, result, error, raw[end + 1:at]))
    return told


def is_done(call):
    """Whether a call was done, also where it was told as failed."""
    return call.result >= 0 or call.result == -2


class Disk:
    """What reads of an image give (`now`), what is on the disk (`disk`), the pages of which that differs (`dirty`), and whether the
    image has its name, and the folder's entry of it is on the disk. Of shim.c's model this is the other half: a replay."""

    def __init__(self, data=None):
        self.now, self.disk, self.dirty = bytearray(data or b""), bytearray(data or b""), set()
        self.named = self.listed = data is not None

    def do(self, call, leaves=0):
        op, done = call.op, is_done(call)
        if op == "o" and done and call.offset & os.O_TRUNC:
            self.cut(0)
        elif op == "w" and done:
            self.write(call.offset, call.data[:call.result] if call.result >= 0 else call.data)
        elif op in "dy" and call.which != FOLDER and call.error != EINTR:
            self.bring(lambda page: done or leaves >> page % 64 & 1)
        elif op == "y" and done:
            self.listed = self.named
        elif op == "t" and done:
            self.cut(call.offset)
        elif op in "nk" and done:
            self.named = True

    def write(self, at, data):
        if not data:
            return
        if len(self.now) < at:
            self.now.extend(bytes(at - len(self.now)))
        self.now[at:at + len(data)] = data
        self.dirty.update(range(at // PAGE, (at + len(data) - 1) // PAGE + 1))

    def bring(self, is_new):
        """A sync: of the dirty pages these come to the disk, and none of them counts as dirty any more."""
        fit(self.disk, len(self.now))
        for page in self.dirty:
            if is_new(page):
                copy(self.now, self.disk, page)
        self.dirty = set()

    def drop(self):
        """The system needs memory, and drops pages that aren't dirty."""
        fit(self.disk, len(self.now))
        for page in range(-(-len(self.now) // PAGE)):
            if page not in self.dirty:
                copy(self.disk, self.now, page)

    def cut(self, size):
        fit(self.now, size)
        fit(self.disk, size)
        self.dirty = {page for page in self.dirty if page * PAGE < size}

    def is_at(self, image):
        """Whether the file is as this replay has it, and so is the model's disk."""
        if not self.named:
            return not os.path.exists(image)
        return taken(image) == bytes(self.now) and taken(f"{image}.disk") == bytes(self.disk)

    def left(self, draw):
        """What a power cut may leave here: None where the image has no name then. Each dirty page is old, or new: all old, all new,
        and some."""
        left = [] if self.listed else [None]
        if self.named:
            choices = [set(), self.dirty, {page for page in self.dirty if draw.random() < 0.5}]
            for new in choices[:1 if not self.dirty else 2 if len(self.dirty) == 1 else 3]:
                data = bytearray(self.disk)
                fit(data, len(self.now))
                for page in new:
                    copy(self.now, data, page)
                left.append(bytes(data))
        return left


def fit(data, size):
    if len(data) > size:
        del data[size:]
    else:
        data.extend(bytes(size - len(data)))


def copy(source, to, page):
    to[page * PAGE:(page + 1) * PAGE] = source[page * PAGE:(page + 1) * PAGE]


def settling(told):
    """The places of the calls that settle the file: pieces that are read and written again, longer than a page of a flash."""
    places, last, settles = set(), None, False
    for place, call in enumerate(told):
        if call.op not in "rw":
            continue
        if call.op == "w":
            goes_on = last is not None and last[1].op == "w" and is_rest(last[1], call)
            again = last is not None and last[1].op == "r" and call.length > MOST_PAGE and \
                (call.offset, call.length) == (last[1].offset, last[1].length)
            settles = again or (settles and goes_on)
            places |= {place} if settles else set()
            places |= {last[0]} if again else set()
        last = place, call
    return places


def is_rest(first, call):
    """Whether a write goes on where another one was short, or is made again behind an interruption."""
    return 0 < first.result < first.length and call.offset == first.offset + first.result or \
        first.error == EINTR and call.offset == first.offset


def operations(told):
    """Of each call whether the start-up has begun to read, and the changing operations of the flash that were begun and that were
    done by then. An operation is one write, and done with its sync; what comes before the first read of the flash makes it."""
    begun = done = 0
    reads, last, apart = False, None, settling(told)
    for place, call in enumerate(told):
        if call.op in "tnk":
            begun, done, reads, last = 0, 0, False, None
        elif call.op == "r":
            reads = reads or place not in apart
        elif call.op == "w" and reads and place not in apart:
            begun += not (last and is_rest(last, call))
            if call.result < 0 and call.error != EINTR or call.result == 0:  # (it is asked for, and not synced)
                done = begun
            last = call
        elif call.op in "dy" and reads:
            # (one that failed tells of its operation only where the program goes on)
            if is_done(call) or call.error != EINTR and place + 1 < len(told):
                done, last = begun, None
        yield call, reads, begun, done


def operations_done(told):
    done = 0
    for _, _, _, done in operations(told):
        pass
    return done


def put(image, data, beside=None):
    """The files as they are before a call, and those of the model."""
    for path, bytes_ in ((image, data), (f"{image}.new", beside), (f"{image}.disk", data or b""), (f"{image}.disk.dirty", b""),
                         (f"{image}.disk.listed", None if data is None else b"")):
        if os.path.lexists(path):
            os.remove(path)
        if bytes_ is not None:
            with open(path, "wb") as file:
                file.write(bytes_)


def taken(path):
    """The bytes of a file, or None where there is none."""
    if not os.path.exists(path):
        return None
    with open(path, "rb") as file:
        return file.read()
