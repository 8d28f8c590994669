#!/usr/bin/env python3
"""The host tool on damaged images: nothing that an image holds may crash it, or make it harm the image.

damaged.py TOOL [--seeds FIRST COUNT]    by default the 1,000 seeds from 0 on, the gate's
damaged.py TOOL --seeds N 1 --keep FILE  one image again, kept

Every seed damages one of a few volumes with files, removed files and folders. Even seeds change bytes anywhere; odd ones change
fields, and make the checksums of boot region, entry sets and up-case table right again, so that the damage goes deeper. Each
command of COMMANDS then runs on the image. It has to end within 10 seconds and 1 GiB of memory with a status from 0 to 3, with
one line on the standard error where it fails and none where not; one that fails or only looks leaves the image as it was; none
opens an image that `check` does not; and where `check` called the image consistent, it does so after a command that succeeded.
`cat` shows nothing where it fails, and else, in an image that is consistent, what this program reads by itself.
"""

import argparse
import collections
import os
import random
import resource
import signal
import struct
import subprocess
import sys
import tempfile

from image import ENTRY, Image, checksum

SECONDS = 10
MEMORY = 1 << 30
STAMP = ["--time", "2026-11-16T12:00:00Z"]
# sector and cluster size, FATs, label, clusters: few, since most of the time goes into copies of the image
VOLUMES = [
    (512, 512, 1, "", 200),
    (512, 1024, 2, "CARD", 150),
    (512, 4096, 1, "", 50),
    (512, 4096, 2, "", 50),
    (4096, 4096, 1, "CARD", 40),
    (512, 32768, 1, "", 24),
]
# the words of a command behind the image, and whether it changes the image; FILE, LONGER and DATA stand for a word each
COMMANDS = [
    (["check"], False),
    (["ls"], False),
    (["ls", "--long"], False),
    (["free"], False),
    (["map"], False),
    (["cat", "FILE"], False),
    (["write", "FILE", "DATA", *STAMP], True),
    (["write", "FILE", "DATA", "--append", *STAMP], True),
    (["truncate", "FILE", "0", *STAMP], True),
    (["truncate", "FILE", "LONGER", *STAMP], True),
    (["rm", "FILE"], True),
    (["new", "another file.csv", *STAMP], True),
]
NAMES = ["run", "chain", "other", "valid", "empty", "a rather long name of more than thirty units.csv", "steel", "@3"]
# what 1,000 images have to come to at the least, so that the verdict is not an empty one
LEAST = {
    "opened": 500, "consistent": 250, "succeeded on a consistent image": 1500, "refused": 700, "not opened": 150, "files read back": 150,
}  # fmt: skip


def fresh(tool, folder, sector, cluster, fats, label, clusters):
    """A volume with files in runs and chains, removed ones, a folder and a folder in it."""
    path = os.path.join(folder, "fresh")
    words = ["--size", "1M", "--sector", str(sector), "--cluster", str(cluster), "--fats", str(fats), "--label", label, *STAMP]
    subprocess.run([tool, "format", path, "--force", *words], check=True, stdout=subprocess.DEVNULL)
    with open(path, "r+b") as file:
        image = Image(file.read())
        length = image.heap + clusters * cluster
        image.put(72, struct.pack("<Q", length // sector))
        image.put(92, struct.pack("<I", clusters))
        image.mend_boot()
        file.seek(0)
        file.write(image.bytes[:length])
        file.truncate()
    lines = [f'new "{name}"' for name in [*NAMES[:6], "gone", "steel", "log.txt", "deep", "inner.txt"]]
    for turn in range(3):
        lines += [f"write {name} end random:{turn}*{cluster}" for name in ("chain", "other", "gone")]
    lines += [f"write run 0 random:7*{2 * cluster + 5}", f'write "{NAMES[5]}" 0 random:8*300', "write valid 0 random:9*100"]
    lines += [f"truncate valid {cluster + 9}"]
    lines += [f"write {name} 0 fill:0*{max(cluster, 1024)}" for name in ("steel", "deep")]
    lines += ["write log.txt 0 random:10*700", "write inner.txt 0 random:11*300", "rm gone"]
    text = "\n".join(lines)
    done = subprocess.run([tool, "replay", path, "-", *STAMP], input=text, text=True, capture_output=True)
    assert done.returncode == 0, done.stderr + done.stdout
    image = Image(open(path, "rb").read())
    image.fold(slot(image, "deep"), slot(image, "inner.txt"))
    image.fold(slot(image, "steel"), slot(image, "log.txt"))
    image.fold(slot(image, "steel"), slot(image, "deep"))
    return bytes(image.bytes)


def slot(image, name):
    places = image.places(image.root)
    units = name.encode("utf-16-le")[:30]
    files = (at for at, place in enumerate(places) if image.bytes[place] == 0x85)
    return next(at for at in files if image.bytes[places[at + 2] + 2:places[at + 2] + 2 + len(units)] == units)


def contents(data, name):
    """What the file of a name or slot holds in a consistent image, by its first FAT; None where damage hides the name."""
    image = Image(data)
    places = image.places(image.root)
    try:
        at = int(name[1:]) if name[0] == "@" else slot(image, name)
    except StopIteration:
        return None
    stream = places[at + 1]
    valid, first, length = struct.unpack_from("<Q4xIQ", image.bytes, stream + 8)
    count = -(-length // image.cluster)
    clusters = range(first, first + count) if image.bytes[stream + 1] & 2 else image.chain(first) if count else ()
    stored = b"".join(image.bytes[image.place(k):image.place(k) + image.cluster] for k in clusters)
    return stored[:valid] + bytes(length - valid)


class Damage:
    """One seed's changes of an image."""

    def __init__(self, data, seed):
        self.random = random.Random(seed)
        self.image = Image(data)
        self.root = self.image.places(self.image.root)
        steel = self.image.word(self.root[slot(self.image, "steel") + 1] + 20)
        self.steel = [self.image.place(steel) + at for at in range(0, self.image.cluster, ENTRY)]
        self.root_end = self.image.chain(self.image.root)[-1]
        self.used = [k for k in range(2, self.image.count + 2) if self.image.marked(k)]
        steps = self.deep() if seed % 2 else [self.raw]
        for _ in range(self.random.choice((1, 1, 1, 2, 3))):
            self.random.choice(steps)()
        # a zero over a zero is no damage
        while self.image.bytes == data:
            self.random.choice(steps)()

    def deep(self):
        often = [self.system, self.fat, self.file]
        return [self.boot, self.overlap, self.file, self.mark, self.table, self.inner, *often, *often]

    def raw(self):
        """Bytes somewhere, more often where much hangs on them."""
        image, pick = self.image, self.random
        heap = image.heap
        first, length = pick.choice([
            (0, 512), (0, 12 * image.sector), (image.fat, 4 * image.count), (image.fat, 256), (heap, 128),
            (self.root[0], 1024), (self.root[0], 1024), (self.steel[0], 256), (0, len(image.bytes)),
        ])
        at = first + pick.randrange(length)
        size = min(pick.choice((1, 1, 1, 2, 4, 32, 512)), len(image.bytes) - at)
        kind = pick.randrange(5)
        if kind == 0:
            data = bytes(size)
        elif kind == 1:
            data = b"\xff" * size
        elif kind == 2:
            data = pick.randbytes(size)
        elif kind == 3:
            data = bytes([image.bytes[at] ^ 1 << pick.randrange(8)])
        else:
            other = self.root[0] + ENTRY * pick.randrange(32)
            at, data = self.root[0] + ENTRY * pick.randrange(32), image.bytes[other:other + ENTRY]
        image.put(at, data)

    def cluster(self):
        """A cluster's number, or what is none."""
        pick, end = self.random, self.image.count + 2
        rare = [0, 1, end - 1, end, end + 1, 0x7FFFFFFF, 0xFFFFFFF6, 0xFFFFFFF7, 0xFFFFFFF8, 0xFFFFFFFF]
        return pick.choice([pick.choice(self.used), pick.choice(self.used[:14]), pick.randrange(2, end), pick.choice(rare)])

    def length(self):
        pick, size = self.random, self.image.cluster
        whole = size * self.image.count
        some = [0, 1, size - 1, size, size + 1, 2 * size, 3 * size, whole, whole + 1, 1 << 32, 1 << 63, (1 << 64) - 1]
        return pick.choice([pick.choice(some), pick.randrange(4 * size)])

    def boot(self):
        words = [(at, 4) for at in range(80, 104, 4)]
        at, size = self.random.choice([(72, 8), *words, (104, 2), (106, 2), (108, 1), (109, 1), (110, 1), (112, 1)])
        old = int.from_bytes(self.image.bytes[at:at + size], "little")
        top = (1 << 8 * size) - 1
        near = [old ^ 1 << self.random.randrange(8 * size), old + 1, old - 1, 0, top, self.random.randrange(1, 300), self.cluster()]
        self.image.put(at, (self.random.choice(near) & top).to_bytes(size, "little"))
        self.image.mend_boot()

    def system(self):
        """An entry of a bitmap or of the up-case table."""
        image, pick = self.image, self.random
        entries = self.root[:3]
        at = pick.choice(entries)
        pick.choice([
            lambda: image.put(at + 20, struct.pack("<I", self.cluster())),
            lambda: image.put(at + 20, struct.pack("<I", self.random.choice(self.used[:14]))),
            lambda: image.put(at + 20, struct.pack("<I", image.word(pick.choice(entries) + 20))),
            lambda: image.put(at + 24, struct.pack("<Q", self.length())),
            lambda: image.put(at + 24, struct.pack("<I", image.word(at + 24) + pick.choice((-1, 1, image.cluster)) & 0xFFFFFFFF)),
            lambda: image.put(at, bytes([pick.choice((0x01, 0x81, 0x82, 0x83, 0xA0, 0x85))])),
            lambda: image.put(at + 1, bytes([image.bytes[at + 1] ^ 1])),
        ])()

    def overlap(self):
        """A bitmap, the up-case table or the root laid over another of them."""
        image, pick = self.image, self.random
        entries = [at for at in self.root[:4] if image.bytes[at] in (0x81, 0x82)] or self.root[:2]
        over = struct.pack("<I", image.word(pick.choice(entries) + 20) + pick.randrange(2) & 0xFFFFFFFF)
        if pick.random() < 0.7:
            image.put(pick.choice(entries) + 20, over)
        else:
            for fat in range(image.fats):
                image.put(image.fat_entry(self.root_end, fat), over)

    def change_set(self, places, slot):
        """A field of a set; its checksum is made right."""
        image, pick = self.image, self.random
        entries = image.set_at(places, slot)
        file, stream, name = (entries + entries)[:3] if len(entries) < 3 else entries[:3]
        pick.choice([
            lambda: image.put(stream + 20, struct.pack("<I", self.cluster())),
            lambda: image.put(stream + 20, struct.pack("<I", pick.choice(self.used))),
            lambda: image.put(stream + 24, struct.pack("<Q", self.length())),
            lambda: image.put(stream + 8, struct.pack("<Q", self.length())),
            lambda: image.put(stream + 1, bytes([pick.randrange(8)])),
            lambda: image.put(stream + 3, bytes([pick.randrange(256)])),
            lambda: image.put(stream + 4, pick.randbytes(2)),
            lambda: image.put(file + 4, pick.randbytes(1)),
            lambda: image.put(file + 8, pick.randbytes(18)),
            lambda: image.put(file + 1, bytes([pick.choice((0, 1, 2, 3, 4, 18, 19, 255))])),
            lambda: image.put(name + 2 + 2 * pick.randrange(15), pick.choice(("/", "\x1b", "\u202e")).encode("utf-16-le")),
            lambda: image.put(name + 2 + 2 * pick.randrange(15), pick.randbytes(2)),
            lambda: image.put(pick.choice(entries), bytes([pick.choice((0, 0x05, 0x40, 0x85, 0xC0, 0xC1, 0xE0))])),
        ])()
        image.mend_set(places, slot)

    def file(self):
        files = [at for at, place in enumerate(self.root) if self.image.bytes[place] == 0x85]
        if files:
            self.change_set(self.root, self.random.choice(files))

    def inner(self):
        files = [at for at, place in enumerate(self.steel) if self.image.bytes[place] == 0x85]
        if files:
            self.change_set(self.steel, self.random.choice(files))

    def fat(self):
        anywhere = self.random.randrange(2, self.image.count + 2)
        cluster, value = self.random.choice([*self.used, *self.used[:14], anywhere]), self.cluster()
        for fat in self.random.choice(([0], range(self.image.fats))):
            self.image.put(self.image.fat_entry(cluster, fat), struct.pack("<I", value))

    def mark(self):
        cluster = self.random.choice([self.random.choice(self.used), self.random.randrange(2, self.image.count + 2)])
        self.image.mark(cluster, self.random.random() < 0.5)

    def table(self):
        """The up-case table, with its checksum made right."""
        image = self.image
        entry = next((at for at in self.root[:4] if image.bytes[at] == 0x82), None)
        first = image.word(entry + 20) if entry is not None else 0
        length = image.word(entry + 24) if entry is not None else 0
        if not 2 <= first < image.count + 2 or image.place(first) + length > len(image.bytes):
            return
        at = image.place(first) + 2 * self.random.randrange(1 + length // 2)
        image.put(at, self.random.choice((b"\0\0", b"\xff\xff", b"a\0")))
        table = image.bytes[image.place(first):image.place(first) + length]
        image.put(entry + 4, struct.pack("<I", checksum(table, (), 32)))


class Runs:
    """Commands on one image file, with what is wrong about them."""

    def __init__(self, tool, folder):
        self.tool = tool
        self.path = os.path.join(folder, "image")
        self.data = os.path.join(folder, "data")
        self.output = os.path.join(folder, "output")
        self.error = os.path.join(folder, "error")
        with open(self.data, "wb") as file:
            file.write(random.Random(0).randbytes(3000))
        self.counts = collections.Counter()
        self.child = 0
        # of this program too, and so of those that it starts
        resource.setrlimit(resource.RLIMIT_AS, (MEMORY, MEMORY))
        signal.signal(signal.SIGALRM, lambda *_: os.kill(self.child, signal.SIGKILL))

    def run(self, words):
        """The status, or what kind of end it was; and what is on the standard error."""
        self.counts["commands"] += 1
        quiet = (os.POSIX_SPAWN_OPEN, 0, "/dev/null", os.O_RDONLY, 0)
        how = os.O_WRONLY | os.O_CREAT | os.O_TRUNC, 0o600
        kept = [(os.POSIX_SPAWN_OPEN, fd, path, *how) for fd, path in ((1, self.output), (2, self.error))]
        self.child = os.posix_spawn(self.tool, [self.tool, *words], os.environ, file_actions=[quiet, *kept])
        signal.alarm(SECONDS)
        status = os.waitstatus_to_exitcode(os.waitpid(self.child, 0)[1])
        signal.alarm(0)
        with open(self.error, errors="replace") as file:
            return status, file.read()

    def image(self, data, pick):
        """What is wrong about the commands on an image."""
        name = pick.choice(NAMES)
        longer = str(pick.choice((5000, 40000, 70000, 2000000)))
        before, wrong = None, []
        self.store(data)
        for words, changes in COMMANDS:
            words = [{"FILE": name, "LONGER": longer, "DATA": self.data}.get(word, word) for word in words]
            words.insert(1, self.path)
            status, error = self.run(words)
            after = self.load()
            say = lambda what: wrong.append(f"{' '.join(words)}: status {status}: {what} {error.strip()}")
            if status not in range(4):
                say("it has to be from 0 to 3:")
            if error.count("\n") != (status != 0):
                say("a failure is one line:")
            if after != data and (status != 0 or not changes):
                say("the image is changed:")
            if words[0] == "cat":
                shown = self.load(self.output)
                if status != 0 and shown:
                    say(f"shows {len(shown)} bytes:")
                wanted = contents(data, name) if status == 0 and before == 0 and not data[106] & 1 else None
                if wanted is not None:
                    self.counts["files read back"] += 1
                    if shown != wanted:
                        say(f"shows {len(shown)} bytes, other than the file's {len(wanted)}:")
            if before is None:
                before = status
                self.counts["opened" if status != 3 else "not opened"] += 1
                self.counts["consistent"] += status == 0
            if (status == 3) != (before == 3):
                say("opened by one command and not by another:")
            self.counts["refused"] += changes and status in (1, 2)
            if changes and status == 0 and before == 0:
                self.counts["succeeded on a consistent image"] += 1
                check, told = self.run(["check", self.path])
                if check != 0:
                    say(f"consistent before, and then check has status {check}: {told.strip()}")
            if after != data:
                self.store(data)
        return wrong

    def store(self, data):
        with open(self.path, "wb") as file:
            file.write(data)

    def load(self, path=None):
        with open(path or self.path, "rb") as file:
            return file.read()


def main():
    words = argparse.ArgumentParser()
    words.add_argument("tool")
    words.add_argument("--seeds", nargs=2, type=int, default=(0, 1000), metavar=("FIRST", "COUNT"))
    words.add_argument("--keep", metavar="FILE")
    words = words.parse_args()
    tool = os.path.abspath(words.tool)
    failed = 0
    # in memory where it can be: each change of an image is synced
    memory = "/dev/shm" if os.access("/dev/shm", os.W_OK) else None
    with tempfile.TemporaryDirectory(dir=memory) as folder:
        volumes = [fresh(tool, folder, *kind) for kind in VOLUMES]
        runs = Runs(tool, folder)
        for number, data in enumerate(volumes):
            runs.store(data)
            assert runs.run(["check", runs.path])[0] == 0, f"volume {number} is not consistent before any damage"
        first, count = words.seeds
        for seed in range(first, first + count):
            # even and odd seeds go through all volumes
            damage = Damage(volumes[seed // 2 % len(volumes)], seed)
            if words.keep:
                with open(words.keep, "wb") as file:
                    file.write(damage.image.bytes)
            wrong = runs.image(bytes(damage.image.bytes), random.Random(seed))
            failed += bool(wrong)
            for line in wrong:
                print(f"damaged: FAILED seed {seed}: {line}", file=sys.stderr)
    told = ", ".join(f"{runs.counts[what]} {what}" for what in ("commands", *LEAST))
    print(f"damaged: {count} images, {failed} failed: {told}")
    thin = [what for what, least in LEAST.items() if count >= 1000 and runs.counts[what] < least]
    if thin:
        print(f"damaged: FAILED, too few of: {', '.join(thin)}", file=sys.stderr)
    sys.exit(1 if failed or thin else 0)


if __name__ == "__main__":
    main()
