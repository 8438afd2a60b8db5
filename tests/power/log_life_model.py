#!/usr/bin/env python3
"""A model of a log's life beside its image, at a small size: names, files, syncs, kills and power losses.

    tests/power/log_life_model.py [--amount CRASHES] [--seed N]

It is written from docs/LOG.md. Programs run on a folder: `serve`, which begins a log, commits to it, renews it when it
is full and lands it at the end; `play`, which lands a log and then changes IMAGE itself; and `replace`, which lands a log
and then puts another image in IMAGE's place. Each is stopped at a random
call, by a kill or by a power loss, during recoveries too. A power loss keeps any of the unsynced changes of names, and
tears each unsynced write: every byte of it comes or stays out. Each image that the next program finds must be one that
was there since the last confirmed change. IMAGE is tagged while a service's log has the rest: no power loss leaves it tagged
without a log, or untagged and older. Now and then somebody puts another IMAGE there, damages the log, puts a file of
another kind at a name of it, or takes the log's name away under a service. The same is then tried with one step left out:
the model must find that wrong, or it would be blind."""
import collections
import random
import sys
from pathlib import Path

sys.dont_write_bytecode = True
sys.path.insert(0, str(Path(__file__).resolve().parents[1] / "lib"))
from trial import conduct

SECTORS, WIDTH, PER = 4, 2, 2       # sectors of IMAGE, bytes of a sector, sectors of a block
HEAD = 3                            # count of zeros, kind, number of sectors
BLOCK = HEAD + PER * (1 + WIDTH)
BLOCKS = 9                          # blocks of a log; the mark stands behind them
LENGTH = BLOCK * BLOCKS + 1
MORE, LAST = 1, 2
TAGGED, TAG = 1, b'LA'              # the sector of IMAGE that has the tag behind its bytes
TAG_AT = (TAGGED + 1) * WIDTH
BASE = SECTORS // PER               # blocks of a commit, at most

# each step that may be left out, and what is expected to go wrong without it
STEPS = {
    'commit': 'a commit is confirmed before the log is synced',
    'mark': 'IMAGE is written before the mark is synced',
    'image': 'the log is removed before IMAGE is synced',
    'removed': 'the folder is not synced after the removal',
    'settled': 'IMAGE is not synced at the beginning',
    'begin': 'the folder is not synced at the beginning',
    'made': 'the new log is named before it is synced',
    'replaced': 'the log of a replacement is named before it is synced',
    'kept base': 'the log of a replacement has the new image as its base',
    'making': 'the folder is not synced before the renaming',
    'named': 'the folder is not synced after the renaming',
    'zeros': 'a full log is written again in place',
    'judge': 'a log is landed on any image',
    'marked alone': 'a marked log is landed on any image',
    'wins': 'IMAGE is taken though a log is there',
    'mark again': 'a reader doesn\'t look for the mark again after it read IMAGE',
    'name again': 'a reader of a marked log doesn\'t look for its name after it read IMAGE',
    'log first': 'a reader reads IMAGE before the log',
    'lock': 'a reader may look before the log stands',
    'backwards': 'a reader reads the first block of the log first',
    'again': 'a reader takes all whole blocks when it reads them again',
    'damage': 'a log that is damaged before its end is landed',
    'looks': 'a service doesn\'t look for the log\'s name before it lands it',
    'length': 'the length of a new log is not synced first',
    'foreign': 'a file that is no log in the making is removed',
    'tag': 'IMAGE is not tagged once the log of a service has its name',
    'tag first': 'IMAGE is tagged before the log has its name',
    'tag named': 'IMAGE is tagged before the name of the log is synced',
    'tag kept': 'a sector that is written takes the tag away',
    'tag taken': 'the log is removed before it is synced that the tag was taken away',
    'tag early': 'the tag is taken away before IMAGE is synced',
}


class Wrong(Exception):
    """A promise was broken."""


class Refused(Exception):
    """The log is of another image, or damaged; or another file stands at a name of it."""


class Gone(Exception):
    """The log's name doesn't lead to the log of a service."""


class Disk:
    """Files with numbers, and the names that lead to them; what is seen, and what is on the disk."""

    def __init__(self):
        self.seen, self.kept, self.writes = [], [], []
        self.names, self.kept_names, self.changes = {}, {}, []

    def create(self, name):
        number = len(self.seen)
        self.seen.append(bytearray())
        self.kept.append(bytearray())
        self.writes.append([])
        self.names[name] = number
        self.changes.append(('lead', name, number))
        return number

    def write(self, number, at, data):
        put(self.seen[number], at, data)
        self.writes[number].append((at, bytes(data)))

    def lengthen(self, number, size):
        put(self.seen[number], size, b'')
        self.writes[number].append((size, None))

    def sync(self, number):
        self.kept[number] = bytearray(self.seen[number])
        self.writes[number] = []

    def rename(self, old, new):
        self.names[new] = self.names.pop(old)
        self.changes.append(('move', old, new))

    def remove(self, name):
        del self.names[name]
        self.changes.append(('remove', name, None))

    def sync_folder(self):
        self.kept_names, self.changes = dict(self.names), []

    def lose_power(self, rng):
        for what, name, other in self.changes:
            if rng.random() < .5:
                continue
            if what == 'lead':
                self.kept_names[name] = other
            elif name in self.kept_names:
                number = self.kept_names.pop(name)
                if what == 'move':
                    self.kept_names[other] = number
        for number, data in enumerate(self.kept):
            style = rng.choice(('bytes', 'writes', 'none', 'all'))
            for at, new in self.writes[number]:
                whole = rng.random() < .5
                if new is None:
                    put(data, at if whole else 0, b'')
                    continue
                for i, byte in enumerate(new):
                    comes = {'bytes': rng.random() < .5, 'writes': whole, 'none': False, 'all': True}[style]
                    put(data, at + i, bytes([byte]) if comes else data[at + i:at + i + 1] or b'\0')
        self.seen = [bytearray(data) for data in self.kept]
        self.writes = [[] for _ in self.kept]
        self.names, self.changes = dict(self.kept_names), []


def place(i):
    """Where sector i of IMAGE begins."""
    return i * WIDTH + (len(TAG) if i > TAGGED else 0)


def put(data, at, new):
    if len(data) < at + len(new):
        data.extend(bytes(at + len(new) - len(data)))
    data[at:at + len(new)] = new


def blocks_of(sectors):
    """The blocks of a commit with these sectors, a list of indices and bytes."""
    parts = [sectors[i:i + PER] for i in range(0, len(sectors), PER)]
    out = bytearray()
    for k, part in enumerate(parts):
        block = bytearray(BLOCK)
        block[1] = LAST if k == len(parts) - 1 else MORE
        block[2] = len(part)
        for j, (index, data) in enumerate(part):
            at = HEAD + j * (1 + WIDTH)
            block[at] = index + 1
            block[at + 1:at + 1 + WIDTH] = data
        block[0] = block[1:].count(0)
        out += block
    return bytes(out)


def read_log(data):
    """The base, the image, whether the mark is there, and whether one torn commit is all that stands after the whole ones;
    None if there is no base."""
    if len(data) != LENGTH:
        return None
    blocks = [data[q * BLOCK:(q + 1) * BLOCK] for q in range(BLOCKS)]
    first, end, is_torn = ends_of(blocks)
    return (replay(blocks[:first]), replay(blocks[:end]), data[-1] != 0, is_torn) if first else None


def ends_of(blocks):
    """How many blocks the base takes, and the whole commits; and whether a torn commit is all that stands after them."""
    whole = next((q for q, block in enumerate(blocks) if not is_whole(block)), len(blocks))
    ends = [q + 1 for q in range(whole) if blocks[q][1] == LAST]
    first, end = (ends[0], ends[-1]) if ends else (0, 0)
    return first, end, ends_torn(blocks, end)


def replay(blocks):
    """The image with the sectors of these blocks."""
    image = [bytes(WIDTH)] * SECTORS
    for block in blocks:
        for j in range(min(block[2], PER)):
            at = HEAD + j * (1 + WIDTH)
            image[block[at] - 1] = bytes(block[at + 1:at + 1 + WIDTH])
    return image


def is_whole(block):
    return block[0] == block[1:].count(0) and block[1] in (MORE, LAST)


def ends_torn(blocks, end):
    """Whether one torn commit is all that stands after the first blocks, if anything does."""
    written = max((q + 1 for q in range(end, BLOCKS) if any(blocks[q])), default=end)
    return written <= end + BASE and not any(is_whole(it) and it[1] == LAST for it in blocks[end:max(end, written - 1)])


def is_mix(image, base, shop):
    """Whether each byte of an image is as one of the two others has it."""
    return all(byte in pair for one, *two in zip(image, base, shop) for byte, pair in zip(one, zip(*two)))


def is_of(image, base, shop, marked):
    """Whether a log is of this image: it is the base, or the log is marked and was being brought there."""
    return image == base or marked and is_mix(image, base, shop)


class World:
    """A folder, and the images that may be found there: those since the last one that was confirmed."""

    def __init__(self, rng, without):
        self.rng, self.without, self.disk = rng, without, Disk()
        self.image = self.disk.create('IMAGE')
        first = [bytes((1 + rng.randrange(3), rng.randrange(3))) for _ in range(SECTORS)]
        self.put_image(first)
        self.disk.sync(self.image)
        self.disk.sync_folder()
        self.may_be, self.confirmed = [first], 0
        self.shared, self.reader, self.views, self.serving, self.replacing = True, None, 0, False, False

    def sectors(self):
        data = self.disk.seen[self.image]
        return [bytes(data[place(i):place(i) + WIDTH]) for i in range(SECTORS)]

    def put_image(self, image):
        for i, sector in enumerate(image):
            self.disk.write(self.image, place(i), sector + bytes(len(TAG) if i == TAGGED else 0))

    def has_tag(self):
        return any(self.disk.seen[self.image][TAG_AT:TAG_AT + len(TAG)])

    def see_tag(self):
        """A tag stands there only with a log; and without it IMAGE has all that was confirmed, unless it is being replaced."""
        if 'LOG' not in self.disk.names:
            if self.has_tag():
                raise Wrong('IMAGE says that its log is away')
        elif not self.has_tag() and not self.replacing and self.sectors() not in self.may_be[self.confirmed:]:
            raise Wrong('IMAGE is older, and does not say so')

    def find(self, image):
        """A program found this image: is it one of those that may be there?"""
        if image not in self.may_be[self.confirmed:]:
            raise Wrong('an image that never was, or one from before a confirmed change')
        self.may_be, self.confirmed = [list(image)], 0

    # Readers stop (yield) before each call too.
    def read_image(self):
        image = []
        for i in range(SECTORS):
            image.append(self.sectors()[i])
            yield
        return image

    def read_block(self, log, q):
        """A block of a log, read in pieces."""
        data, at, end = bytearray(), q * BLOCK, q * BLOCK + BLOCK
        while at < end:
            to = min(end, at + self.rng.choice((1, 3, BLOCK)))
            data += self.disk.seen[log][at:to]
            at = to
            yield
        return data

    def view(self):
        """A reader's look: the image that it sees must be one since the last change that was confirmed when it began."""
        disk, least, image = self.disk, self.confirmed, None
        if self.without == 'log first':
            image = yield from self.read_image()
        log = disk.names.get('LOG')
        if log is None:
            if image is None:
                image = yield from self.read_image()
        else:
            mark = bytes(disk.seen[log][-1:])
            yield
            order = range(BLOCKS) if self.without == 'backwards' else range(BLOCKS - 1, -1, -1)
            blocks = {}
            for q in order:
                blocks[q] = yield from self.read_block(log, q)
            first, end, is_torn = ends_of([blocks[q] for q in range(BLOCKS)])
            if not first or not is_torn:
                raise Wrong('a reader is refused')
            # whole commits stay as they are: they are read again
            again = []
            for q in range(BLOCKS if self.without == 'again' else end):
                block = yield from self.read_block(log, q)
                if not is_whole(block):
                    break
                again.append(block)
            if image is None:
                image = yield from self.read_image()
            found = (replay(again[:first]), replay(again), mark != b'\0')
            # a writer judged the log if it landed it meanwhile: it got its mark, or it had that and lost its name
            if found[2]:
                landed = self.without != 'name again' and disk.names.get('LOG') != log
            else:
                landed = self.without != 'mark again' and disk.seen[log][-1] != 0
            if not landed and not is_of(image, *found):
                raise Wrong('a reader is refused')
            image = found[1]
        if image not in self.may_be[least:]:
            raise Wrong('a reader sees an image that never was, or one from before a confirmed change')

    def look_on(self, steps):
        """A reader goes on beside a program; if there is none, one may begin."""
        if self.reader is None and (self.shared or self.without == 'lock') and self.rng.random() < .2:
            self.reader = self.view()
        for _ in range(steps if self.reader else 0):
            try:
                next(self.reader)
            except StopIteration:
                self.reader, self.views = None, self.views + 1
                return

    # Each program stops (yields) before each call.
    def bring(self, log, image):
        disk, without = self.disk, self.without
        yield
        disk.write(log, BLOCK * BLOCKS, b'\1')
        yield
        if without != 'mark':
            disk.sync(log)
            yield
        yield from self.write_image(image)

    def write_image(self, image):
        disk, without = self.disk, self.without
        now = self.sectors()
        for i in range(SECTORS):
            if now[i] != image[i]:
                tag = bytes(disk.seen[self.image][TAG_AT:TAG_AT + len(TAG)]) if i == TAGGED else b''
                disk.write(self.image, place(i), image[i] + (bytes(len(tag)) if without == 'tag kept' else tag))
                yield
        if without == 'tag early':
            yield from self.untag()
        if without != 'image':
            disk.sync(self.image)
            yield

    def untag(self):
        if self.has_tag():
            self.disk.write(self.image, TAG_AT, bytes(len(TAG)))
            yield

    def tag(self):
        if self.without != 'tag':
            self.disk.write(self.image, TAG_AT, TAG)
            yield
            self.disk.sync(self.image)
            yield

    def unlog(self):
        if self.has_tag():
            yield from self.untag()
            if self.without != 'tag taken':
                self.disk.sync(self.image)
                yield
        self.disk.remove('LOG')
        self.replacing = False
        yield
        if self.without != 'removed':
            self.disk.sync_folder()
            yield

    def land(self):
        disk, without = self.disk, self.without
        if without != 'settled':
            disk.sync(self.image)
            yield
        if without != 'begin':
            disk.sync_folder()
            yield
        self.see_tag()
        if 'LOG' not in disk.names:
            return self.sectors()
        log = disk.names['LOG']
        found = read_log(disk.seen[log])
        if found is None:
            raise Refused('no base')
        base, image, marked, is_torn = found
        if not is_torn and without != 'damage':
            raise Refused('damaged')
        if not (without == 'judge' or marked and without == 'marked alone' or is_of(self.sectors(), base, image, marked)):
            raise Refused('of another image')
        if without == 'wins':
            image = self.sectors()
        yield from self.bring(log, image)
        yield from self.unlog()
        return image

    def make(self, image):
        disk, without = self.disk, self.without
        log = yield from self.lay_out()
        disk.write(log, 0, bytes(LENGTH))
        yield
        disk.sync(log)
        yield
        base = blocks_of(list(enumerate(image)))
        disk.write(log, 0, base)
        yield
        if without != 'made':
            disk.sync(log)
            yield
        if without != 'making':
            disk.sync_folder()
            yield
        if without == 'tag first':
            yield from self.tag()
        disk.rename('NEW', 'LOG')
        yield
        if without == 'tag named':
            yield from self.tag()
        if without != 'named':
            disk.sync_folder()
            yield
        yield from self.tag()
        return log, BASE

    def lay_out(self):
        """A file of zeros as long as a log, in the place of one that a run before left."""
        disk = self.disk
        if 'NEW' in disk.names:
            if self.without != 'foreign' and len(disk.seen[disk.names['NEW']]) not in (0, LENGTH):
                raise Refused('another file stands where a log is made')
            disk.remove('NEW')
            yield
        log = disk.create('NEW')
        yield
        disk.lengthen(log, LENGTH)
        yield
        if self.without != 'length':
            disk.sync(log)
            yield
        return log

    def look(self, log):
        """A service looks whether the log's name leads to its log."""
        if self.disk.names.get('LOG') != log:
            raise Gone

    def change(self, image, most):
        image = list(image)
        touched = sorted(self.rng.sample(range(SECTORS), self.rng.randint(1, most)))
        for i in touched:
            image[i] = bytes((1 + self.rng.randrange(3), self.rng.randrange(256)))
        self.may_be.append(image)
        return image, touched

    def serve(self):
        disk = self.disk
        image = yield from self.land()
        self.find(image)
        log, end = yield from self.make(image)
        self.shared = self.serving = True
        for _ in range(self.rng.randrange(7)):
            image, touched = self.change(image, 3)
            here = len(self.may_be) - 1
            data = blocks_of([(i, image[i]) for i in touched])
            if self.without == 'commit':
                self.confirmed = here
                yield
            at = 0
            while at < len(data):
                piece = data[at:at + self.rng.randint(1, BLOCK)]
                disk.write(log, BLOCK * end + at, piece)
                at += len(piece)
                yield
            disk.sync(log)
            self.look(log)
            self.confirmed = here
            yield
            end += len(data) // BLOCK
            if end + BASE > BLOCKS:
                self.look(log)
                self.serving = False
                yield from self.bring(log, image)
                if self.without == 'zeros':
                    disk.write(log, BLOCK * BLOCKS, b'\0')
                    disk.write(log, 0, blocks_of(list(enumerate(image))))
                    yield
                    disk.sync(log)
                    yield
                    end = BASE
                else:
                    log, end = yield from self.make(image)
                self.serving = True
        if self.without != 'looks':
            self.look(log)
        self.serving = False
        yield from self.bring(log, image)
        yield from self.unlog()

    def replace(self):
        disk, without = self.disk, self.without
        image = yield from self.land()
        self.find(image)
        new, touched = self.change(image, SECTORS)
        here = len(self.may_be) - 1
        log = yield from self.lay_out()
        base = new if without == 'kept base' else image
        disk.write(log, 0, blocks_of(list(enumerate(base))) + blocks_of([(i, new[i]) for i in touched]))
        yield
        disk.write(log, BLOCK * BLOCKS, b'\1')
        yield
        if without != 'replaced':
            disk.sync(log)
            yield
        if without != 'making':
            disk.sync_folder()
            yield
        disk.rename('NEW', 'LOG')
        self.replacing = True
        yield
        if without != 'named':
            disk.sync_folder()
            yield
        self.confirmed = here
        yield from self.write_image(new)
        yield from self.unlog()

    def play(self):
        image = yield from self.land()
        self.find(image)
        for _ in range(2):
            index = self.rng.randrange(SECTORS)
            image = list(image)
            image[index] = image[index][:1] + bytes([self.rng.randrange(256)])
            self.may_be.append(image)
            here = len(self.may_be) - 1
            self.disk.write(self.image, place(index) + 1, image[index][1:])
            yield
            self.disk.sync(self.image)
            self.confirmed = here
            yield

    def swap(self):
        """After a crash someone puts another image in place of IMAGE. A log of the old one must be refused."""
        self.disk.sync(self.image)
        other = [bytes((9, self.rng.randrange(256))) for _ in range(SECTORS)]
        self.put_image(other)
        self.disk.sync(self.image)
        self.replacing = True
        log = self.disk.names.get('LOG')
        found = None if log is None else read_log(self.disk.seen[log])
        try:
            for _ in self.land():
                pass
        except Refused:
            return
        if found:
            raise Wrong('a log was landed on another image')

    def hurt(self):
        """A byte of a commit is lost that isn't one of the last two. This must be refused, and never be an older image."""
        log = self.disk.names.get('LOG')
        if log is None or read_log(self.disk.seen[log]) is None:
            return
        data = self.disk.seen[log]
        ends = [q for q in range(BLOCKS) if data[q * BLOCK + 1] == LAST and is_whole(data[q * BLOCK:q * BLOCK + BLOCK])]
        hurt = [at for at in range(ends[-3] * BLOCK + BLOCK if len(ends) > 2 else 0) if data[at]]
        if not hurt:
            return
        data[self.rng.choice(hurt)] = 0
        try:
            for _ in self.land():
                pass
        except Refused:
            return
        raise Wrong('a damaged log was landed')

    def put_notes(self):
        """Somebody's file where a log is made must stay."""
        if 'NEW' in self.disk.names:
            self.disk.remove('NEW')
        number = self.disk.create('NEW')
        self.disk.write(number, 0, b'notes')
        try:
            for _ in self.serve():
                pass
        except Refused:
            pass
        if self.disk.names.get('NEW') != number:
            raise Wrong('a file that is no log was removed')

    def take_log(self):
        """Somebody takes the log's name away under a service, and may put another file there. Nothing may be removed then, and
        IMAGE stays."""
        calls, put_there, before, self.serving = self.rng.randint(1, 60), None, None, False
        try:
            for _ in self.serve():
                calls -= 1
                if calls < 0 and before is None and self.serving:
                    self.disk.rename('LOG', 'KEPT')
                    if self.rng.random() < .5:
                        put_there = self.disk.create('LOG')
                    before = self.sectors()
        except (Gone, KeyError):
            pass
        if before is not None and (self.disk.names.get('LOG') != put_there or self.sectors() != before):
            raise Wrong('a service landed a log whose name had gone')


def run(world, program, calls=10 ** 9):
    """Runs a program for so many calls, with readers beside it."""
    world.shared = False
    for _ in program:
        calls -= 1
        if calls == 0:
            break
        world.look_on(world.rng.randrange(6))
    world.shared = True


def day(seed, without):
    """Programs one after another, each stopped somewhere. Returns how many times one was stopped, and the views."""
    rng = random.Random(seed)
    world, stops = World(rng, without), rng.randint(1, 6)
    for _ in range(stops):
        program = rng.choice((world.serve, world.serve, world.play, world.replace))
        run(world, program(), rng.choice((10 ** 9, rng.randint(1, 80), rng.randint(1, 40), rng.randint(1, 15))))
        if rng.random() < .7:
            world.reader = None
            world.disk.lose_power(rng)
        # what begins to write waits for readers
        world.look_on(10 ** 9)
    end = rng.random()
    if end < .4:
        (world.swap, world.hurt, world.put_notes, world.take_log)[int(end * 10)]()
    else:
        run(world, world.serve())
    return stops, world.views


def days(crashes, seed, without=None):
    count, views, wrong = 0, 0, collections.Counter()
    while count < crashes:
        try:
            stops, looks = day(seed, without)
            count, views = count + stops, views + looks
        except (Wrong, Refused) as fault:
            wrong[f'{type(fault).__name__}: {fault}'] += 1
            count += 1
        seed += 1
    return count, views, wrong


def main(given):
    seed = given.seed
    count, views, wrong = days(given.amount, seed)
    print(f'as designed: {count} crash states, {views} views, {sum(wrong.values())} wrong {dict(wrong) or ""}')
    blind = []
    for step, words in STEPS.items():
        tries, most, found = 0, 200000, collections.Counter()
        while not found and tries < most:
            n, _, found = days(given.amount, seed + tries, step)
            tries += n
        print(f'{words}: {tries} crash states, {sum(found.values())} wrong')
        if not found:
            blind.append(step)
    if blind:
        print(f'no state is wrong without: {blind}')
    return count + views - sum(wrong.values()) + len(STEPS) - len(blind), sum(wrong.values()) + len(blind)


if __name__ == '__main__':
    conduct(main, wants_program=False)
