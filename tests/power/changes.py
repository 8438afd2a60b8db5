"""Commands that change a disk, drawn with a disk that they change, for the scripts that cut such a command off."""

import shutil

from record_disks import DATA, POINTERS, RELATIVE, Disk, line_of, sectors_of
from served import run, sure, want

IMAGE = "disk.d64"
WORDS = ("repair", "repair --sides", "make", "store", "put", "rename", "title", "lock", "unlock", "delete", "undelete", "sort", "format")
RENAMED = "RENAMED"


class Change:
    """A command, the image that it is given and the one that it leaves, and how it ends; then how the same command ends on that one."""

    def __init__(self, program, folder, words, before):
        self.program, self.folder, self.words, self.before = program, folder, words, before
        image = self.put({IMAGE: before})
        self.end = self.again(image)
        want(self.end[0] == 0, f"{words}: {self.end}")
        self.after = image.read_bytes()
        want(self.after != before, f"{words} changes nothing")
        self.end_again = self.again(image)
        want(image.read_bytes() == self.after, f"{words} changes something once more")

    def put(self, files):
        """Has these files in the folder, and no others; returns the image's path."""
        shutil.rmtree(self.folder, ignore_errors=True)
        self.folder.mkdir()
        for name, held in files.items():
            (self.folder / name).write_bytes(held)
        return self.folder / IMAGE

    def over(self, image):
        """The command's words over an image."""
        return [self.program, self.words[0], image, *self.words[1:]]

    def again(self, image):
        return run(*self.over(image))

    def seen(self, image, copied):
        """The image that readers find, or why they find none."""
        copied.unlink(missing_ok=True)
        status, _, err = run(self.program, "copy", image, copied)
        return err if status else copied.read_bytes()

    def ends(self, image, found):
        """What isn't so if the command is run once more where readers find this image, or None."""
        wanted = self.end if found == self.before else self.end_again
        ended = self.again(image)
        if ended != wanted:
            return f"the command once more ends with {ended}"
        if image.read_bytes() != self.after:
            return "the command once more leaves another image"
        return None if [it.name for it in image.parent.iterdir()] == [IMAGE] else "a log is left"


class Draw:
    """Draws disks and commands."""

    def __init__(self, program, folder, draw):
        self.program, self.folder, self.draw = program, folder, draw

    def change(self, word):
        """A command of that word, and a disk for it."""
        draw, disk = self.draw, self.disk()
        length = str(draw.randint(1, 254))
        words = {
            "repair": ("repair", "--free", "--accept-loss"),
            "repair --sides": ("repair", "--sides", "--free", "--accept-loss"),
            "make": ("make", "NEW", "--length", length),
            "store": ("store", "FILE0", self.lines(draw.randint(1, 90), Disk(disk).find(b"FILE0").length)),
            "put": ("put", "NEW", self.source(30_000), "--type", draw.choice(["prg", "seq", "usr"])),
            "rename": ("rename", "FILE0", RENAMED),
            "title": ("title", "--name", RENAMED, "--id", length.rjust(2, "0")[:2]),
            "lock": ("lock", draw.choice(["FILE0", "PROGRAM"])),
            "unlock": ("unlock", draw.choice(["FILE0", "PROGRAM"])),
            "delete": ("delete", draw.choice(["FILE0", "PROGRAM"])),
            "undelete": ("undelete", *draw.choice([("PROGRAM", "--type", "usr"), ("FILE0", "--type", "rel")])),
            "sort": ("sort",),
            "format": ("format", "--tills", "4"),
        }[word]
        if words[0] == "repair":
            disk = self.hurt(disk, word.endswith("--sides"))
        if word in ("unlock", "undelete"):
            disk = Change(self.program, self.folder / "state", (word.removeprefix("un"), words[1]), disk).after
        return Change(self.program, self.folder / "state", words, disk)

    def disk(self):
        """A shop's disk with relative files and a program."""
        image = self.folder / "made.d64"
        image.unlink(missing_ok=True)
        sure(self.program, "format", image, "--tills", self.draw.choice([1, 9]))
        for number in range(self.draw.randint(1, 8)):
            length = self.draw.randint(1, 254)
            sure(self.program, "make", image, f"FILE{number}", "--length", length)
            sure(self.program, "store", image, f"FILE{number}", self.lines(self.draw.randint(1, 9 * DATA // length), length))
        sure(self.program, "put", image, "PROGRAM", self.source(9_000), "--type", "prg")
        return image.read_bytes()

    def lines(self, most, length):
        """Lines of records, some of which change."""
        path = self.folder / "lines.csv"
        numbers = self.draw.sample(range(1, most + 1), self.draw.randint(1, most))
        path.write_text("".join(line_of(number, b"R" + self.draw.randbytes(length - 1)) for number in numbers))
        return path

    def source(self, most):
        path = self.folder / "source"
        path.write_bytes(self.draw.randbytes(self.draw.randint(0, most)))
        return path

    def hurt(self, disk, is_sides):
        """The disk with a wrong map and wrong counts, and with side sectors that list more than there is, or nothing."""
        right, hurt = Disk(disk), Disk(disk)
        for entry in right.entries():
            if entry.kind == RELATIVE:
                hurt.put(entry.place, entry.at + 30, self.draw.randbytes(2))
                used = min(POINTERS, len(right.chain(entry.first)[0]))
                side = right.sides(entry)[0]
                hurt.put(side, *((0, bytes(256)) if is_sides else (16 + 2 * used, self.draw.randbytes(8))))
        for track in range(1, 36):
            sector = self.draw.randrange(sectors_of(track))
            hurt.put((18, 0), 4 * track + 1 + sector // 8, self.draw.randbytes(1))
        return bytes(hurt.image)
