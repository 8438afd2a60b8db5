#!/usr/bin/python3
"""Takes records to a spreadsheet and back, by LibreOffice without a window (Debian's libreoffice-calc and python3-uno):

    tests/peers/spreadsheet.py PROGRAM

LibreOffice opens what `records` prints as docs/KEEPERS.md says, has cells typed into it, and saves it; `store` reads that. What came
back unchanged stores nothing; of a cell that was typed anew that line alone is printed, and the lines of before take it back; CR LF and
quoted cells are read; a byte order mark, as Excel writes it, is told as RECORDS LINE 1; and what the page warns of is so. The records:
texts that a spreadsheet would take for numbers, dates and formulas, each byte, and any bytes. Images lie in memory, since `store`
waits for the disk at each sector."""

import random
import subprocess
import sys
import tempfile
import time
from pathlib import Path

import uno
from com.sun.star.beans import PropertyValue
from com.sun.star.connection import NoConnectException
from com.sun.star.lang import DisposedException, Locale

sys.dont_write_bytecode = True
sys.path.insert(0, str(Path(__file__).resolve().parents[1] / "lib"))
from record_disks import line_of, lines_of
from served import run, sure, want
from trial import conduct

TEXT_CSV = "Text - txt - csv (StarCalc)"
# the dialog Text Import: separated by commas, string delimiter ", UTF-8, from row 1; column 2 of type Text, or of none
OPENED = "44,34,76,1,1/1/2/2"
OPENED_AS_IT_IS = "44,34,76,1"
# the dialog of Text CSV: field delimiter comma, string delimiter ", UTF-8, cell content as shown; all text cells quoted, or not
SAVED = "44,34,76,1,,0,false,true,false"
SAVED_QUOTED = "44,34,76,1,,0,true,true,false"

TAKEN_FOR_OTHERS = [
    b"MILK\r12\r", b"000000042", b"=A1", b"=1+1", b"1-2", b"1/2/2020", b"1.50", b"1,5", b"1E5", b"TRUE", b"+49 30 12",
    b"-", b"--", b"'quoted'", b"'", b"@SUM(A1)", b" led and trailed ", b"   ", b"a,b", b",", b";", b"a;b\tc", b'"', b'say "x"',
    b"\\", b"\\0d", b"http://x.org", b"50%", b"12:30", b"$5", b"(c)", b"...", b"\xff\x22x", b"#REF!", b"", b"0", b"0\r",
]


def properties(**values):
    return tuple(PropertyValue(name, 0, value, 0) for name, value in values.items())


class Office:
    """A LibreOffice without a window, driven through its own interface."""

    def __init__(self, folder):
        accepts = f"pipe,name={folder.name};urp"
        words = ["soffice", f"-env:UserInstallation=file://{folder}/profile", "--headless", "--norestore", f"--accept={accepts};"]
        self.process = subprocess.Popen(words, stdout=subprocess.DEVNULL, stderr=subprocess.DEVNULL)
        manager = uno.getComponentContext().ServiceManager
        resolver = manager.createInstance("com.sun.star.bridge.UnoUrlResolver")
        self.context = self.resolved(resolver, f"uno:{accepts};StarOffice.ComponentContext")
        self.desktop = self.made("com.sun.star.frame.Desktop")

    def resolved(self, resolver, address):
        for _ in range(300):
            try:
                return resolver.resolve(address)
            except NoConnectException:
                want(self.process.poll() is None, "soffice ended")
                time.sleep(0.2)
        self.process.kill()
        want(False, "soffice doesn't answer")

    def made(self, what):
        return self.context.ServiceManager.createInstanceWithContext(what, self.context)

    def opened(self, path, options=None):
        how = properties(FilterName=TEXT_CSV, FilterOptions=options) if options else ()
        return self.desktop.loadComponentFromURL(path.as_uri(), "_blank", 0, how)

    def typed(self, sheet, row, text):
        """Types a text into a cell of column B, as a keyboard does."""
        frame, helper = sheet.CurrentController.Frame, self.made("com.sun.star.frame.DispatchHelper")
        helper.executeDispatch(frame, ".uno:GoToCell", "", 0, properties(ToPoint=f"$B${row}"))
        helper.executeDispatch(frame, ".uno:EnterString", "", 0, properties(StringName=text))

    def as_text(self, sheet):
        """Format, Cells, Text for column B."""
        sheet.Sheets.getByIndex(0).Columns.getByIndex(1).NumberFormat = sheet.NumberFormats.queryKey("@", Locale(), False)

    def saved(self, sheet, path, options=None):
        how = {"FilterName": TEXT_CSV, "FilterOptions": options} if options else {"FilterName": "calc8"}
        sheet.storeToURL(path.as_uri(), properties(**how))
        sheet.close(True)
        return path

    def ended(self):
        try:
            self.desktop.terminate()
        except DisposedException:
            pass
        self.process.wait(60)


class Trips:
    def __init__(self, program, folder, office):
        self.program, self.folder, self.office = program, folder, office
        self.records = self.ways = self.typed = 0

    def disk(self):
        """An image with a relative file for each list of records, and the lines of each."""
        draw = random.Random(1541)
        lists = {
            "ADDRESS": (40, TAKEN_FOR_OTHERS),
            "EACH": (1, [bytes([byte]) for byte in range(256)]),
            "PAIRS": (2, [bytes(draw.choices(b" '=+-@,;\t09aE.%/\"\\\r\0\xff", k=2)) for _ in range(1500)]),
            "ANY": (254, [draw.randbytes(draw.randint(0, 254)) for _ in range(200)]),
            "SIGNS": (30, [bytes(draw.choices(range(32, 127), k=draw.randint(0, 30))) for _ in range(1000)]),
        }
        self.image = self.folder / "disk.d64"
        sure(self.program, "format", self.image, "--tills", 2)
        self.files = {}
        for name, (length, records) in lists.items():
            records = [record[:length].ljust(length, b"\0") for record in records]
            path = self.folder / f"{name}.csv"
            path.write_text(lines_of(records))
            sure(self.program, "make", self.image, name, "--length", length)
            sure(self.program, "store", self.image, name, path)
            taken = sure(self.program, "records", self.image, name)
            want(taken[: len(records)] == lines_of(records).splitlines(), f"{name}: records prints others")
            path.write_text("".join(line + "\n" for line in taken))
            self.files[name] = path
            self.records += len(taken)
        self.before = self.image.read_bytes()

    def stored(self, name, path):
        """The lines that `store` prints on a copy of the disk, and that copy."""
        copy = self.folder / "copy.d64"
        copy.write_bytes(self.before)
        return sure(self.program, "store", copy, name, path), copy

    def unchanged(self, how, trip):
        """Each file on this trip: what comes back changes nothing."""
        for name, path in self.files.items():
            told, copy = self.stored(name, trip(path))
            want(told == [], f"{how}: {name} comes back otherwise: {told[:3]}")
            want(copy.read_bytes() == self.before, f"{how}: storing {name} changed the disk")
        self.ways += 1

    def csv(self, path, options=SAVED):
        return self.office.saved(self.office.opened(path, OPENED), self.folder / "back.csv", options)

    def in_place(self, path):
        """Saved into the file that was opened, without a word of how."""
        back = self.folder / "back.csv"
        back.write_bytes(path.read_bytes())
        sheet = self.office.opened(back, OPENED)
        self.office.typed(sheet, 1, sheet.Sheets.getByIndex(0).getCellByPosition(1, 0).getString())
        sheet.store()
        sheet.close(True)
        want(back.read_bytes() != path.read_bytes(), "nothing was saved in place")
        return back

    def by_sheet(self, path):
        """Kept as a sheet of LibreOffice's own, and opened and saved from there."""
        sheet = self.office.saved(self.office.opened(path, OPENED), self.folder / "kept.ods")
        return self.office.saved(self.office.opened(sheet), self.folder / "back.csv", SAVED)

    def with_ends(self, path):
        """With CR LF, as on other systems."""
        back = self.csv(path)
        back.write_bytes(back.read_bytes().replace(b"\n", b"\r\n"))
        return back

    def back(self):
        self.unchanged("saved", self.csv)
        self.unchanged("saved in place", self.in_place)
        self.unchanged("all text cells quoted", lambda path: self.csv(path, SAVED_QUOTED))
        self.unchanged("kept as a sheet", self.by_sheet)
        self.unchanged("with CR LF", self.with_ends)

    def type_in(self, number, text, as_text=True):
        """The lines, with a text typed into the cell of a record."""
        sheet = self.office.opened(self.files["ADDRESS"], OPENED)
        if as_text:
            self.office.as_text(sheet)
        self.office.typed(sheet, number, text)
        return self.office.saved(sheet, self.folder / "typed.csv", SAVED)

    def change(self, number, text, record):
        """That line alone is printed, and the old lines take it back."""
        told, copy = self.stored("ADDRESS", self.type_in(number, text))
        line = line_of(number, record).removesuffix("\n")
        want(told == [line], f"{text} was typed for record {number}, and store printed {told}")
        lines = self.files["ADDRESS"].read_text().splitlines()
        old_line, lines[number - 1] = lines[number - 1], line
        want(sure(self.program, "records", copy, "ADDRESS") == lines, "another record was changed")
        want(sure(self.program, "check", copy) == ["OK"], "check isn't OK")
        want(sure(self.program, "store", copy, "ADDRESS", self.files["ADDRESS"]) == [old_line], "taking it back")
        want(copy.read_bytes() == self.before, "taken back, the disk is another")
        self.typed += 1

    def refused(self, path, line=1):
        """The line is told, and nothing changed."""
        ended = run(self.program, "store", self.image, "ADDRESS", path)
        want(ended == (1, [], f"RECORDS LINE {line}"), f"{path.name}: {ended}")
        want(self.image.read_bytes() == self.before, "a refused store changed the disk")

    def warned(self):
        """What the page warns of is so."""
        marked = self.folder / "marked.csv"
        marked.write_bytes(b"\xef\xbb\xbf" + self.csv(self.files["ADDRESS"]).read_bytes())
        self.refused(marked)
        zeros = self.folder / "zeros.csv"
        zeros.write_text('1,""\n2,""\n')
        self.refused(self.csv(zeros))
        self.refused(self.type_in(7, 'say "x"'), 7)
        told, _ = self.stored("ADDRESS", self.type_in(1, "00043", as_text=False))
        want(told == ['1,"43"'], f"typed into a cell that isn't text 00043 becomes {told}")
        told, _ = self.stored("ADDRESS", self.type_in(8, "=B1", as_text=False))
        want(told == ['8,"MILK\\0d12\\0d"'], f"typed into a cell that isn't text =B1 becomes {told}")
        sheet = self.office.opened(self.files["ADDRESS"], OPENED_AS_IT_IS)
        told, _ = self.stored("ADDRESS", self.office.saved(sheet, self.folder / "other.csv", SAVED))
        want('2,"42"' in told, f"where column 2 isn't text store prints {told}")


def main(given):
    with tempfile.TemporaryDirectory(dir="/dev/shm" if Path("/dev/shm").is_dir() else None) as folder:
        return tried(given.program, Path(folder))


def tried(program, folder):
    office = Office(folder)
    try:
        trips = Trips(program, folder, office)
        trips.disk()
        trips.back()
        trips.change(1, "MILK\\0d13\\0d", b"MILK\r13\r")
        trips.change(2, "000000043", b"000000043")
        trips.change(35, "00042", b"00042")
        trips.change(3, "=A2", b"=A2")
        trips.change(7, "\\22x\\22, 'y'", b"\"x\", 'y'")
        trips.change(12, "", b"")
        trips.warned()
    finally:
        office.ended()
    print(f"spreadsheet: {trips.records} records of {len(trips.files)} files opened and saved in {trips.ways} ways, "
          f"{trips.typed} cells typed, 6 warnings so: no difference")
    return trips.records + trips.typed + 6


if __name__ == "__main__":
    conduct(main)
