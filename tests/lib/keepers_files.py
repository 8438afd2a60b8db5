"""The files of a keeper's disk, which docs/KEEPERS.md works on: BASIC programs, letters, and the words of its records. Each is made
to the same bytes every time. tests/lib/disks.py puts them on a disk."""

import random

# the fields of a keeper's two files of records
ADDRESSES = ("ADAMS BAKER CLARK DAVIS EVANS FOSTER GREEN HILL JONES KING LEE MOORE".split(),
             [f"{number} {street}" for number in (3, 12, 27, 140) for street in ("OAK ROAD", "HIGH STREET", "MILL LANE")],
             "LEEDS YORK HULL RIPON".split())
GOODS = ("1986 1987".split(), "BOLTS NUTS NAILS SCREWS HINGES".split(), "10 25 100 500".split())

# BASIC's words that the programs below use, with their tokens
TOKENS = {"END": 0x80, "FOR": 0x81, "NEXT": 0x82, "DATA": 0x83, "INPUT#": 0x84, "INPUT": 0x85, "DIM": 0x86, "READ": 0x87,
          "GOTO": 0x89, "IF": 0x8B, "GOSUB": 0x8D, "RETURN": 0x8E, "REM": 0x8F, "LOAD": 0x93, "PRINT#": 0x98, "PRINT": 0x99,
          "CLR": 0x9C, "OPEN": 0x9F, "CLOSE": 0xA0, "GET": 0xA1, "THEN": 0xA7, "+": 0xAA, "=": 0xB2, "<": 0xB3, ">": 0xB1,
          "TO": 0xA4, "CHR$": 0xC7, "LEFT$": 0xC8, "AND": 0xAF, "INT": 0xB5, "*": 0xAC, "/": 0xAD, "-": 0xAB}
ORDER = sorted(TOKENS, key=len, reverse=True)

MENU = """
10 REM *** MENU OF THE CUSTOMERS DISK ***
20 PRINT CHR$(147);"CUSTOMERS 1987":PRINT
30 PRINT "1  LOOK UP AN ADDRESS"
40 PRINT "2  ENTER ORDERS"
50 PRINT "3  PRINT LABELS"
60 PRINT "4  END":PRINT
70 GET A$:IF A$="" THEN 70
80 IF A$="1" THEN GOSUB 200:GOTO 20
90 IF A$="2" THEN LOAD "ENTER ORDERS",8
100 IF A$="3" THEN LOAD "PRINT LABELS",8
110 IF A$="4" THEN END
120 GOTO 70
200 INPUT "NUMBER OF THE CUSTOMER";N
210 OPEN 15,8,15:OPEN 2,8,2,"ADDRESS"
220 H=INT(N/256):L=N-H*256
230 PRINT#15,"P"+CHR$(98)+CHR$(L)+CHR$(H)+CHR$(1)
240 INPUT#15,E:IF E>19 THEN PRINT "NO SUCH CUSTOMER":GOTO 280
250 INPUT#2,N$:INPUT#2,S$:INPUT#2,T$
260 PRINT N$:PRINT S$:PRINT T$
270 PRINT:PRINT "PRESS A KEY"
280 CLOSE 2:CLOSE 15
290 GET A$:IF A$="" THEN 290
300 RETURN
"""

ENTER_ORDERS = """
10 REM *** ENTER ORDERS ***
20 DIM P$(5):FOR I=1 TO 5:READ P$(I):NEXT
30 OPEN 15,8,15:OPEN 2,8,2,"ORDERS"
40 INPUT "NUMBER OF THE ORDER";N
50 FOR I=1 TO 5:PRINT I;P$(I):NEXT
60 INPUT "WHICH";W:INPUT "HOW MANY";Q$
70 H=INT(N/256):L=N-H*256
80 PRINT#15,"P"+CHR$(98)+CHR$(L)+CHR$(H)+CHR$(1)
90 PRINT#2,"1987"+CHR$(13)+P$(W)+CHR$(13)+Q$
100 INPUT "ANOTHER";A$:IF LEFT$(A$,1)="Y" THEN 40
110 CLOSE 2:CLOSE 15
120 LOAD "MENU",8
500 DATA "BOLTS","NUTS","NAILS","SCREWS","HINGES"
"""

PRINT_LABELS = """
10 REM *** PRINT LABELS ***
20 OPEN 15,8,15:OPEN 2,8,2,"ADDRESS":OPEN 4,4
30 FOR N=1 TO 343
40 H=INT(N/256):L=N-H*256
50 PRINT#15,"P"+CHR$(98)+CHR$(L)+CHR$(H)+CHR$(1)
60 INPUT#2,N$:INPUT#2,S$:INPUT#2,T$
70 PRINT#4,N$:PRINT#4,S$:PRINT#4,T$:PRINT#4
80 NEXT
90 CLOSE 4:CLOSE 2:CLOSE 15
100 LOAD "MENU",8
"""


def line_bytes(text):
    """A line of BASIC without its number: words outside quotation marks and remarks become tokens."""
    made, at, quoted, remark = bytearray(), 0, False, False
    while at < len(text):
        word = None if quoted or remark else next((it for it in ORDER if text.startswith(it, at)), None)
        if word:
            made.append(TOKENS[word])
            remark, at = word == "REM", at + len(word)
        else:
            quoted ^= text[at] == '"'
            made += text[at].encode()
            at += 1
    return bytes(made)


def program(listing, start=0x0801):
    """The bytes of a BASIC program's file: where it loads, each line with where the next one begins, and two zeros."""
    made = bytearray(start.to_bytes(2, "little"))
    for line in listing.strip("\n").split("\n"):
        number, _, text = line.partition(" ")
        body = int(number).to_bytes(2, "little") + line_bytes(text) + b"\0"
        made += (start + len(made) - 2 + 2 + len(body)).to_bytes(2, "little") + body
    return bytes(made) + b"\0\0"


def padded(listing, size):
    """A program's file of this size: after its lines come DATA lines, as a table of goods has them, and one of asterisks."""
    draw = random.Random(listing)
    lines, number = listing.strip("\n").split("\n"), 1000
    while size - len(program("\n".join(lines))) > 90:
        row = ",".join(f'"{draw.choice(GOODS[1])} M{draw.randint(3, 12)}",{draw.randint(5, 999)}' for _ in range(3))
        lines.append(f"{number} DATA {row}")
        number += 10
    room = size - len(program("\n".join(lines + [f"{number} REM "])))
    return program("\n".join(lines + [f"{number} REM " + room * "*"]))


def petscii(text):
    """A text as a C64 in its second character set has it: small letters and capitals, a CR after each line."""
    return bytes(byte - 32 if 97 <= byte <= 122 else byte + 128 if 65 <= byte <= 90 else 13 if byte == 10 else byte
                 for byte in text.encode())


def letters(size):
    """A text of letters to customers, of this size."""
    draw, text = random.Random("letters"), ""
    while len(text) < size:
        name, street, town = (draw.choice(words).title() for words in ADDRESSES)
        goods, pieces = draw.choice(GOODS[1]).lower(), draw.choice(GOODS[2])
        text += (f"{name}\n{street}\n{town}\n\nLeeds, {draw.randint(1, 28)} May 1987\n\nDear customer,\n\n"
                 f"thank you for your order of {pieces} {goods}.\nThey left our house this morning. Please\n"
                 f"send us your order for the autumn by\nthe end of August; our new list of goods\nis on the next page.\n\n"
                 f"Yours,\nA. Miller\n\n")
    return petscii(text[:size - 1] + "\n")
