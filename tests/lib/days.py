"""Days of requests for scripts that try the built program."""

TILLS = 64


def day(draw, count=1500, tops=(40, 400, 2000)):
    """So many lines of a day: each till's requests with their numbers in order, some repeats and some lines that are no
    request. The items go up to one of `tops`."""
    numbers = [0] * (TILLS + 1)
    last = [""] * (TILLS + 1)
    top = draw.choice(tops)
    lines = []
    while len(lines) < count:
        till = draw.randint(1, TILLS)
        chance = draw.random()
        if chance < 0.08 and last[till]:
            lines.append(last[till])
        elif chance < 0.1:
            lines.append(draw.choice(["", "hello", f"0{till},1,S,1,1", f"{till},{numbers[till] + 3},S,1,1"]))
        else:
            numbers[till] += 1
            kind = draw.choice("SSRRIIM")
            item, quantity = draw.randint(1, top), draw.randint(0, 500)
            to = f",{item % top + 1}" if kind == "M" else ""
            last[till] = f"{till},{numbers[till]},{kind},{item},{quantity}{to}"
            lines.append(last[till])
    return lines
