"""Who is who in tests/network/attacks.py, and how long things take."""

SHOPS = {"1": 12, "2": 2}
# the attackers' accounts, and that of the bridge
INSIDER, FOREIGN, BRIDGE = "till-1-8", "bridge-2", "bridge-1"
# the honest till, which has the item 1, and the victims
HONEST, VICTIM, OTHER = 7, 9, 10
FLOOD, REPEATS = 20_000, 5_000
# seconds in which an honest till has its answer, in a flood too; for anything else; and in which nothing may come
PATIENT, LONGEST, SILENT = 60, 60, 1.5
