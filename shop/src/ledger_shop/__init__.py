"""A shop of `ledger` behind a message broker, and what its operator runs: bridges, tills, the journal, backups, reports.

`ledger-shop COMMAND` runs one of the commands of `ledger_shop.commands`."""

# the program that serves the image; the Debian package has its own name for it
PROGRAM = "ledger"
