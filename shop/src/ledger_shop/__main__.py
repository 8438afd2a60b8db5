"""`python3 -m ledger_shop COMMAND ..`"""

from ledger_shop.commands import main

main()
