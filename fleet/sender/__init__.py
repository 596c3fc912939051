"""What `bootfleet` is made of: a ledger of what was asked of each machine, and what sends it."""
