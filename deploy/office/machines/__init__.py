"""Two machines for the shards: what DRBD, Corosync, Pacemaker and systemd read, made of the
settings.

The word `machines` takes `files.of`, which is the same on each machine but for what a machine with
a vote only hasn't, and `missing.of`. Nothing here replicates data or keeps a consensus: those
engines do."""
