"""The archive's door: what an old database answered is answered from it for good, read only.

A carry leaves an archive behind, and a move the rows of the accounts that moved. `past` reads these
files, which `open_files` keeps open for the service; `known` says of each key of theirs that it may be
there, in a form that HAProxy looks at before it sends a request to a shard (doors/known.lua); `answers`
and `server` are the service that HAProxy sends to what may be a repeat. Nothing of it writes to an
archive."""
