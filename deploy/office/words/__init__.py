"""The words of `office`: each module here is one (see ../command.py and ../README.md)."""
