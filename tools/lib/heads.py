"""The words of a tool, whose help is its head."""
import argparse
import os


def parser_of(head: str | None) -> argparse.ArgumentParser:
    """A parser of a tool's words: `--help` prints the tool's head as it is written."""
    plain = argparse.RawDescriptionHelpFormatter
    return argparse.ArgumentParser(prog=os.environ.get("TOOL"), description=head, formatter_class=plain)
