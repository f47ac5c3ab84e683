"""How a script reads its words, and answers those that it doesn't take."""

import argparse
import sys


def asks_for_help(words: list[str]) -> bool:
    """Whether these words alone ask for a script's page."""
    return words in (["-h"], ["--help"])


class Words(argparse.ArgumentParser):
    """The words of a script whose page, its doc string, says how it is called.

    A word that asks for help has the page printed, and ends the script with 0. A wrong one ends it with 1, after a line on standard error.
    """

    def __init__(self, page: str) -> None:
        super().__init__(description=page.strip(), formatter_class=argparse.RawDescriptionHelpFormatter)

    def error(self, message: str) -> None:
        sys.exit(f"{self.format_usage()}{self.prog}: {message}")
