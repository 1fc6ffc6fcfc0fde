"""What an office answers at the end of a day by the words of the program: each account's statement
and export, beside those that are reckoned."""

import concurrent.futures
import contextlib
import pathlib
import shutil
import sqlite3
import tempfile

import offices
from compared import agree

MONTH = "202601"
# Accounts of a copy of the database: an opening reads every row of it.
SHARE = 25


def check_texts(place, office, moment, jobs):
    """Compares the statement and the export of each account, several at once over copies."""
    accounts = list(office.accounts.values())
    shares = [accounts[at : at + SHARE] for at in range(0, len(accounts), SHARE)]
    with concurrent.futures.ThreadPoolExecutor(jobs) as pool:
        done = [pool.submit(check_share, place, share, moment) for share in shares]
        for one in done:
            one.result()


def check_share(place, accounts, moment):
    """The same of some accounts: of the first over a copy of the whole database, and then of all
    over one that has the rows of these alone."""
    with tempfile.TemporaryDirectory() as work:
        for path in pathlib.Path(place).glob("db*"):
            shutil.copy(path, work)
        check_account(accounts[0], moment, work)
        keep_rows(pathlib.Path(work) / "db", accounts)
        for account in accounts:
            check_account(account, moment, work)


def keep_rows(path, accounts):
    """Takes the rows of all other accounts, and all vouchers, out of a database; those that lead to
    others go first."""
    names = ", ".join(f"'{account.name}'" for account in accounts)
    with contextlib.closing(sqlite3.connect(path)) as database:
        told = database.execute(
            "SELECT name FROM sqlite_schema WHERE type = 'table' ORDER BY rowid"
        )
        for (table,) in reversed(told.fetchall()):
            columns = [row[1] for row in database.execute(f"PRAGMA table_info({table})")]
            if "account" in columns:
                database.execute(
                    f"DELETE FROM {table} WHERE account IS NULL OR account NOT IN ({names})"
                )
        database.execute("DELETE FROM vouchers")
        database.commit()


def check_account(account, moment, place):
    """Compares an account's statement and export over a copy of the database."""
    words = ("statement", "db", account.name, MONTH, "--at", moment)
    statement, export = account.statement(MONTH, moment), account.export(MONTH)
    agree(f"the statement of {account.name}", offices.ran(*words, place=place), statement)
    agree(f"the export of {account.name}", offices.ran(*words, "--csv", place=place), export)
