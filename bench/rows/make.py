"""Writes the files of the measurements of rows: make.py FOLDER ROWS."""
import sys

folder, rows = sys.argv[1], int(sys.argv[2])


def write(name, row):
    with open(f"{folder}/{name}", "w", newline="") as out:
        out.writelines(row(n) for n in range(rows))


def number(n):
    return n * 7919 % 1_000_003


# One column; four columns; the same with every second text in quotes.
write("one.csv", lambda n: f"{number(n)}\n")
write("four.csv", lambda n: f"{n},sensor{n % 97},{number(n)},{n % 1000}\n")
write("quoted.csv", lambda n: f'{n},"sensor,{n % 97}",{number(n)},{n % 1000}\n' if n % 2 else f"{n},sensor{n % 97},{number(n)},{n % 1000}\n")
