#!/usr/bin/env python3
"""make: writes the example's files again: motor tables of 63 KiB and 65 KiB, in old/ and in new/ with the last line edited,
and a third table that is the same in both."""
import os

HERE = os.path.dirname(os.path.abspath(__file__))


def table(size, last):
    rows = []
    step = 0
    room = size - len(last)
    used = 0
    while True:
        row = "step %05d current %04d microseconds %05d\n" % (step, (step * 7919) % 2000, 400 + (step * 104729) % 60000)
        if used + len(row) > room:
            break
        rows.append(row)
        used += len(row)
        step += 1
    rows.append("#" * (room - used - 1) + "\n" if room > used else "")
    return "".join(rows) + last


def write(folder, name, text):
    os.makedirs(os.path.join(HERE, folder), exist_ok=True)
    with open(os.path.join(HERE, folder, name), "w") as out:
        out.write(text)


for name, kib in (("motor_63k.tbl", 63), ("motor_65k.tbl", 65)):
    write("old", name, table(kib * 1024, "limit 1500\n"))
    write("new", name, table(kib * 1024, "limit 1650\n"))
for folder in ("old", "new"):
    write(folder, "steady_65k.tbl", table(65 * 1024, "limit 900\n"))
