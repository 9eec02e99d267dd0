"""A crew's rig from its two tables: which rules does it break, and what does a change do to them?"""

import pathlib

from rizhavaan import Hang

folder = pathlib.Path(__file__).resolve().parents[3] / "examples" / "stage-rig"
hang = Hang.from_csv(folder / "items.csv", folder / "connections.csv", folder / "rules.txt")

for rule in hang.check():
    if not rule.holds:
        print(f"{rule.pattern}: expected {rule.expect}, found {rule.places}. {rule.sentence}")
        print(hang.find(rule.pattern))

# The crew hangs the front truss on the spare motor instead of motor 3.
after = hang.changed(["- motor-3 -carries-> front-truss", '+ "motor 4 (spare)" -carries-> front-truss'])
before, now = set(hang.find("two-lapsed")), set(after.find("two-lapsed"))
print("gone:", *sorted(before - now))
print("new:", *sorted(now - before))

hang.find("two-lapsed").picture().save("rig.svg")
print("rig.svg is written")
