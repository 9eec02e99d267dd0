"""Lists against those of the program, on every example."""

import json
import subprocess
import unittest
import warnings

from rizhavaan import Hang, Refused, TextWarning
from tests.common import EXAMPLES, TOP

PROGRAM = TOP / "target" / "bin" / "rizhavaan"


@unittest.skipUnless(PROGRAM.is_file(), f"not built: {PROGRAM.relative_to(TOP)}")
class Program(unittest.TestCase):
    def program(self, *arguments):
        return subprocess.run([str(PROGRAM), *map(str, arguments)], stdout=subprocess.PIPE, stderr=subprocess.PIPE)

    def test_every_example(self):
        compared = 0
        for folder in sorted(path for path in EXAMPLES.iterdir() if (path / "hang.txt").is_file()):
            files = [path for path in (folder / "hang.txt", folder / "rules.txt") if path.is_file()]
            with warnings.catch_warnings():
                warnings.simplefilter("ignore", TextWarning)
                hang = Hang.from_files(*files)
            for name, pattern in hang.patterns.items():
                for once in (False, True):
                    with self.subTest(folder.name, pattern=name, once=once):
                        run = self.program("find", *files, "--json", "--pattern", name, *(["--once"] if once else []))
                        if run.returncode > 1:
                            with self.assertRaises(Refused):
                                hang.find(pattern, once=once)
                            continue
                        told = json.loads(run.stdout)
                        places = hang.find(pattern, once=once)
                        self.assertEqual([list(place) for place in places], told["rows"])
                        said = (told["cost"], told["plan"], told["planFrom"])
                        self.assertEqual((places.cost, places.plan, places.plan_from), said)
                        records = [(record["operator"], record["rows"], record["cost"]) for record in told["records"]]
                        self.assertEqual([tuple(record) for record in places.records], records)
                        compared += 1
        self.assertGreater(compared, 15)

    def test_explain_and_sheet(self):
        folder = EXAMPLES / "stage-rig"
        files = [folder / "hang.txt", folder / "rules.txt"]
        hang = Hang.from_files(*files)
        explained = self.program("explain", *files, "--pattern", "over-people").stdout.decode()
        self.assertEqual(str(hang.explain("over-people")).strip(), explained.strip())
        sheet = self.program("find", *files, "--pattern", "over-people", "--sheet", "--key").stdout.decode()
        places = hang.find("over-people")
        self.assertEqual("".join(places.sheet()) + places.key(), sheet)


if __name__ == "__main__":
    unittest.main()
