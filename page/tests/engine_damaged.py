"""Damaged texts: the page answers with the faults of the program, or with its list; it never stops, and there is never a short list."""

import base64
import json
import random
import re
import unittest

from harness import EXAMPLES, PageTest, program

TEXTS = 150


def damaged(numbers, data):
    """A few bytes dropped, repeated, changed, or the rest cut off."""
    data = bytearray(data)
    for _ in range(numbers.randint(1, 3)):
        if not data:
            break
        at = numbers.randrange(len(data))
        how = numbers.randrange(5)
        if how == 0:
            del data[at]
        elif how == 1:
            data[at:at] = bytes([data[at]])
        elif how == 2:
            data[at] ^= 1 << numbers.randrange(8)
        elif how == 3:
            end = data.find(b"\n", at)
            del data[at : end if end >= 0 else len(data)]
        else:
            del data[max(at, 1) :]
    return bytes(data)


class Damaged(PageTest):
    def find(self, data):
        """The page's answer of bytes."""
        body = """
            const bytes = Uint8Array.from(atob(args[0]), (c) => c.charCodeAt(0));
            const answer = await rizhavaan.engine.call("find", { sources: [{ name: "standard input", bytes }], plan: "drawn" });
            return JSON.stringify(answer);"""
        return json.loads(self.browser.js(body, base64.b64encode(data).decode()))

    def test_damaged_texts_have_the_faults_of_the_program(self):
        numbers = random.Random(5)
        wholes = [path.read_bytes() for path in sorted(EXAMPLES.glob("*/hang.txt"))]
        faulty, sound = 0, 0
        for i in range(TEXTS):
            data = damaged(numbers, wholes[i % len(wholes)])
            answer = self.find(data)
            folder = self.browser.folder
            path = f"{folder}/damaged.txt"
            with open(path, "wb") as file:
                file.write(data)
            status, output, messages = program("find", path, "--json", "--plan", "drawn", check=False)
            if answer["errorCount"]:
                faulty += 1
                self.assertEqual(status, 2, data)
                self.assertNotIn("patterns", answer)
                first = answer["errors"][0]
                self.assertIn(f"{path}:{first['line']}:{first['column']}", messages, data)
                self.assertIn(first["reason"].split("\n")[0], messages, data)
            elif "error" in answer or any("error" in found for found in answer["patterns"]):
                self.assertEqual(status, 2, data)
            else:
                sound += 1
                printed = json.loads(output)
                for found, other in zip(answer["patterns"], printed.get("patterns", [printed])):
                    self.assertEqual(found["rows"], other["rows"], data)
        self.assertGreater(faulty, TEXTS // 4)
        self.assertGreater(sound, TEXTS // 20)

    def test_all_faults_at_once_by_line(self):
        text = (EXAMPLES / "stage-rig/hang.txt").read_text()
        text = text.replace("motor-2: motor", "motor-2: motr").replace("-carries-> back-truss", "-caries-> back-truss")
        answer = self.browser.call("read", sources=[{"name": "hang.txt", "text": text}])
        lines = text.splitlines()
        wrong = [number for number, line in enumerate(lines, 1) if "motr" in line or "-caries->" in line]
        self.assertEqual(sorted({fault["line"] for fault in answer["errors"]} & set(wrong)), wrong)
        for fault in answer["errors"]:
            self.assertEqual(fault["source"], lines[fault["line"] - 1])
        self.assertIn("'motor'", answer["errors"][0]["help"])
        self.assertNotIn("hang", answer)

    def test_not_utf8(self):
        answer = self.find(b"[graph]\nmotor-\xff: motor\n")
        self.assertIn((2, "the text is not UTF-8"), [(fault["line"], fault["reason"]) for fault in answer["errors"]])

    def test_the_message_has_the_line(self):
        answer = self.browser.find("[graph]\nvertices 2\n0 -1-> 7\n[query]\nvertices 2\n0 -1-> 1\n")
        self.assertRegex(answer["refused"], r"line 3: ")
        self.assertEqual(answer["errors"][0]["line"], 3)

    def test_other_calls_of_damaged_texts(self):
        sources = [{"name": "x", "text": "[grph]\n"}]
        for name in ("read", "find", "check", "diff", "explain", "sheets", "csv", "text_of"):
            answer = self.browser.call(name, sources=sources)
            self.assertEqual(set(answer), {"errors", "errorCount", "warnings"}, name)
            self.assertEqual(answer["errors"][0]["line"], 1, name)
        no = self.browser.call("csv", sources=[{"name": "x", "text": "[graph]\nvertices 1\n"}])["no"]
        self.assertTrue(re.search("no pattern", no["words"]))
        no = self.browser.call("nothing")["no"]
        self.assertIn("no call 'nothing'", no["words"])


if __name__ == "__main__":
    unittest.main()
