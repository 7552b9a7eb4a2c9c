"""Friday's sheet."""
import csv
import io
import json
import unittest
import xml.etree.ElementTree as ET

from support import EXAMPLES, Case, PLAN_12

import poddreshi

RIGS = """\
# name, present window, wanted window
Rig 1 1 5
Rig 2 5 1        # the other way
Crane 5 6
Rig far 0 99
Rig
Rig 3 5 5
"""


class Chains(Case):
    def setUp(self):
        super().setUp()
        self.plan = self.file("12.plan", PLAN_12)
        self.rigs = self.file("rigs", RIGS)
        self.names = self.file("names", "5 Quay\n1 Lock 2\n")

    def sheet(self, *options):
        return self.run_front("chains", self.plan, self.rigs, *options)

    def test_text(self):
        done = self.sheet("--names", self.names, "--origin", "2026-02-06 08:00")
        self.assertEqual(done.returncode, 1)
        self.assertEqual([line.split(b": ")[0][-6:] for line in done.stderr.splitlines()], [b"line 5", b"line 6"])
        text = done.stdout.decode()
        self.assertIn("Rig 1: from window 1 (Lock 2) to window 5 (Quay): 3 handovers\n", text)
        self.assertIn("Crane: from window 5 (Quay) to window 6: no chain\n", text)
        self.assertIn("line 5: refused by question 7: there is no window 99: the plan has 7 windows, 0 to 6\n", text)
        self.assertIn("line 6: a line has a rig's name, its present window and the window where it is wanted\n", text)
        self.assertIn("Rig 3: from window 5 (Quay) to window 5 (Quay): 0 handovers\n", text)
        self.assertIn("  5  Quay    2026-02-06 08:17 to 2026-02-06 08:18\n", text)
        last = "6 rigs: 3 with a chain, 1 with no chain, 2 lines not read, 6 handovers in all, at most 3 (Rig 1), minimum handover 1m"
        self.assertEqual(text.splitlines()[-1], last)

    def test_each_chain_in_the_order_of_travel(self):
        data = json.loads(self.sheet("--json").stdout)
        chains = {rig["rig"]: rig["chain"] and [step["position"] for step in rig["chain"]] for rig in data["rigs"]}
        self.assertEqual(chains, {"Rig 1": [1, 2, 4, 5], "Rig 2": [5, 4, 2, 1], "Crane": None, "Rig 3": [5]})
        self.assertEqual([fault["line"] for fault in data["faults"]], [5, 6])

    def test_csv(self):
        rows = list(csv.DictReader(io.StringIO(self.sheet("--csv").stdout.decode())))
        first = [row for row in rows if row["rig"] == "Rig 1"]
        self.assertEqual([row["window"] for row in first], ["1", "2", "4", "5"])
        shared = [(row["handover_from"], row["handover_to"]) for row in first]
        self.assertEqual(shared, [("4", "5"), ("12", "16"), ("17", "18"), ("", "")])
        self.assertEqual([row["answer"] for row in rows if row["rig"] == "Crane"], ["no chain"])
        self.assertEqual([row["line"] for row in rows if row["answer"].startswith("not read")], ["5", "6"])

    def test_page(self):
        page = self.sheet("--html", "--names", self.names).stdout.decode()
        tree = ET.fromstring(page.replace("<!DOCTYPE html>", ""))
        pictures = tree.findall(".//{http://www.w3.org/2000/svg}svg")
        self.assertEqual(len(pictures), 3)
        self.assertEqual([len(picture.findall(".//{http://www.w3.org/2000/svg}circle")) for picture in pictures], [6, 6, 0])
        headings = ["".join(heading.itertext()) for heading in tree.findall(".//h2")]
        self.assertEqual(len(headings), 6)
        self.assertIn("Crane: from window 5 (Quay) to window 6: no chain", headings)

    def test_nothing_in_a_name_is_markup(self):
        rigs = self.file("sly", '<script>alert(1)</script>& 1 5\n')
        page = self.answers("chains", self.plan, rigs, "--html").decode()
        self.assertNotIn("<script", page)
        ET.fromstring(page.replace("<!DOCTYPE html>", ""))

    def test_names_and_csv_of_rigs(self):
        rigs = self.file("rigs.csv", "wanted;rig;present\nQuay;Rig 1;Lock 2\n")
        data = json.loads(self.answers("chains", self.plan, rigs, "--names", self.names, "--json"))
        self.assertEqual((data["rigs"][0]["present"], data["rigs"][0]["wanted"]), (1, 5))
        rigs = self.file("rigs.txt", '# as lines\nRig 1 "Lock 2" Quay\n')
        self.assertEqual(json.loads(self.answers("chains", self.plan, rigs, "--names", self.names, "--json")), data)

    def test_faults_in_order_of_lines(self):
        done = self.run_front("chains", self.plan, "-", "--json", stdin=b"Rig\n\xff 1 2\nRig 1 5\nRig 0 99\n")
        self.assertEqual([line.split(b": ")[0][-6:] for line in done.stderr.splitlines()], [b"line 1", b"line 2", b"line 4"])
        self.assertEqual([fault["line"] for fault in json.loads(done.stdout)["faults"]], [1, 2, 4])

    def test_status(self):
        good = self.file("good", "Rig 1 5\n")
        apart = self.file("apart", "Rig 5 6\n")
        self.assertEqual(self.run_front("chains", self.plan, good, "--exit-code").returncode, 0)
        self.assertEqual(self.run_front("chains", self.plan, apart).returncode, 0)
        self.assertEqual(self.run_front("chains", self.plan, apart, "--exit-code").returncode, 4)
        self.assertEqual(self.sheet("--exit-code").returncode, 1)
        self.fails(1, "chains", self.plan, "-", about="standard input, line 1: there is no rig")

    def test_the_example(self):
        year = self.file("year.plan", self.answers("plan", 40, EXAMPLES / "year.txt", "--origin", "2026-01-01"))
        told = self.answers("chains", year, EXAMPLES / "rigs.txt", "--names", EXAMPLES / "year.txt", "--origin", "2026-01-01")
        self.assertIn(b"4 rigs: 3 with a chain, 1 with no chain", told)

    def test_every_chain_is_one(self):
        """On plan 31: each window of a chain overlaps the next, by the library, and the count is the pair call's."""
        file = (EXAMPLES / "plan-31.plan").read_bytes()
        rigs = "".join(f"{a}-{b} {a} {b}\n" for a in range(0, 48, 5) for b in range(0, 48, 7))
        data = json.loads(self.answers("chains", EXAMPLES / "plan-31.plan", "-", "--json", stdin=rigs.encode()))
        tags = poddreshi.tags(file).tags
        for rig in data["rigs"]:
            self.assertEqual(poddreshi.pair_at(tags, rig["present"], rig["wanted"]).count, rig["handovers"])
            chain = [step["position"] for step in rig["chain"] or ()]
            self.assertTrue(not chain or (chain[0], chain[-1]) == (rig["present"], rig["wanted"]))
            for one, other in zip(chain, chain[1:]):
                self.assertIn(other, poddreshi.neighbours(file, one).positions)


if __name__ == "__main__":
    unittest.main()
