"""The package as people use it, and bad input: a clear error in Python's own way, never a crash."""

import copy
import os
import pickle
import subprocess
import sys
import tempfile
import threading
import unittest

import duggfrask
from duggfrask import Flow, Plan, Refused, Site


def small():
    return Site(3, 3, 2).with_load(1, 5).with_load(2, 1).with_load(3, 4).with_reach(1, 2).with_reach(3, 2)


class Use(unittest.TestCase):
    def test_plan_check_why(self):
        site = small()
        plan = site.plan()
        plan.check(site)
        self.assertEqual([bytes(row) for row in plan.as_rows()][1], b"\2\2\2\2\2\1")
        self.assertTrue(site.why().startswith("chained\nthe load test holds\nplanned\n"))
        self.assertEqual(site.list().splitlines()[0], "site 3 3 2")
        self.assertEqual(Site.from_bytes(site.to_bytes()), site)
        self.assertEqual(pickle.loads(pickle.dumps(site)), site)
        self.assertEqual(bytes(Plan.from_bytes(plan.to_bytes(site)).row(2)), b"\0\0\0\0\0\1")
        self.assertEqual(duggfrask.share(3, 3, 4).share, 6)
        self.assertEqual(Site(1, 4, 1).admit([Flow(1, 1, 4, 1, 7)]), [1])

    def test_refused(self):
        with self.assertRaises(Refused) as caught:
            small().with_load(2, 9).plan()
        self.assertEqual((caught.exception.number, caught.exception.place), (5, 2))
        self.assertRegex(str(caught.exception), "^refused 5, cell 2: no room for [0-9]+ of its fragments$")
        self.assertEqual(pickle.loads(pickle.dumps(caught.exception)).values, caught.exception.values)

    def test_no_copy(self):
        site = Site(32, 128, 16)
        table = bytearray(65536)
        site.plan_into(table)
        site.plan_into(memoryview(table))
        plan = site.plan()
        self.assertIs(plan.table.obj, plan._bytes)
        plan.table[0] = 1
        self.assertEqual(plan.row(1)[0], 1)
        copied = copy.deepcopy(bytes(plan.table))
        self.assertEqual(copied[0], 1)


class BadInput(unittest.TestCase):
    def test_no_file(self):
        for path in ("/no/such/file", "/"):
            with self.assertRaises(OSError):
                Site.read(path)

    def test_ten_gigabytes(self):
        with tempfile.TemporaryDirectory() as folder:
            path = os.path.join(folder, "large.site")
            with open(path, "wb") as file:
                try:
                    file.truncate(10_000_000_000)
                except OSError:
                    self.skipTest("this file system has no sparse file of 10 gigabytes")
            with self.assertRaises(Refused):
                Site.read(path)
            with self.assertRaises(Refused):
                Plan.read(path)

    def test_a_name_that_is_no_utf8(self):
        with tempfile.TemporaryDirectory() as folder:
            path = os.path.join(os.fsencode(folder), b"s\xff\xfe.site")
            with open(path, "wb") as file:
                file.write(small().to_bytes())
            self.assertEqual(Site.read(path), small())
            self.assertEqual(Site.read(os.fsdecode(path)), small())
            done = subprocess.run([sys.executable, "-m", "duggfrask", "why", path], capture_output=True)
            self.assertEqual((done.returncode, done.stdout.decode()), (0, small().why()))
            done = subprocess.run([sys.executable, "-m", "duggfrask", "why", path + b"x"], capture_output=True)
            self.assertEqual((done.returncode, done.stderr.count(b"\n"), b"Traceback" in done.stderr), (1, 1, False))

    def test_threads(self):
        site, bad = small(), []
        plan = site.plan()

        def work():
            for _ in range(200):
                if site.plan() != plan or not site.clash(1, 2):
                    bad.append(1)

        threads = [threading.Thread(target=work) for _ in range(4)]
        for thread in threads:
            thread.start()
        for thread in threads:
            thread.join()
        self.assertEqual(bad, [])

    def test_a_table_of_the_wrong_size(self):
        site = small()
        for call in (lambda: site.plan_into(bytearray(17)), lambda: site.check(b""), lambda: site.plan().check(Site(3, 3, 3))):
            with self.assertRaises(Refused) as caught:
                call()
            self.assertEqual(caught.exception.number, 4)
        with self.assertRaises(ValueError):
            Plan(3, 3, 2, bytearray(17))
        with self.assertRaises(TypeError):
            site.plan_into(bytes(18))
        with self.assertRaises(ValueError):
            site.plan_into(memoryview(bytearray(36))[::2])

    def test_numbers_that_do_not_fit(self):
        site = small()
        for call in (lambda: site.clash(65537, 1), lambda: site.clash(-1, 1), lambda: site.with_load(1, 65536), lambda: Site(65536 + 3, 3, 2),
                     lambda: site.find(1 << 64), lambda: site.over_full(1 << 32), lambda: site.admit([Flow(1, 65536, 1)]), lambda: Site(1, 1, 1, blocked=[2048])):
            with self.assertRaises(ValueError):
                call()
        for call in (lambda: site.clash(1.5, 1), lambda: site.clash("1", 1)):
            with self.assertRaises(TypeError):
                call()

    def test_use(self):
        for words in ([], ["why"], ["plan", "x"]):
            self.assertEqual(subprocess.run([sys.executable, "-m", "duggfrask", *words], capture_output=True).returncode, 2)


if __name__ == "__main__":
    unittest.main()
