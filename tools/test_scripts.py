#!/usr/bin/env python3
"""Tests of the scripts of bindings/ and compare/: where they install, and how they end for a wrong use. Run it anywhere.

They run on a copy of what they need, in which bindings/prove does nothing: what stands in target/staticlib and target/bin is taken as it is.
"""
import os
import shutil
import subprocess
import tempfile
import unittest

TOP = os.path.dirname(os.path.dirname(os.path.abspath(__file__)))
MADE = ["target/staticlib/libexports.a", "target/bin/sendai"]
NEEDED = ["crates/version/src/lib.rt", "crates/sendai/data/sendai.bin", "crates/sendai/stdout", "compare/run", "LICENSE", "NOTICE"]


class Scripts(unittest.TestCase):
    def setUp(self):
        folder = tempfile.TemporaryDirectory()
        self.addCleanup(folder.cleanup)
        self.folder = os.path.realpath(folder.name)
        self.top = os.path.join(self.folder, "sendai")
        shutil.copytree(os.path.join(TOP, "bindings"), os.path.join(self.top, "bindings"), ignore=shutil.ignore_patterns("target", "__pycache__"))
        for path in NEEDED + [path for path in MADE if os.path.exists(os.path.join(TOP, path))]:
            os.makedirs(os.path.dirname(os.path.join(self.top, path)), exist_ok=True)
            shutil.copy(os.path.join(TOP, path), os.path.join(self.top, path))
        with open(os.path.join(self.top, "bindings", "prove"), "w") as f:
            f.write("#!/bin/sh\n")

    def run_script(self, script, *words, **environment):
        """The status of a script that is run outside the repository, and what it prints and says. What it installs stays in the test's folder."""
        known = {name: value for name, value in os.environ.items() if name not in ("LIBDIR", "SENDAI_SRC_DIR")}
        known["DESTDIR"] = os.path.join(self.folder, "installed")
        done = subprocess.run([os.path.join(self.top, script), *words], cwd=self.folder, env={**known, **environment},
                              stdout=subprocess.PIPE, stderr=subprocess.PIPE, text=True)
        return done.returncode, done.stdout, done.stderr

    @unittest.skipUnless(all(os.path.exists(os.path.join(TOP, path)) for path in MADE), "no %s (bindings/prove makes them)" % " or ".join(MADE))
    def test_where_it_installs(self):
        for told, lib in (({}, "lib"), ({"LIBDIR": "lib64"}, "lib64"), ({"LIBDIR": "lib/x86_64-linux-gnu"}, "lib/x86_64-linux-gnu"),
                          ({"LIBDIR": "/opt/sendai/lib32"}, "lib32")):
            package = "package-" + os.path.basename(lib)
            status, _, said = self.run_script("bindings/install", "/opt/sendai", DESTDIR=package, **told)
            self.assertEqual((status, said), (0, ""))
            put = os.path.join(self.folder, package, "opt", "sendai")
            found = {os.path.relpath(folder, put) for folder, _, files in os.walk(put) if files}
            self.assertEqual(found, {"bin", "include", "share/doc/sendai", lib, lib + "/pkgconfig"})
            with open(os.path.join(put, lib, "pkgconfig", "sendai.pc")) as f:
                self.assertIn("\nlibdir=${prefix}/%s\n" % lib, f.read())
            self.assertEqual(self.run_script("bindings/test-installed", package, "/opt/sendai", **told)[::2], (0, ""))

    def test_a_wrong_use(self):
        for script, words, told in (("install", [], {}), ("install", ["usr"], {}), ("install", ["/usr", "/usr"], {}),
                                    ("install", ["/usr"], {"LIBDIR": "/lib64"}), ("install", ["/usr"], {"LIBDIR": "../lib64"}),
                                    ("install", ["/usr"], {"LIBDIR": "/usr/.."}), ("version", ["--foo"], {}), ("version", ["--check", "x"], {}),
                                    ("version", ["", "x"], {}), ("test-installed", [], {}), ("test-installed", ["x"], {})):
            status, out, said = self.run_script("bindings/" + script, *words, **told)
            self.assertEqual((status, out), (2, ""), (script, words))
            self.assertRegex(said, r"^usage: [^\n]*bindings/%s [^\n]+\n\Z" % script)
        self.assertFalse(os.path.exists(os.path.join(self.folder, "installed")))

    def test_the_version(self):
        told = self.run_script("bindings/version")
        self.assertRegex(told[1], r"^\d+\.\d+\.\d+\n\Z")
        self.assertEqual((told[::2], self.run_script("bindings/version", "--check")), ((0, ""), told))

    def test_nothing_to_compare_with(self):
        status, out, said = self.run_script("compare/run", SENDAI_SRC_DIR=self.folder)
        self.assertEqual((status, out), (3, ""))
        self.assertRegex(said, r"^compare: .*sendai\.rs is not at hand: nothing was compared\ncompare: set SENDAI_SRC_DIR .*\n\Z")


if __name__ == "__main__":
    unittest.main()
