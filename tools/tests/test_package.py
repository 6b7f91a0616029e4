"""tools/install and tools/package over a tree of their own, with a program that is played."""
import hashlib
import os
import shutil
import subprocess
import tempfile
import time
import unittest

TOP = os.path.dirname(os.path.dirname(os.path.dirname(os.path.abspath(__file__))))
PROGRAM = b"#!/bin/sh\necho played\n# GLIBC_2.2.5 GLIBC_2.34 GLIBC_2.4\n"
UNITS = ("gisavelom-agent", "gisavelom-apply", "gisavelom-collector", "gisavelom-server", "gisavelom-server@")


class Installing(unittest.TestCase):
    def setUp(self):
        made = tempfile.TemporaryDirectory()
        self.addCleanup(made.cleanup)
        self.top = os.path.join(made.name, "text")
        os.makedirs(f"{self.top}/crates/opamp_cli/src")
        for name in ("tools", "examples", "docs"):
            shutil.copytree(f"{TOP}/{name}", f"{self.top}/{name}", ignore=shutil.ignore_patterns("__pycache__"))
        for name in ("README.md", "CONTRIBUTING.md", "LICENSE", "HANDLES", "crates.txt"):
            shutil.copy(f"{TOP}/{name}", self.top)
        self.write("crates/opamp_cli/src/main.rt", b"the text")
        self.write("bin/rt", b"#!/bin/sh\necho kit of a test\n", 0o755)

    def write(self, path, content, mode=0o644):
        place = f"{self.top}/{path}"
        os.makedirs(os.path.dirname(place), exist_ok=True)
        with open(place, "wb") as file:
            file.write(content)
        os.chmod(place, mode)

    def build(self):
        """The program as ./opamp leaves it, behind the text."""
        self.write("crates/opamp_cli/out/opamp_cli", PROGRAM, 0o755)
        self.write("crates/opamp_cli/out/built-by-opamp", b"")
        late = time.time() + 60
        os.utime(f"{self.top}/crates/opamp_cli/out/built-by-opamp", (late, late))

    def run_tool(self, *words, **environment):
        environment = {**os.environ, "PATH": f"{self.top}/bin:{os.environ['PATH']}", **environment}
        ran = subprocess.run([f"{self.top}/tools/{words[0]}", *words[1:]], env=environment, capture_output=True, text=True, cwd=self.top, timeout=120)
        return ran.returncode, ran.stdout, ran.stderr

    def files(self, root):
        found = {}
        for at, _, names in os.walk(root):
            for name in names:
                found[os.path.relpath(f"{at}/{name}", root)] = f"{at}/{name}"
        return found

    def test_install(self):
        self.build()
        root = f"{self.top}/root"
        status, out, err = self.run_tool("install", DESTDIR=root)
        self.assertEqual((status, err), (0, ""))
        files = self.files(root)
        self.assertLessEqual({f"etc/systemd/system/{unit}.service" for unit in UNITS} | {"usr/local/bin/opamp", "etc/sysusers.d/gisavelom.conf"}, set(files))
        ran = subprocess.run([f"{root}/usr/local/bin/opamp-operator", "--help"], capture_output=True, text=True, timeout=60)
        self.assertEqual((ran.returncode, ran.stdout[:6]), (0, "usage:"))
        self.assertIn(f"install: {root}/usr/local/bin/opamp\n", out)

    def test_what_is_not_built_of_this_text_is_not_installed(self):
        status, _, err = self.run_tool("install", DESTDIR=f"{self.top}/root")
        self.assertEqual((status, "the program isn't built" in err), (1, True))
        self.build()
        late = time.time() + 120
        os.utime(f"{self.top}/crates/opamp_cli/src/main.rt", (late, late))
        status, _, err = self.run_tool("install", DESTDIR=f"{self.top}/root")
        self.assertEqual((status, "main.rt has changed since the program was built" in err), (1, True))
        self.assertFalse(os.path.exists(f"{self.top}/root"))

    @unittest.skipUnless(shutil.which("dpkg-deb"), "dpkg-deb isn't here")
    def test_package(self):
        self.build()
        status, out, err = self.run_tool("package", "--out", self.top)
        self.assertEqual((status, err), (0, ""))
        made = out.strip().partition("package: ")[2]
        root = f"{self.top}/root"
        subprocess.run(["dpkg-deb", "-R", made, root], check=True, capture_output=True)
        files = self.files(root)
        doc = "usr/share/doc/gisavelom"
        wanted = {f"{doc}/README.md", f"{doc}/tools/README.md", f"{doc}/docs/SERVER.md", f"{doc}/examples/balanced/haproxy.cfg", f"{doc}/copyright", "usr/bin/opamp"}
        wanted |= {f"usr/lib/systemd/system/{unit}.service" for unit in UNITS} | {"usr/lib/sysusers.d/gisavelom.conf", "usr/lib/gisavelom/gisavelom_operator/rounds.py"}
        self.assertLessEqual(wanted, set(files))
        self.assertFalse([path for path in files if "__pycache__" in path or path.startswith("etc/")])
        text, kit, program = (line.split(" ", 1) for line in self.read(files[f"{doc}/BUILT"]).splitlines())
        self.assertEqual((kit, program), (["kit", "kit of a test"], ["program", hashlib.sha256(PROGRAM).hexdigest()]))
        self.assertEqual(text, ["text", self.run_tool("package", "--text-hash")[1].strip()])
        self.assertIn("Depends: libc6 (>= 2.34), python3 (>= 3.9)\n", self.read(files["DEBIAN/control"]))
        self.assertIn("ExecStart=/usr/bin/opamp serve", self.read(files["usr/lib/systemd/system/gisavelom-server.service"]))
        for line in self.read(files["DEBIAN/md5sums"]).splitlines():
            digest, path = line.split("  ")
            with open(files.pop(path), "rb") as file:
                self.assertEqual(hashlib.md5(file.read()).hexdigest(), digest)
        self.assertEqual({path.partition("/")[0] for path in files if not os.path.islink(files[path])}, {"DEBIAN"})

    def read(self, path):
        with open(path, encoding="utf-8") as file:
            return file.read()

    def test_words(self):
        self.assertEqual(self.run_tool("package", "--out", "/nowhere")[0], 2)
        self.assertEqual(self.run_tool("package", "x")[0], 2)
        self.assertEqual(self.run_tool("install", "--prefix", "relative")[0], 2)
        self.assertEqual(self.run_tool("package", "--help")[0], 0)


if __name__ == "__main__":
    unittest.main()
