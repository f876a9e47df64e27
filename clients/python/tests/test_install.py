"""What pip installs is built without a network, and is the module."""

import base64
import hashlib
import pathlib
import subprocess
import sys
import tarfile
import tempfile
import unittest
import zipfile

from serving import HERE

import make_wheel

FOLDER = HERE.parent


class TestWheel(unittest.TestCase):
    """The archives that pip asks for."""

    def setUp(self) -> None:
        folder = tempfile.TemporaryDirectory()
        self.addCleanup(folder.cleanup)
        self.folder = folder.name

    def wheel(self, name: str) -> zipfile.ZipFile:
        """A wheel, whose record has the digest of each file."""
        archive = zipfile.ZipFile(pathlib.Path(self.folder, name))
        self.addCleanup(archive.close)
        info = name.removesuffix("-py3-none-any.whl") + ".dist-info"
        rows = [row.split(",") for row in archive.read(f"{info}/RECORD").decode().splitlines()]
        self.assertEqual([row[0] for row in rows], archive.namelist())
        for path, digest, size in rows[:-1]:
            content = archive.read(path)
            found = base64.urlsafe_b64encode(hashlib.sha256(content).digest()).decode()
            self.assertEqual((f"sha256={found}".rstrip("="), str(len(content))), (digest, size))
        metadata = archive.read(f"{info}/METADATA").decode()
        self.assertIn("\nName: recline\n", metadata)
        self.assertIn("\nRequires-Python: >=3.10\n", metadata)
        return archive

    def test_wheel(self) -> None:
        archive = self.wheel(make_wheel.build_wheel(self.folder))
        for name in make_wheel.installed():
            self.assertEqual(archive.read(name), (FOLDER / name).read_bytes())
        self.assertIn("recline/py.typed", archive.namelist())
        script = f"import sys; sys.path[:] = [{archive.filename!r}, *sys.path[1:]]\n"
        script += "import recline; print(recline.__file__, recline.MessageName(0, 0, 1).number)"
        ran = subprocess.run([sys.executable, "-c", script], capture_output=True, text=True)
        self.assertEqual(ran.stdout, f"{archive.filename}/recline/__init__.py 1\n")

    def test_editable(self) -> None:
        archive = self.wheel(make_wheel.build_editable(self.folder))
        self.assertEqual(archive.read("recline.pth").decode(), f"{FOLDER}\n")

    def test_sources(self) -> None:
        name = make_wheel.build_sdist(self.folder)
        with tarfile.open(pathlib.Path(self.folder, name)) as archive:
            found = {path.split("/", 1)[1] for path in archive.getnames()}
        self.assertEqual(found, {*make_wheel.IN_SOURCE, *make_wheel.installed(), "PKG-INFO"})


if __name__ == "__main__":
    unittest.main()
