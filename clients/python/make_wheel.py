"""Builds what pip installs, by the calls of PEP 517 and PEP 660 and the standard library alone.

pip fetches what pyproject.toml requires for building. It requires nothing, so that
`pip install ./clients/python` needs no network.
"""

import base64
import hashlib
import io
import pathlib
import re
import tarfile
import zipfile

TOP = pathlib.Path(__file__).resolve().parent
PROJECT = dict(re.findall(r'^([\w-]+) = "(.*)"$', (TOP / "pyproject.toml").read_text(), re.M))
NAME = f"{PROJECT['name']}-{PROJECT['version']}"
WHEEL = "Wheel-Version: 1.0\nGenerator: make_wheel\nRoot-Is-Purelib: true\nTag: py3-none-any\n"
# The packages that are installed, each with its mark of being typed.
IN_WHEEL = ["recline/*.py", "recline_*/*.py", "recline*/py.typed"]
IN_SOURCE = ["pyproject.toml", "make_wheel.py", "README.md"]


def installed() -> list[str]:
    """The files that are installed, by name."""
    found = (path for pattern in IN_WHEEL for path in sorted(TOP.glob(pattern)))
    return [str(path.relative_to(TOP)) for path in found]


def metadata() -> str:
    """What is told of the project."""
    fields = {
        "Metadata-Version": "2.1", "Name": PROJECT["name"], "Version": PROJECT["version"],
        "Summary": PROJECT["description"], "Requires-Python": PROJECT["requires-python"],
        "Description-Content-Type": "text/markdown",
    }
    told = "".join(f"{name}: {value}\n" for name, value in fields.items())
    return f"{told}\n{(TOP / 'README.md').read_text()}"


def recorded(name: str, content: bytes) -> str:
    """The line of a file in the record of a wheel."""
    digest = base64.urlsafe_b64encode(hashlib.sha256(content).digest()).rstrip(b"=").decode()
    return f"{name},sha256={digest},{len(content)}\n"


def put_wheel(folder: str, content: dict[str, bytes]) -> str:
    """Writes a wheel of these files, and answers its name."""
    info = f"{NAME}.dist-info"
    files = {**content, f"{info}/METADATA": metadata().encode(), f"{info}/WHEEL": WHEEL.encode()}
    record = "".join(recorded(name, it) for name, it in files.items()) + f"{info}/RECORD,,\n"
    wheel = f"{NAME}-py3-none-any.whl"
    with zipfile.ZipFile(pathlib.Path(folder) / wheel, "w", zipfile.ZIP_DEFLATED) as archive:
        for name, it in {**files, f"{info}/RECORD": record.encode()}.items():
            file = zipfile.ZipInfo(name)
            file.external_attr = 0o644 << 16
            archive.writestr(file, it)
    return wheel


def build_wheel(
    wheel_directory: str, config_settings: object = None, metadata_directory: object = None
) -> str:
    """The wheel."""
    return put_wheel(wheel_directory, {name: (TOP / name).read_bytes() for name in installed()})


def build_editable(
    wheel_directory: str, config_settings: object = None, metadata_directory: object = None
) -> str:
    """A wheel that leads to this folder."""
    return put_wheel(wheel_directory, {"recline.pth": f"{TOP}\n".encode()})


def build_sdist(sdist_directory: str, config_settings: object = None) -> str:
    """An archive of the sources."""
    content = {name: (TOP / name).read_bytes() for name in [*IN_SOURCE, *installed()]}
    with tarfile.open(pathlib.Path(sdist_directory) / f"{NAME}.tar.gz", "w:gz") as archive:
        for name, it in {**content, "PKG-INFO": metadata().encode()}.items():
            file = tarfile.TarInfo(f"{NAME}/{name}")
            file.size = len(it)
            archive.addfile(file, io.BytesIO(it))
    return f"{NAME}.tar.gz"
