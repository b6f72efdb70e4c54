"""Builds the package of the module enip for pip, which calls it by pyproject.toml (PEP 517). It needs nothing but Python,
so `pip install` works without a network. The same files give the same wheel."""

import base64
import hashlib
import io
import re
import tarfile
import zipfile
from pathlib import Path

FOLDER = Path(__file__).resolve().parent
FILES = ["enip/__init__.py", "enip/owner.py", "enip/py.typed"]
# The time of all files in a package: the first that a zip file can have.
YEAR = 1980
PROJECT = (FOLDER / "pyproject.toml").read_text("utf-8")


def _value(key):
    """The text of a key of pyproject.toml."""
    return re.search(r'^%s = (?:\{ text = )?"(.*?)"' % key, PROJECT, re.M)[1]


def _name():
    return "%s-%s" % (_value("name").replace("-", "_"), _value("version"))


def _metadata():
    lines = ["Metadata-Version: 2.1", "Name: " + _value("name"), "Version: " + _value("version"),
             "Summary: " + _value("description"), "License: " + _value("license"),
             "Requires-Python: " + _value("requires-python"), "Description-Content-Type: text/markdown"]
    classifiers = re.search(r"^classifiers = \[(.*?)^\]", PROJECT, re.M | re.S)[1]
    lines += ["Classifier: " + one for one in re.findall(r'"(.*?)"', classifiers)]
    return "\n".join(lines) + "\n\n" + (FOLDER / "README.md").read_text("utf-8")


def _entries():
    """The files of a wheel with their bytes, and the list of them."""
    info = _name() + ".dist-info/"
    entries = {name: (FOLDER / name).read_bytes() for name in FILES}
    entries[info + "METADATA"] = _metadata().encode()
    entries[info + "WHEEL"] = b"Wheel-Version: 1.0\nGenerator: packaged\nRoot-Is-Purelib: true\nTag: py3-none-any\n"
    record = ""
    for name, data in entries.items():
        digest = base64.urlsafe_b64encode(hashlib.sha256(data).digest()).rstrip(b"=").decode()
        record += "%s,sha256=%s,%d\n" % (name, digest, len(data))
    entries[info + "RECORD"] = (record + info + "RECORD,,\n").encode()
    return entries


def build_wheel(wheel_directory, config_settings=None, metadata_directory=None):
    """Writes the wheel, and returns its name."""
    name = _name() + "-py3-none-any.whl"
    with zipfile.ZipFile(Path(wheel_directory, name), "w", zipfile.ZIP_DEFLATED) as wheel:
        for path, data in _entries().items():
            entry = zipfile.ZipInfo(path, (YEAR, 1, 1, 0, 0, 0))
            entry.external_attr = 0o644 << 16
            wheel.writestr(entry, data, zipfile.ZIP_DEFLATED)
    return name


def build_sdist(sdist_directory, config_settings=None):
    """Writes the archive of the sources, and returns its name."""
    name = _name() + ".tar.gz"
    entries = {path: (FOLDER / path).read_bytes() for path in ["README.md", "pyproject.toml", "packaged.py", *FILES]}
    entries["PKG-INFO"] = _metadata().encode()
    with tarfile.open(Path(sdist_directory, name), "w:gz", format=tarfile.PAX_FORMAT) as archive:
        for path, data in entries.items():
            entry = tarfile.TarInfo("%s/%s" % (_name(), path))
            entry.size, entry.mode = len(data), 0o644
            archive.addfile(entry, io.BytesIO(data))
    return name
