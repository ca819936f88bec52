"""Builds the wheel for pip: the module, the shared library of this checkout and the licence, and nothing from elsewhere.

A wheel is a zip file with a list of its members, so that a page of plain Python makes one where no build tool is at hand.
"""
import base64
import hashlib
import os
import re
import sys
import sysconfig
import zipfile

HERE = os.path.dirname(os.path.abspath(__file__))
BUILT = os.path.normpath(os.path.join(HERE, "../../target/clients/libbmp_writer.so"))

# pip imports this file from the checkout, which leaves its bytecode there.
try:
    os.remove(__spec__.cached)
    os.rmdir(os.path.dirname(__spec__.cached))
except OSError:
    pass  # None was written, or that of other modules stands beside it.


def _read(path):
    with open(os.path.join(HERE, path), "rb") as file:
        return file.read()


def _library():
    # pip runs this file in its own folder; a relative path is meant from the caller's.
    path = os.path.join(os.environ.get("PWD", HERE), os.environ.get("BMP_WRITER_LIBRARY") or BUILT)
    if not os.path.isfile(path):
        sys.exit(f"the library {path} is missing: run `bash clients/staticlib.sh capi && bash clients/build.sh` in the "
                 "checkout, or set BMP_WRITER_LIBRARY to libbmp_writer.so")
    return _read(path)


def build_wheel(wheel_directory, config_settings=None, metadata_directory=None):
    said = dict(re.findall(r'^([\w-]+) = "(.*)"$', _read("pyproject.toml").decode(), re.MULTILINE))
    tag = "py3-none-" + re.sub(r"\W", "_", sysconfig.get_platform())
    stem = f"bmp_writer-{said['version']}"
    info = f"{stem}.dist-info"
    metadata = (f"Metadata-Version: 2.1\nName: {said['name']}\nVersion: {said['version']}\nSummary: {said['description']}\n"
                f"License: MIT\nLicense-File: NOTICE\nRequires-Python: {said['requires-python']}\n")
    # A package and not a lone module, since only a package can hold the library and the mark of its type hints.
    members = {
        "bmp_writer/__init__.py": _read("bmp_writer.py"),
        "bmp_writer/py.typed": b"",
        "bmp_writer/libbmp_writer.so": _library(),
        f"{info}/NOTICE": _read("../../NOTICE"),
        f"{info}/METADATA": metadata.encode(),
        f"{info}/WHEEL": f"Wheel-Version: 1.0\nGenerator: wheel_backend\nRoot-Is-Purelib: false\nTag: {tag}\n".encode(),
    }
    record = ""
    for name, content in members.items():
        digest = base64.urlsafe_b64encode(hashlib.sha256(content).digest()).rstrip(b"=").decode()
        record += f"{name},sha256={digest},{len(content)}\n"
    members[f"{info}/RECORD"] = (record + f"{info}/RECORD,,\n").encode()
    wheel = f"{stem}-{tag}.whl"
    with zipfile.ZipFile(os.path.join(wheel_directory, wheel), "w", zipfile.ZIP_DEFLATED) as archive:
        for name, content in members.items():
            member = zipfile.ZipInfo(name)  # Dated 1980, so that the same checkout gives the same wheel.
            member.external_attr = 0o100644 << 16
            archive.writestr(member, content, zipfile.ZIP_DEFLATED)
    return wheel


def build_sdist(sdist_directory, config_settings=None):
    sys.exit("a source archive would lack the library, which is built from the whole checkout: build a wheel there")
