"""Builds the wheel: the package and the shipped programs. It needs Python's standard library alone, so `pip install` works offline.

The version is that of dist/MANIFEST, and a program that is not the one of the manifest is refused.
"""
import base64
import hashlib
import pathlib
import zipfile

HERE = pathlib.Path(__file__).resolve().parent.parent
DIST = HERE.parent / "dist"
PROGRAMS = ("qapplan", "qapverify")
TAG = "py3-none-manylinux_2_34_x86_64"
EPOCH = (2000, 1, 1, 0, 0, 0)


def manifest():
    """The lines of the manifest, by their first word."""
    return {line.split()[0]: line.split()[1:] for line in (DIST / "MANIFEST").read_text().splitlines()}


def programs():
    """The bytes of each program, which are those that the manifest names."""
    stated = manifest()
    for name in PROGRAMS:
        data = (DIST / "x86_64-linux" / name).read_bytes()
        if hashlib.sha256(data).hexdigest() != stated[name][1]:
            raise RuntimeError(f"dist/x86_64-linux/{name} is not what dist/MANIFEST names")
        yield f"konhrath/bin/{name}", data, 0o755


def files():
    """All files of the wheel but its record: names, bytes and modes."""
    version = manifest()["version"][0]
    info = f"konhrath-{version}.dist-info"
    for path in sorted((HERE / "konhrath").glob("*")):
        if path.is_file():
            yield f"konhrath/{path.name}", path.read_bytes(), 0o644
    yield from programs()
    for name in ("LICENSE-MIT", "LICENSE-APACHE"):
        yield f"{info}/licenses/{name}", (HERE.parent / name).read_bytes(), 0o644
    text = f"Metadata-Version: 2.1\nName: konhrath\nVersion: {version}\n"
    text += "Summary: Exact solutions of quadratic assignment problems, with proofs\n"
    text += "License: MIT OR Apache-2.0\nRequires-Python: >=3.9\nDescription-Content-Type: text/markdown\n\n"
    yield f"{info}/METADATA", text.encode() + (HERE / "README.md").read_bytes(), 0o644
    wheel = f"Wheel-Version: 1.0\nGenerator: konhrath_build\nRoot-Is-Purelib: false\nTag: {TAG}\n"
    yield f"{info}/WHEEL", wheel.encode(), 0o644


def get_requires_for_build_wheel(config_settings=None):
    return []


def build_wheel(wheel_directory, config_settings=None, metadata_directory=None):
    version = manifest()["version"][0]
    name = f"konhrath-{version}-{TAG}.whl"
    record = []
    with zipfile.ZipFile(pathlib.Path(wheel_directory) / name, "w", zipfile.ZIP_DEFLATED) as wheel:
        for path, data, mode in files():
            entry = zipfile.ZipInfo(path, EPOCH)
            entry.external_attr = (0o100000 | mode) << 16
            wheel.writestr(entry, data, zipfile.ZIP_DEFLATED)
            digest = base64.urlsafe_b64encode(hashlib.sha256(data).digest()).rstrip(b"=").decode()
            record.append(f"{path},sha256={digest},{len(data)}\n")
        path = f"konhrath-{version}.dist-info/RECORD"
        entry = zipfile.ZipInfo(path, EPOCH)
        entry.external_attr = 0o100644 << 16
        wheel.writestr(entry, "".join(record) + f"{path},,\n", zipfile.ZIP_DEFLATED)
    return name
