"""The build backend of the Python package: `pip install .` calls it. It needs the standard library alone, so pip works offline.

The package is the folder python/nfot, with tests/independent as nfot/slow/independent. Metadata are those of pyproject.toml.
"""
import ast
import base64
import configparser
import hashlib
import io
import os
import pathlib
import tarfile
import zipfile

ROOT = pathlib.Path(__file__).resolve().parent.parent
FOLDERS = {"python/nfot": "nfot", "tests/independent": "nfot/slow/independent"}  # of the checkout, and of the wheel
SOURCES = ("pyproject.toml", "README.md", "CITATION.cff", "tools/wheels.py")
EPOCH = (1980, 1, 1, 0, 0, 0)
WHEEL = "Wheel-Version: 1.0\nGenerator: nfot\nRoot-Is-Purelib: true\nTag: py3-none-any\n"


def project():
    """The tables [project] and [project.scripts] of pyproject.toml, in which each value stands on one line."""
    parser = configparser.ConfigParser(interpolation=None)
    parser.read_string((ROOT / "pyproject.toml").read_text(encoding="utf-8"))
    return [{key: ast.literal_eval(value) for key, value in parser[table].items()} for table in ("project", "project.scripts")]


def packed(folder):
    """The files of a folder that belong into the package, by their path in it."""
    files = [path for path in sorted(folder.rglob("*")) if path.is_file() and "__pycache__" not in path.parts]
    return {path.relative_to(folder).as_posix(): path.read_bytes() for path in files}


def metadata():
    """The folder of the metadata, and its files but RECORD."""
    found, scripts = project()
    lines = ["Metadata-Version: 2.1", f"Name: {found['name']}", f"Version: {found['version']}", f"Summary: {found['description']}",
             f"Keywords: {','.join(found['keywords'])}", f"Requires-Python: {found['requires-python']}",
             "Description-Content-Type: text/markdown", "", (ROOT / found["readme"]).read_text(encoding="utf-8")]
    entries = ["[console_scripts]", *(f"{name} = {place}" for name, place in scripts.items()), ""]
    folder = f"{found['name']}-{found['version']}.dist-info"
    texts = {"METADATA": "\n".join(lines), "WHEEL": WHEEL, "entry_points.txt": "\n".join(entries)}
    return folder, {f"{folder}/{name}": text.encode("utf-8") for name, text in texts.items()}


def write_wheel(place, files):
    """Writes a wheel with these files and its metadata; its name."""
    folder, more = metadata()
    files = {**files, **more}
    record = ""
    for name, data in files.items():
        digest = base64.urlsafe_b64encode(hashlib.sha256(data).digest()).rstrip(b"=").decode()
        record += f"{name},sha256={digest},{len(data)}\n"
    files[f"{folder}/RECORD"] = f"{record}{folder}/RECORD,,\n".encode()
    name = folder.replace(".dist-info", "-py3-none-any.whl")
    with zipfile.ZipFile(os.path.join(place, name), "w", zipfile.ZIP_DEFLATED) as wheel:
        for path, data in files.items():
            entry = zipfile.ZipInfo(path, EPOCH)
            entry.external_attr, entry.compress_type = 0o644 << 16, zipfile.ZIP_DEFLATED
            wheel.writestr(entry, data)
    return name


# ---- what pip calls

def build_wheel(wheel_directory, config_settings=None, metadata_directory=None):
    """The wheel of the package."""
    files = {f"{place}/{name}": data for folder, place in FOLDERS.items() for name, data in packed(ROOT / folder).items()}
    return write_wheel(wheel_directory, files)


def build_editable(wheel_directory, config_settings=None, metadata_directory=None):
    """The wheel of `pip install -e .`, which uses the checkout in place."""
    return write_wheel(wheel_directory, {"nfot.pth": f"{ROOT / 'python'}\n".encode()})


def build_sdist(sdist_directory, config_settings=None):
    """The archive of the sources of the package."""
    folder, more = metadata()
    stem = folder.replace(".dist-info", "")
    files = {name: (ROOT / name).read_bytes() for name in SOURCES}
    files.update({f"{folder}/{name}": data for folder in FOLDERS for name, data in packed(ROOT / folder).items()})
    files["PKG-INFO"] = more[f"{folder}/METADATA"]
    with tarfile.open(os.path.join(sdist_directory, f"{stem}.tar.gz"), "w:gz", format=tarfile.PAX_FORMAT) as archive:
        for name, data in files.items():
            entry = tarfile.TarInfo(f"{stem}/{name}")
            entry.size = len(data)
            archive.addfile(entry, io.BytesIO(data))
    return f"{stem}.tar.gz"
