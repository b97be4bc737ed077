"""Makes the wheel, as pip asks for it, with nothing but Python: `pip wheel .` in this folder, or tools/release.

The folder VOBREKAN_LIB has libvobrekan.so, which is put into the wheel, and in licences/, where that is there, those of what is in it; without VOBREKAN_LIB
it is bindings/out beside this folder. The same files give the same bytes."""
import base64
import hashlib
import os
import tomllib
import zipfile

HERE = os.path.dirname(os.path.abspath(__file__))
TAG = "py3-none-linux_x86_64"
MODULE = ["__init__.py", "bounds.py", "declarations.py", "declarations.pyi", "py.typed"]
LICENCES = ["LICENSE-APACHE", "LICENSE-MIT"]
# The earliest time that a file of an archive can have.
TIME = (1980, 1, 1, 0, 0, 0)


def read(path):
    with open(path, "rb") as it:
        return it.read()


def project():
    with open(f"{HERE}/pyproject.toml", "rb") as it:
        return tomllib.load(it)["project"]


def metadata(it):
    """The text METADATA."""
    rows = ["Metadata-Version: 2.1", f"Name: {it['name']}", f"Version: {it['version']}", f"Summary: {it['description']}"]
    rows += [f"License: {it['license']['text']}", f"Keywords: {','.join(it['keywords'])}", f"Requires-Python: {it['requires-python']}"]
    rows += [f"Classifier: {name}" for name in it["classifiers"]] + ["Description-Content-Type: text/markdown"]
    return "\n".join(rows) + "\n\n" + read(f"{HERE}/{it['readme']}").decode()


def folder():
    """The folder with the shared object."""
    return os.environ.get("VOBREKAN_LIB") or f"{HERE}/../out"


def licences():
    """The licence files: this project's, and those that stand beside the shared object."""
    found, beside = {name: read(f"{HERE}/../../{name}") for name in LICENCES}, f"{folder()}/licences"
    if os.path.isdir(beside):
        found |= {name: read(f"{beside}/{name}") for name in sorted(os.listdir(beside))}
    return found


def files():
    """The files of the wheel, by their paths in it."""
    it = project()
    notes = f"{it['name']}-{it['version']}.dist-info"
    made = {f"vobrekan/{name}": read(f"{HERE}/vobrekan/{name}") for name in MODULE}
    made["vobrekan/libvobrekan.so"] = read(f"{folder()}/libvobrekan.so")
    made[f"{notes}/METADATA"] = metadata(it).encode()
    made[f"{notes}/WHEEL"] = f"Wheel-Version: 1.0\nGenerator: vobrekan\nRoot-Is-Purelib: false\nTag: {TAG}\n".encode()
    made |= {f"{notes}/licenses/{name}": data for name, data in licences().items()}
    record = f"{notes}/RECORD"
    rows = [f"{path},sha256={base64.urlsafe_b64encode(hashlib.sha256(data).digest()).rstrip(b'=').decode()},{len(data)}" for path, data in made.items()]
    made[record] = ("\n".join([*rows, f"{record},,"]) + "\n").encode()
    return made


def build_wheel(wheel_directory, config_settings=None, metadata_directory=None):
    """Makes the wheel in a folder, and answers its name."""
    it = project()
    name = f"{it['name']}-{it['version']}-{TAG}.whl"
    with zipfile.ZipFile(os.path.join(wheel_directory, name), "w", zipfile.ZIP_DEFLATED) as archive:
        for path, data in files().items():
            entry = zipfile.ZipInfo(path, TIME)
            entry.compress_type = zipfile.ZIP_DEFLATED
            entry.external_attr = (0o755 if path.endswith(".so") else 0o644) << 16
            archive.writestr(entry, data)
    return name


def build_sdist(sdist_directory, config_settings=None):
    """A source archive is that of the whole repository."""
    raise NotImplementedError("there is no source archive of this module alone: take the repository")
