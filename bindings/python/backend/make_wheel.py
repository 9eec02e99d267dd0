"""Makes the wheel of the package: its files, and the shared library that ../build compiles. A build backend
of PEP 517, so that pip can ask for it without a network and without other packages."""

import base64
import hashlib
import os
import pathlib
import re
import subprocess
import sys
import sysconfig
import zipfile

PACKAGE = pathlib.Path(__file__).resolve().parent.parent
TOP = PACKAGE.parent.parent
LIBRARY = "librizhavaan_python.so"
#: So that the same files make the same wheel.
DATE = (2026, 1, 1, 0, 0, 0)


def project():
    """Name, version, description and Python of the project; no reader of TOML comes with Python 3.9."""
    text = (PACKAGE / "pyproject.toml").read_text(encoding="utf-8")
    section = text.split("[project]", 1)[1]
    return dict(re.findall(r'^([\w-]+) = "(.*)"$', section, re.MULTILINE))


def metadata():
    of = project()
    head = [
        "Metadata-Version: 2.1",
        f"Name: {of['name']}",
        f"Version: {of['version']}",
        f"Summary: {of['description']}",
        f"Requires-Python: {of['requires-python']}",
        "Description-Content-Type: text/markdown",
    ]
    return "\n".join(head) + "\n\n" + (PACKAGE / of["readme"]).read_text(encoding="utf-8")


def tag():
    return f"py3-none-{sysconfig.get_platform().replace('-', '_').replace('.', '_')}"


def library():
    """The shared library: compiled anew where the repository is there, for what changed alone."""
    script = PACKAGE / "build"
    if not (TOP / "core").is_dir():
        raise SystemExit(f"{PACKAGE} is built within its repository, which is not here; install a wheel instead")
    folder = pathlib.Path(os.environ.get("RIZHAVAAN_LIB_DIR", TOP / "target" / "staticlib"))
    is_built = (folder / "librizhavaan.a").is_file()
    told = subprocess.run([str(script), "--library", *(["--built"] if is_built else [])], cwd=TOP, stdout=sys.stderr)
    if told.returncode:
        raise SystemExit(f"{script} --library ended with {told.returncode}; what it said stands above")
    return (TOP / "target" / "python" / LIBRARY).read_bytes()


def stem():
    of = project()
    return f"{of['name']}-{of['version']}"


def about():
    """The files that describe the wheel."""
    info = f"{stem()}.dist-info"
    wheel = f"Wheel-Version: 1.0\nGenerator: rizhavaan\nRoot-Is-Purelib: false\nTag: {tag()}\n"
    return info, {f"{info}/METADATA": metadata().encode(), f"{info}/WHEEL": wheel.encode()}


def digest(held):
    return base64.urlsafe_b64encode(hashlib.sha256(held).digest()).rstrip(b"=").decode()


def prepare_metadata_for_build_wheel(metadata_directory, config_settings=None):
    info, files = about()
    (pathlib.Path(metadata_directory) / info).mkdir()
    for name, held in files.items():
        (pathlib.Path(metadata_directory) / name).write_bytes(held)
    return info


def build_wheel(wheel_directory, config_settings=None, metadata_directory=None):
    parts = sorted(path for path in (PACKAGE / "rizhavaan").iterdir() if path.suffix in (".py", ".typed"))
    files = {f"rizhavaan/{path.name}": path.read_bytes() for path in parts}
    files[f"rizhavaan/{LIBRARY}"] = library()
    info, described = about()
    files.update(described)
    record = [f"{name},sha256={digest(held)},{len(held)}" for name, held in files.items()]
    files[f"{info}/RECORD"] = "\n".join([*record, f"{info}/RECORD,,", ""]).encode()
    wheel = f"{stem()}-{tag()}.whl"
    with zipfile.ZipFile(pathlib.Path(wheel_directory) / wheel, "w", zipfile.ZIP_DEFLATED) as archive:
        for name, held in files.items():
            entry = zipfile.ZipInfo(name, DATE)
            entry.compress_type = zipfile.ZIP_DEFLATED
            entry.external_attr = 0o644 << 16
            archive.writestr(entry, held)
    return wheel


def build_sdist(sdist_directory, config_settings=None):
    raise SystemExit("there is no archive of sources: the package is built within its repository")


if __name__ == "__main__":
    print(build_wheel(sys.argv[1]))
