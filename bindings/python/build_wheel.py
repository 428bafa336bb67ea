"""Packs the package and its shared object as a wheel, for pip and other front ends (PEP 517).

setuptools isn't used: it builds extensions of one Python version, and this shared object serves all.
"""

import base64
import hashlib
import re
import sysconfig
import zipfile
from pathlib import Path

HERE = Path(__file__).resolve().parent


def build_wheel(wheel_directory, config_settings=None, metadata_directory=None):
    """Writes the wheel into a folder, and returns its name."""
    if not (HERE / "curdmesa/libcurdmesa.so").exists():
        raise SystemExit("no curdmesa/libcurdmesa.so: `make` in bindings/python links it")
    text = (HERE / "pyproject.toml").read_text("utf-8")
    project = dict(re.findall(r'^([\w-]+) = "(.*)"$', text, re.M))
    name = f"{project['name']}-{project['version']}"
    tag = f"py3-none-{re.sub(r'[-.]', '_', sysconfig.get_platform())}"
    files = {f"curdmesa/{file.name}": file.read_bytes()
             for file in sorted((HERE / "curdmesa").iterdir()) if file.is_file()}
    files[f"{name}.dist-info/METADATA"] = (
        f"Metadata-Version: 2.1\nName: {project['name']}\nVersion: {project['version']}\n"
        f"Summary: {project['description']}\nLicense: {project['license']}\n"
        f"Requires-Python: {project['requires-python']}\n").encode()
    files[f"{name}.dist-info/WHEEL"] = (
        f"Wheel-Version: 1.0\nGenerator: build_wheel\nRoot-Is-Purelib: false\nTag: {tag}\n").encode()
    record = "".join(f"{path},{checksum(data)},{len(data)}\n" for path, data in files.items())
    files[f"{name}.dist-info/RECORD"] = f"{record}{name}.dist-info/RECORD,,\n".encode()
    with zipfile.ZipFile(Path(wheel_directory) / f"{name}-{tag}.whl", "w", zipfile.ZIP_DEFLATED) as wheel:
        for path, data in files.items():
            wheel.writestr(path, data)
    return f"{name}-{tag}.whl"


def checksum(data):
    return "sha256=" + base64.urlsafe_b64encode(hashlib.sha256(data).digest()).decode().rstrip("=")
