"""Builds the wheel of gondyru with the standard library alone, so that `pip install ./python` needs no network.

The wheel has libgondyru.so, which tools/build-c built before.
"""
import base64
import glob
import hashlib
import os
import re
import sysconfig
import zipfile

HERE = os.path.dirname(os.path.abspath(__file__))
LIBRARY = os.path.join(HERE, "..", "crates", "rtc_c", "out", "libgondyru.so")


# The name and the version, and what else pyproject.toml says as `key = "value"`.
def project():
    with open(os.path.join(HERE, "pyproject.toml"), encoding="utf-8") as file:
        return dict(re.findall(r'^([\w-]+) = "([^"]*)"$', file.read(), re.MULTILINE))


def files():
    for path in sorted(glob.glob(os.path.join(HERE, "gondyru", "*.py"))):
        with open(path, "rb") as file:
            yield f"gondyru/{os.path.basename(path)}", file.read()
    if not os.path.isfile(LIBRARY):
        raise SystemExit("libgondyru.so is not there: build it by tools/build-c first")
    with open(LIBRARY, "rb") as file:
        yield "gondyru/libgondyru.so", file.read()


def sum_of(data):
    return "sha256=" + base64.urlsafe_b64encode(hashlib.sha256(data).digest()).rstrip(b"=").decode()


def build_wheel(wheel_directory, config_settings=None, metadata_directory=None):
    said = project()
    tag = "py3-none-" + re.sub(r"[-.]", "_", sysconfig.get_platform())
    info = f"{said['name']}-{said['version']}.dist-info"
    metadata = f"Metadata-Version: 2.1\nName: {said['name']}\nVersion: {said['version']}\nSummary: {said['description']}\n"
    metadata += f"Requires-Python: {said['requires-python']}\n"
    wheel = f"Wheel-Version: 1.0\nGenerator: build_backend\nRoot-Is-Purelib: false\nTag: {tag}\n"
    rows = [*files(), (f"{info}/METADATA", metadata.encode()), (f"{info}/WHEEL", wheel.encode())]
    record = "".join(f"{name},{sum_of(data)},{len(data)}\n" for name, data in rows) + f"{info}/RECORD,,\n"
    made = f"{said['name']}-{said['version']}-{tag}.whl"
    with zipfile.ZipFile(os.path.join(wheel_directory, made), "w", zipfile.ZIP_DEFLATED) as archive:
        for name, data in [*rows, (f"{info}/RECORD", record.encode())]:
            archive.writestr(name, data)
    return made
