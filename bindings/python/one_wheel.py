"""Makes the wheel of `gomthau_filter` for pip: what PEP 517 asks of a build backend, and no more."""
import base64
import hashlib
import os
import zipfile

NAME, VERSION = "gomthau_filter", "0.1.0"
INFO = f"{NAME}-{VERSION}.dist-info"
SUMMARY = "Verified route filters: texts in a part of BIRD's language, which are verified once and then answer routes"


def files():
    """The path of each file in the wheel, and its bytes."""
    for name in ("__init__.py", "py.typed"):
        with open(os.path.join(NAME, name), "rb") as it:
            yield f"{NAME}/{name}", it.read()
    about = f"Metadata-Version: 2.1\nName: gomthau-filter\nVersion: {VERSION}\nSummary: {SUMMARY}\nRequires-Python: >=3.8\n"
    yield f"{INFO}/METADATA", about.encode()
    yield f"{INFO}/WHEEL", b"Wheel-Version: 1.0\nGenerator: one_wheel\nRoot-Is-Purelib: true\nTag: py3-none-any\n"


def build_wheel(wheel_directory, config_settings=None, metadata_directory=None):
    wheel = f"{NAME}-{VERSION}-py3-none-any.whl"
    record = f"{INFO}/RECORD"
    rows = []
    with zipfile.ZipFile(os.path.join(wheel_directory, wheel), "w", zipfile.ZIP_DEFLATED) as out:
        for path, content in files():
            out.writestr(path, content)
            digest = base64.urlsafe_b64encode(hashlib.sha256(content).digest()).rstrip(b"=").decode()
            rows.append(f"{path},sha256={digest},{len(content)}\n")
        out.writestr(record, "".join([*rows, f"{record},,\n"]))
    return wheel


def build_sdist(sdist_directory, config_settings=None):
    raise NotImplementedError("the module is installed from its folder")
