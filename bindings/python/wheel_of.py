"""Builds the wheel of vcfh.py and libvcfh.so for pip, with nothing but Python's own library, so that pip needs no network.
The shared library is the file that VCFH_LIBRARY names, or else target/bindings/libvcfh.so of this checkout."""
import base64
import hashlib
import os
import pathlib
import zipfile

HERE = pathlib.Path(__file__).resolve().parent
NAME, VERSION, TAG = "vcfh", "0.1.0", "py3-none-linux_x86_64"
INFO = f"{NAME}-{VERSION}.dist-info"
METADATA = f"Metadata-Version: 2.1\nName: {NAME}\nVersion: {VERSION}\nSummary: VCF headers, read by proved code\nRequires-Python: >=3.8\n"
WHEEL = f"Wheel-Version: 1.0\nGenerator: wheel_of\nRoot-Is-Purelib: false\nTag: {TAG}\n"


def library():
    file = pathlib.Path(os.environ.get("VCFH_LIBRARY", HERE.parent.parent / "target" / "bindings" / "libvcfh.so"))
    if not file.exists():
        raise FileNotFoundError(f"{file} is not there: run bindings/build first")
    return file.read_bytes()


def recorded(name, data):
    digest = base64.urlsafe_b64encode(hashlib.sha256(data).digest()).rstrip(b"=").decode()
    return f"{name},sha256={digest},{len(data)}\n"


def build_wheel(wheel_directory, config_settings=None, metadata_directory=None):
    """A package, so that its types are seen (py.typed) and the library stands beside it."""
    files = {
        f"{NAME}/__init__.py": (HERE / "vcfh.py").read_bytes(),
        f"{NAME}/py.typed": b"",
        f"{NAME}/libvcfh.so": library(),
        f"{INFO}/METADATA": METADATA.encode(),
        f"{INFO}/WHEEL": WHEEL.encode(),
    }
    record = "".join(recorded(*file) for file in files.items()) + f"{INFO}/RECORD,,\n"
    wheel = f"{NAME}-{VERSION}-{TAG}.whl"
    with zipfile.ZipFile(pathlib.Path(wheel_directory) / wheel, "w", zipfile.ZIP_DEFLATED) as archive:
        for name, data in {**files, f"{INFO}/RECORD": record.encode()}.items():
            archive.writestr(name, data)
    return wheel
