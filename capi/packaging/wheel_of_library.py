"""Builds the wheel of the Python module, as PEP 517 asks for it: vmbind.py and build/libvmbind.so as the package `vmbind`, with types."""
import base64
import hashlib
import os
import re
import sysconfig
import zipfile

HERE = os.path.dirname(os.path.dirname(os.path.abspath(__file__)))


def read(name):
    with open(os.path.join(HERE, name), "rb") as file:
        return file.read()


def version():
    """The header's, of three numbers."""
    numbers = re.findall(rb"^#define VMBIND_VERSION_(?:MAJOR|MINOR|PATCH) (\d+)$", read("vmbind.h"), re.M)
    return ".".join(it.decode() for it in numbers)


def get_requires_for_build_wheel(config_settings=None):
    return []


def build_wheel(wheel_directory, config_settings=None, metadata_directory=None):
    if not os.path.exists(os.path.join(HERE, "build", "libvmbind.so")):
        raise SystemExit("capi/build/libvmbind.so isn't there: `make lib` proves and builds it")
    name, tag = f"vmbind-{version()}", f"py3-none-{re.sub(r'[-.]', '_', sysconfig.get_platform())}"
    about = f"{name}.dist-info"
    files = {
        "vmbind/__init__.py": read("vmbind.py"),
        "vmbind/py.typed": b"",
        "vmbind/libvmbind.so": read("build/libvmbind.so"),
        f"{about}/METADATA": f"Metadata-Version: 2.1\nName: vmbind\nVersion: {version()}\nRequires-Python: >=3.8\n".encode(),
        f"{about}/WHEEL": f"Wheel-Version: 1.0\nGenerator: vmbind\nRoot-Is-Purelib: false\nTag: {tag}\n".encode(),
    }
    rows = []
    for path, data in files.items():
        digest = base64.urlsafe_b64encode(hashlib.sha256(data).digest()).rstrip(b"=").decode()
        rows.append(f"{path},sha256={digest},{len(data)}\n")
    rows.append(f"{about}/RECORD,,\n")
    files[f"{about}/RECORD"] = "".join(rows).encode()
    wheel = f"{name}-{tag}.whl"
    with zipfile.ZipFile(os.path.join(wheel_directory, wheel), "w", zipfile.ZIP_DEFLATED) as archive:
        for path, data in files.items():
            archive.writestr(path, data)
    return wheel
