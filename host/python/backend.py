"""What pip calls to build the package from this folder (PEP 517): altuliscia.py with a shared object of the shipped archive beside it, and
the modules altuliscia_*.py.

The archive is lib/MACHINE/libaltuliscia.a of the repository, or that of the folder ALTULISCIA_LIB; the compiler is `cc`, or what CC says.
"""
import base64
import hashlib
import os
import platform
import re
import shlex
import subprocess
import sys
import sysconfig
import tempfile
import zipfile

HERE = os.path.dirname(os.path.abspath(__file__))
ROOT = os.path.dirname(os.path.dirname(HERE))


def read(path):
    with open(path, "rb") as file:
        return file.read()


def archive():
    folder = os.environ.get("ALTULISCIA_LIB") or os.path.join(ROOT, "lib", platform.machine())
    path = os.path.join(os.path.abspath(folder), "libaltuliscia.a")
    if not os.path.exists(path):
        sys.exit(f"{path} isn't there. It is shipped for x86_64 and aarch64, in lib/ of the repository. Where pip copied this folder "
                 "elsewhere (before 21.3 it does), set ALTULISCIA_LIB to the archive's folder.")
    return path


def shared_object():
    """The bytes of the shared object."""
    compiler = shlex.split(os.environ.get("CC") or "cc")
    with tempfile.TemporaryDirectory() as folder:
        made = os.path.join(folder, "libaltuliscia.so")
        whole = ["-Wl,--whole-archive", archive(), "-Wl,--no-whole-archive"]
        try:
            subprocess.run([*compiler, "-shared", "-o", made, *whole], check=True)
        except (OSError, subprocess.CalledProcessError) as trouble:
            sys.exit(f"The shared object can't be made, for which a C compiler is needed (CC says which): {trouble}")
        return read(made)


def licences():
    """The licence texts, where the repository is around this folder."""
    names = ("LICENSE", "LICENSE-MIT", "LICENSE-APACHE", "NOTICE")
    return [(name, read(os.path.join(ROOT, name))) for name in names if os.path.exists(os.path.join(ROOT, name))]


def build_wheel(wheel_directory, config_settings=None, metadata_directory=None):
    source = read(os.path.join(HERE, "altuliscia.py"))
    version = re.search(rb'^__version__ = "(.*)"$', source, re.MULTILINE).group(1).decode()
    tag = "py3-none-" + re.sub("[-.]", "_", sysconfig.get_platform())
    info = f"altuliscia-{version}.dist-info"
    metadata = (f"Metadata-Version: 2.1\nName: altuliscia\nVersion: {version}\n"
                "Summary: A support vector machine trainer that is proved to meet its contract\n"
                "License: MIT OR Apache-2.0\nRequires-Python: >=3.7\n")
    wheel = f"Wheel-Version: 1.0\nGenerator: altuliscia\nRoot-Is-Purelib: false\nTag: {tag}\n"
    modules = sorted(name for name in os.listdir(HERE) if re.fullmatch(r"altuliscia_\w+\.py", name))
    files = [("altuliscia/__init__.py", source), ("altuliscia/libaltuliscia.so", shared_object()),
             *((name, read(os.path.join(HERE, name))) for name in modules), *((f"{info}/{name}", text) for name, text in licences()),
             (f"{info}/METADATA", metadata.encode()), (f"{info}/WHEEL", wheel.encode())]
    record = "".join(f"{name},sha256={digest(data)},{len(data)}\n" for name, data in files) + f"{info}/RECORD,,\n"
    name = f"altuliscia-{version}-{tag}.whl"
    with zipfile.ZipFile(os.path.join(wheel_directory, name), "w", zipfile.ZIP_DEFLATED) as out:
        for path, data in [*files, (f"{info}/RECORD", record.encode())]:
            entry = zipfile.ZipInfo(path)
            entry.compress_type = zipfile.ZIP_DEFLATED
            entry.external_attr = 0o644 << 16
            out.writestr(entry, data)
    return name


def digest(data):
    return base64.urlsafe_b64encode(hashlib.sha256(data).digest()).rstrip(b"=").decode()


def build_sdist(sdist_directory, config_settings=None):
    sys.exit("There is no source distribution: the archive stands outside this folder. Install from the repository.")
