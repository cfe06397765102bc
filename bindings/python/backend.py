# SPDX-License-Identifier: Apache-2.0
"""Builds the package, for pip and other tools (PEP 517 and 660): `pip install .` in this folder.

The wheel has the Python files and a module, which a C compiler makes of _fast.c and of the text in dist/: $CC, or else cc. It is one of
the limited API (abi3), so that one wheel serves every CPython from 3.10 on of a system; of a CPython without a lock it is for that alone.
Needed is Python.h (Debian: python3-dev), and else nothing, setuptools neither.
"""

import base64
import contextlib
import gzip
import hashlib
import io
import os
import platform
import re
import shlex
import shutil
import struct
import subprocess
import sys
import sysconfig
import tarfile
import tempfile
import zipfile

HERE = os.path.dirname(os.path.abspath(__file__))
# What dist/ has: in the archive of sources beside this file.
LIBRARY, LICENSES = os.path.join(HERE, "library"), HERE
if not os.path.isdir(LIBRARY):
    LIBRARY = LICENSES = os.path.join(HERE, os.pardir, os.pardir, "dist")
NAME = "davgyuti"
# The module that a wheel has beside those in src/: the version of dcsctp.h, which the library's has to be.
VERSION = "_version.py"
# (a CPython without a lock, before 3.15, has no limited API)
IS_LIMITED = not sysconfig.get_config_var("Py_GIL_DISABLED")
MODULE = ("_fast.pyd" if sys.platform == "win32" else "_fast.abi3.so") if IS_LIMITED else "_fast" + sysconfig.get_config_var("EXT_SUFFIX")
PROCESSORS = {"amd64": "x86_64", "arm64": "aarch64"}
# The format of the text, and what a linker has to be told.
FORMATS = {
    "darwin": ("macho", ["-bundle", "-undefined", "dynamic_lookup"]),
    "win32": ("coff", ["-shared", "-Wl,--export-all-symbols", os.path.join(sys.base_prefix, "python3.dll")]),
}
# (It names no libc: Python has loaded one, and so the same module serves with glibc and musl, of any version. The linker notes
# the object's name, which is made up at random where it isn't saved.)
ELF = ("elf", ["-shared", "-fPIC", "-save-temps=obj", "-nostdlib", "-Wl,-Bsymbolic,-z,now,-z,relro"])
# The segment of ELF with what a loader has to do, and the tags in it that name a library, and versions of one.
PT_DYNAMIC, DT_NEEDED, DT_VERNEED = 2, 1, 0x6FFFFFFE

METADATA = """Metadata-Version: 2.4
Name: {name}
Version: {version}
Summary: The wire layer of SCTP (RFC 9260): what proved code compiles to, for Python
License-Expression: Apache-2.0
License-File: LICENSE
License-File: NOTICE
Keywords: sctp,webrtc,verified,parser
Classifier: Programming Language :: Python :: 3 :: Only
Classifier: Topic :: System :: Networking
Classifier: Typing :: Typed
Requires-Python: >=3.10
Description-Content-Type: text/markdown

{readme}"""


def give_up(text):
    sys.exit(f"{NAME}: {text}")


def read(*path):
    try:
        with open(os.path.join(*path), "rb") as file:
            return file.read()
    except OSError as error:
        give_up(f"{os.path.normpath(error.filename)}: {error.strerror}; dist/ has to hold the files of a release")


def version():
    found = re.findall(r"^#define DCSCTP_VERSION_(?:MAJOR|MINOR|PATCH) (\d+)$", read(LIBRARY, "dcsctp.h").decode(), re.M)
    return ".".join(found) if len(found) == 3 else give_up("dist/dcsctp.h doesn't say the version in numbers")


def metadata():
    return METADATA.format(name=NAME, version=version(), readme=read(HERE, "README.md").decode()).encode()


def files_of(*folder):
    """The files of a folder that are to be packed, by name: those of Python, and what the tests read."""
    names = sorted(os.listdir(os.path.join(HERE, *folder)))
    return {it: read(HERE, *folder, it) for it in names if it.endswith((".c", ".h", ".py", ".pyi", ".typed")) and it != VERSION}


def texts():
    """The names of the texts that are there, for systems that have Python."""
    return sorted(it for it in os.listdir(LIBRARY) if re.fullmatch(r"dcsctp-.*-(elf|macho|coff)\.s", it))


def within_32_bytes(compiler, text, work):
    """What keeps branches of the text within 32 bytes (dist/README.md says why), by gcc or clang; nothing where it isn't known."""
    for flag in ("-Wa,-mbranches-within-32B-boundaries", "-mbranches-within-32B-boundaries"):
        probe = [*compiler, flag, "-c", "-x", "assembler", "-o", os.path.join(work, "probe.o"), os.devnull]
        if "x86_64" in os.path.basename(text) and not subprocess.run(probe, capture_output=True).returncode:
            return [flag]
    return []


def module():
    """The module for this system."""
    processor = platform.machine().lower()
    kind, words = FORMATS.get(sys.platform, ELF)
    text = os.path.join(LIBRARY, f"dcsctp-{PROCESSORS.get(processor, processor)}-{kind}.s")
    if sys.maxsize < 2**32:
        give_up("this Python has pointers of 4 bytes, and the library of 8")
    if not os.path.isfile(text):
        there = ", ".join(texts()) or "none"
        give_up(f"there is no {os.path.normpath(text)} for this system; there are: {there}")
    compiler = shlex.split(os.environ.get("CC", "cc"))
    if not compiler or not shutil.which(compiler[0]):
        give_up(f"a C compiler is needed, and there is no {' '.join(compiler) or 'CC'}; $CC names another")
    header = os.path.join(sysconfig.get_path("include"), "Python.h")
    if sys.implementation.name != "cpython" or not os.path.isfile(header):
        give_up(f"CPython's headers are needed, and there is no {header}; Debian has it in python3-dev")
    words = [*words, "-O2", "-fno-stack-protector", "-I", LIBRARY, "-I", os.path.dirname(header)]
    words += ["-DPy_LIMITED_API=0x030A0000"] if IS_LIMITED else []
    with tempfile.TemporaryDirectory() as work:
        words += within_32_bytes(compiler, text, work)
        out = os.path.join(work, "module")
        if subprocess.run([*compiler, "-o", out, os.path.join(HERE, "src", NAME, "_fast.c"), text, *words]).returncode:
            give_up(f"{compiler[0]} doesn't take {os.path.normpath(text)}: it has to assemble GNU syntax for this system")
        with open(out, "rb") as file:
            return file.read()


def is_alone(library):
    """Whether a library of ELF has the loader look for no other one, and for no version of one."""
    (begin,), (size, count) = struct.unpack_from("<Q", library, 32), struct.unpack_from("<HH", library, 54)
    for at in range(begin, begin + count * size, size):
        kind, start, length = struct.unpack_from("<I4xQ16xQ", library, at)
        if kind == PT_DYNAMIC:
            tags = {tag for tag, _ in struct.iter_unpack("<QQ", library[start : start + length])}
            return tags.isdisjoint((DT_NEEDED, DT_VERNEED))
    return False


def tags(module):
    """The wheel's tags (PEP 425, 600 and 656)."""
    system = sysconfig.get_platform().replace("universal2", platform.machine())
    kind, _, processor = system.partition("-")
    systems = [re.sub("[-.]", "_", system)]
    if kind == "linux" and is_alone(module):
        systems = [f"{it}_{processor}" for it in ("manylinux_2_17", "manylinux2014", "musllinux_1_1")]
    version = f"cp{sys.version_info[0]}{sys.version_info[1]}"
    return "cp310-abi3" if IS_LIMITED else f"{version}-{version}t", systems


def made():
    """What the package has beside the files in src/."""
    return {VERSION: f"VERSION = ({version().replace('.', ', ')})\n".encode(), MODULE: module()}


def write_wheel(folder, files, module):
    pythons, systems = tags(module)
    info = f"{NAME}-{version()}.dist-info"
    for name in ("LICENSE", "NOTICE"):
        files[f"{info}/licenses/{name}"] = read(LICENSES, name)
    files[f"{info}/METADATA"] = metadata()
    lines = "".join(f"Tag: {pythons}-{it}\n" for it in systems)
    files[f"{info}/WHEEL"] = f"Wheel-Version: 1.0\nGenerator: {NAME}\nRoot-Is-Purelib: false\n{lines}".encode()
    record = ""
    for name, data in files.items():
        digest = base64.urlsafe_b64encode(hashlib.sha256(data).digest()).rstrip(b"=").decode()
        record += f"{name},sha256={digest},{len(data)}\n"
    files[f"{info}/RECORD"] = f"{record}{info}/RECORD,,\n".encode()
    wheel = f"{NAME}-{version()}-{pythons}-{'.'.join(systems)}.whl"
    with zipfile.ZipFile(os.path.join(folder, wheel), "w", zipfile.ZIP_DEFLATED) as archive:
        for name, data in files.items():
            # (a time that says nothing: the same files give the same wheel)
            entry = zipfile.ZipInfo(name, (1980, 1, 1, 0, 0, 0))
            entry.compress_type, entry.external_attr = zipfile.ZIP_DEFLATED, 0o644 << 16
            archive.writestr(entry, data)
    return wheel


def build_wheel(wheel_directory, config_settings=None, metadata_directory=None):
    files = files_of("src", NAME) | made()
    packed = {f"{NAME}/{it}": data for it, data in files.items() if not it.endswith((".c", ".h"))}
    return write_wheel(wheel_directory, packed, files[MODULE])


def build_editable(wheel_directory, config_settings=None, metadata_directory=None):
    """Puts what is made into src/, to which the wheel only leads."""
    files = made()
    for name, data in files.items():
        path = os.path.join(HERE, "src", NAME, name)
        # (not over an old module, which a process may have mapped)
        with contextlib.suppress(FileNotFoundError):
            os.remove(path)
        with open(path, "wb") as file:
            file.write(data)
    return write_wheel(wheel_directory, {f"{NAME}.pth": os.path.join(HERE, "src").encode() + b"\n"}, files[MODULE])


def build_sdist(sdist_directory, config_settings=None):
    name = f"{NAME}-{version()}"
    files = {"PKG-INFO": metadata()}
    files.update((it, read(HERE, it)) for it in ("README.md", "backend.py", "pyproject.toml"))
    files.update((it, read(LICENSES, it)) for it in ("LICENSE", "NOTICE"))
    for folder in (("src", NAME), ("tests",), ("examples",)):
        files.update(("/".join((*folder, it)), data) for it, data in files_of(*folder).items())
    files.update((f"library/{it}", read(LIBRARY, it)) for it in (*texts(), "dcsctp.h", "dcsctp_processor.h"))
    # What the tests of all packages read: in the archive it is among these.
    root = os.path.join(HERE, os.pardir, os.pardir)
    for folder, ending, to in (("examples", ".txt", "tests"), (os.path.join("registry", "vectors"), ".jsonl", "tests/vectors")):
        source = os.path.join(root, folder) if LIBRARY.endswith("dist") else os.path.join(HERE, to)
        files.update((f"{to}/{it}", read(source, it)) for it in sorted(os.listdir(source)) if it.endswith(ending))
    with open(os.path.join(sdist_directory, f"{name}.tar.gz"), "wb") as file:
        with gzip.GzipFile("", "wb", mtime=0, fileobj=file) as packed, tarfile.open(fileobj=packed, mode="w") as archive:
            for path, data in sorted(files.items()):
                entry = tarfile.TarInfo(f"{name}/{path}")
                entry.size, entry.mode = len(data), 0o644
                archive.addfile(entry, io.BytesIO(data))
    return f"{name}.tar.gz"
