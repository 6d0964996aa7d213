"""A Python wheel of the two clients, with the shared library and the program that they use. It needs Python alone."""
import base64
import hashlib
import pathlib
import time
import zipfile

ROOT = pathlib.Path(__file__).resolve().parent.parent
NAME = "cc_compositor"


def metadata(version):
    """What pip reads."""
    return (f"Metadata-Version: 2.1\nName: {NAME}\nVersion: {version}\n"
            "Summary: a page compositor whose frames are proved: the library by ctypes, the program as a service\n"
            "Requires-Python: >=3.9\nDescription-Content-Type: text/plain\n\n"
            + (ROOT / "clients" / "python" / "cc.py").read_text().split('"""')[1]
            + (ROOT / "clients" / "python" / "cc_serve.py").read_text().split('"""')[1])


def entry_of(name, mode, seconds):
    """The head of a file of the wheel: its name, rights and date."""
    entry = zipfile.ZipInfo(name, time.gmtime(max(seconds, 315532800))[:6])
    entry.external_attr, entry.compress_type = (0o100000 | mode) << 16, zipfile.ZIP_DEFLATED
    return entry


def record_of(name, data):
    """The line of RECORD for a file."""
    told = base64.urlsafe_b64encode(hashlib.sha256(data).digest()).rstrip(b"=").decode()
    return f"{name},sha256={told},{len(data)}\n"


def write(folder, version, libc, processor, program, library, seconds):
    """Writes the wheel for this processor and for C libraries from 2.`libc` on, and answers its path."""
    tag, about = f"py3-none-manylinux_2_{libc}_{processor}", f"{NAME}-{version}.dist-info"
    files = [("cc.py", ROOT / "clients" / "python" / "cc.py", 0o644),
             ("cc_serve.py", ROOT / "clients" / "python" / "cc_serve.py", 0o644),
             (f"{NAME}.libs/{library.name}", library, 0o755),
             (f"{NAME}-{version}.data/scripts/cc_player", program, 0o755)]
    parts = [(name, path.read_bytes(), mode) for name, path, mode in files]
    parts += [(f"{about}/{path.name}", path.read_bytes(), 0o644) for path in sorted(ROOT.glob("LICEN[CS]E*"))]
    parts += [(f"{about}/METADATA", metadata(version).encode(), 0o644),
              (f"{about}/WHEEL", f"Wheel-Version: 1.0\nGenerator: {NAME}\nRoot-Is-Purelib: false\nTag: {tag}\n".encode(), 0o644)]
    record = "".join(record_of(name, data) for name, data, _ in parts) + f"{about}/RECORD,,\n"
    path = folder / f"{NAME}-{version}-{tag}.whl"
    with zipfile.ZipFile(path, "w") as wheel:
        for name, data, mode in [*parts, (f"{about}/RECORD", record.encode(), 0o644)]:
            wheel.writestr(entry_of(name, mode, seconds), data)
    return path
