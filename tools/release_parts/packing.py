"""Writes and reads the forms of a release: archives, Debian packages and a wheel. The same files give the same bytes.

A file of a release is an Entry: its bytes and whether it can be run, or the path that a link leads to.
"""
import base64
import gzip
import hashlib
import io
import lzma
import tarfile
import time
import zipfile
from collections import namedtuple

Entry = namedtuple("Entry", "data is_program link", defaults=(False, None))


def sum_of(data):
    return hashlib.sha256(data).hexdigest()


def folders_of(names):
    """The folders above these names, the upper ones first."""
    found = set()
    for name in names:
        parts = name.split("/")[:-1]
        found |= {"/".join(parts[:count]) for count in range(1, len(parts) + 1)}
    return sorted(found)


def tar(files, when, top=""):
    """An archive of files by name, below `top`."""
    whole = {f"{top}{name}": it for name, it in files.items()}
    room = io.BytesIO()
    with tarfile.open(fileobj=room, mode="w", format=tarfile.GNU_FORMAT) as out:
        for name in sorted([*folders_of(whole), *whole]):
            info, entry = tarfile.TarInfo(name), whole.get(name)
            info.mtime, info.uname, info.gname = when, "root", "root"
            if entry is None:
                info.type, info.mode = tarfile.DIRTYPE, 0o755
                out.addfile(info)
            elif entry.link is not None:
                info.type, info.mode, info.linkname = tarfile.SYMTYPE, 0o777, entry.link
                out.addfile(info)
            else:
                info.size, info.mode = len(entry.data), 0o755 if entry.is_program else 0o644
                out.addfile(info, io.BytesIO(entry.data))
    return room.getvalue()


def untar(data):
    """The files of an archive, compressed or not, by name; a leading `./` is left out."""
    found = {}
    with tarfile.open(fileobj=io.BytesIO(data)) as it:
        for info in it:
            name = info.name[2:] if info.name.startswith("./") else info.name
            if info.issym():
                found[name] = Entry(b"", False, info.linkname)
            elif info.isfile():
                found[name] = Entry(it.extractfile(info).read(), bool(info.mode & 0o100))
    return found


def zipped(data):
    """gzip without a name and a time."""
    room = io.BytesIO()
    with gzip.GzipFile(filename="", mode="wb", compresslevel=9, fileobj=room, mtime=0) as it:
        it.write(data)
    return room.getvalue()


def deb(control, files, when):
    """A Debian package of the files of its control and of the system."""
    sums = "".join(f"{hashlib.md5(it.data).hexdigest()}  {name}\n" for name, it in sorted(files.items()) if it.link is None)
    inside = {**control, "md5sums": Entry(sums.encode())}
    whole = [("debian-binary", b"2.0\n")]
    for name, part in (("control", inside), ("data", files)):
        packed = lzma.compress(tar(part, when, "./"), format=lzma.FORMAT_XZ, check=lzma.CHECK_CRC64, preset=6)
        whole.append((f"{name}.tar.xz", packed))
    out = b"!<arch>\n"
    for name, data in whole:
        out += f"{name:<16}{when:<12}{0:<6}{0:<6}{100644:<8}{len(data):<10}`\n".encode() + data + b"\n" * (len(data) % 2)
    return out


def undeb(data, members):
    """The files of a Debian package's control, and those of the system."""
    parts = {name.rstrip("/"): it for name, it in members(data)}
    return untar(parts["control.tar.xz"]), untar(parts["data.tar.xz"])


def wheel(files, info, when):
    """A wheel of files by name; `info` is the folder of what pip reads, in which the list of all sums is written."""
    def line(name, data):
        code = base64.urlsafe_b64encode(hashlib.sha256(data).digest()).decode().rstrip("=")
        return f"{name},sha256={code},{len(data)}\n"
    record = "".join(line(name, it.data) for name, it in sorted(files.items())) + f"{info}/RECORD,,\n"
    whole = {**files, f"{info}/RECORD": Entry(record.encode())}
    room = io.BytesIO()
    with zipfile.ZipFile(room, "w") as out:
        # (the files of `info` come last, as pip advises)
        for name in sorted(whole, key=lambda it: (it.startswith(info), it)):
            it = zipfile.ZipInfo(name, time.gmtime(max(when, 315619200))[:6])
            it.create_system, it.compress_type = 3, zipfile.ZIP_DEFLATED
            it.external_attr = (0o100755 if whole[name].is_program else 0o100644) << 16
            out.writestr(it, whole[name].data, compresslevel=9)
    return room.getvalue()


def unwheel(data):
    with zipfile.ZipFile(io.BytesIO(data)) as it:
        return {info.filename: Entry(it.read(info), bool(info.external_attr >> 16 & 0o100)) for info in it.infolist()}
