"""Makes the packages of a release: a .tar.gz, a .deb for dpkg, a wheel for pip, and SHA256SUMS. The input is a dict
from names to bytes. Packages of equal files are equal byte for byte, because a package contains only the times and
owners that the caller passes. (The usual packaging tools write the current date, the owners of files and their own
version into a package.)
"""

import base64
import gzip
import hashlib
import io
import pathlib
import tarfile
import zipfile

NO_LICENCE = "No licence is given: the owner has not chosen one. All rights are reserved."
PROGRAMS = ("bin/", "usr/bin/")
MEMBER = "{:<16}{:<12}{:<6}{:<6}{:<8}{:<10}`\n"  # the header of a member in an ar archive


def files_below(folder, to="", leave=()):
    """Returns the files below `folder`, except those whose name or folder is in `leave`. The names in the result begin
    with `to`.
    """
    found = (it for it in sorted(folder.rglob("*")) if it.is_file() and it.suffix != ".pyc")
    return {f"{to}{it.relative_to(folder)}": it.read_bytes() for it in found if not set(it.relative_to(folder).parts) & set(leave)}


def packed(content):
    return gzip.compress(content, 9, mtime=0)


def tar(packed_files, root, when):
    """Returns a .tar.gz with the files below the folder `root`, each with the modification time `when`, in seconds."""
    made = io.BytesIO()
    folders = {str(it) for name in packed_files for it in pathlib.PurePosixPath(root + name).parents} - {"."}
    with tarfile.open(fileobj=made, mode="w", format=tarfile.USTAR_FORMAT) as archive:
        for folder in sorted(folders):
            info = tarfile.TarInfo(folder)
            info.type, info.mode, info.mtime = tarfile.DIRTYPE, 0o755, when
            archive.addfile(info)
        for name, content in sorted(packed_files.items()):
            info = tarfile.TarInfo(root + name)
            info.size, info.mtime, info.mode = len(content), when, 0o755 if name.startswith(PROGRAMS) else 0o644
            archive.addfile(info, io.BytesIO(content))
    return packed(made.getvalue())


def deb(packed_files, version, about, when):
    """Returns a Debian package for amd64: an ar archive with the format version, the control data, and the files below /."""
    control = f"""Package: listset
Version: {version}
Architecture: amd64
Maintainer: Ribdamson maintainers <ribdamson@localhost>
Section: devel
Priority: optional
Installed-Size: {sum(map(len, packed_files.values())) // 1024}
Depends: libc6 (>= 2.17)
Suggests: python3, nodejs
Description: concurrent list sets, and a judge of recorded calls
 Replays, checks, draws and generates schedules of concurrent list sets, runs
 and serves such sets. It has a library for C, C++, Rust and Python, and a page.
 {about}.
 {NO_LICENCE}
"""
    sums = "".join(f"{hashlib.md5(content).hexdigest()}  {name}\n" for name, content in sorted(packed_files.items()))
    told = {"control": control, "md5sums": sums, "triggers": "activate-noawait ldconfig\n"}
    inner = tar({name: text.encode() for name, text in told.items()}, "./", when)
    members = {"debian-binary": b"2.0\n", "control.tar.gz": inner, "data.tar.gz": tar(packed_files, "./", when)}
    made = [b"!<arch>\n"]
    for name, content in members.items():
        made += [MEMBER.format(name, when, 0, 0, 100644, len(content)).encode(), content, b"\n" * (len(content) % 2)]
    return b"".join(made)


def wheel(packed_files, version, tag, about):
    """Returns a Python wheel with `packed_files`, for the machines that `tag` names."""
    info = f"listset-{version}.dist-info"
    head = f"Metadata-Version: 2.1\nName: listset\nVersion: {version}\nSummary: Concurrent list sets and a judge of recorded calls\n"
    told = {
        "METADATA": f"{head}License: {NO_LICENCE}\nRequires-Python: >=3.9\n\n{about}.\n",
        "WHEEL": f"Wheel-Version: 1.0\nGenerator: build/release\nRoot-Is-Purelib: false\nTag: {tag}\n",
        "top_level.txt": "".join(f"{it}\n" for it in sorted({pathlib.PurePath(name).parts[0].removesuffix(".py") for name in packed_files})),
    }
    packed_files = {**packed_files, **{f"{info}/{name}": text.encode() for name, text in told.items()}}
    lines = [f"{name},sha256={sum_in_wheel(content)},{len(content)}\n" for name, content in packed_files.items()]
    packed_files[f"{info}/RECORD"] = "".join([*lines, f"{info}/RECORD,,\n"]).encode()
    made = io.BytesIO()
    with zipfile.ZipFile(made, "w", zipfile.ZIP_DEFLATED) as archive:
        for name, content in packed_files.items():
            entry = zipfile.ZipInfo(name)  # dated 1980, the first year of the zip format
            entry.external_attr, entry.compress_type = 0o100644 << 16, zipfile.ZIP_DEFLATED
            archive.writestr(entry, content)
    return made.getvalue()


def sum_in_wheel(content):
    return base64.urlsafe_b64encode(hashlib.sha256(content).digest()).rstrip(b"=").decode()


def sums(packed_files):
    """Returns the contents of SHA256SUMS for `packed_files`, as `sha256sum -c` reads it."""
    return "".join(f"{hashlib.sha256(content).hexdigest()}  {name}\n" for name, content in sorted(packed_files.items())).encode()
