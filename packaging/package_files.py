"""Archives whose bytes hang on their files alone: tar, ar of a Debian package, and the zip of a wheel."""
import base64
import dataclasses
import gzip
import hashlib
import io
import lzma
import tarfile
import time
import zipfile

FIRST_OF_ZIP = 315_532_800  # the year 1980: a zip knows no earlier one


@dataclasses.dataclass(frozen=True, order=True)
class File:
    """What is installed: a file, or a link if it has a target."""
    name: str
    content: bytes = b""
    is_run: bool = False
    target: str = ""

    @property
    def mode(self):
        return 0o755 if self.is_run else 0o644


def squeezed(content):
    return gzip.compress(content, 9, mtime=0)


def tar(files, seconds, prefix):
    """A tar of files and of the folders above them, below a prefix."""
    out, made = io.BytesIO(), set()
    with tarfile.open(fileobj=out, mode="w", format=tarfile.GNU_FORMAT) as archive:
        for file in sorted(files):
            parts = (prefix + file.name).split("/")
            for folder in ("/".join(parts[:depth]) + "/" for depth in range(1, len(parts))):
                if folder not in made:
                    made.add(folder)
                    put(archive, folder, seconds, kind=tarfile.DIRTYPE, mode=0o755)
            kind = tarfile.SYMTYPE if file.target else tarfile.REGTYPE
            put(archive, prefix + file.name, seconds, kind=kind, mode=0o777 if file.target else file.mode,
                content=file.content, target=file.target)
    return out.getvalue()


def put(archive, name, seconds, *, kind, mode, content=b"", target=""):
    one = tarfile.TarInfo(name)
    one.size, one.mtime, one.mode, one.type, one.linkname = len(content), seconds, mode, kind, target
    one.uname = one.gname = "root"
    archive.addfile(one, io.BytesIO(content))


def deb(control, files, seconds, scripts):
    """A Debian package: its text of control, what it installs, and by their names the scripts and lists for dpkg."""
    sums = "".join(f"{hashlib.md5(file.content).hexdigest()}  {file.name}\n" for file in sorted(files) if not file.target)
    about = [File("control", control.encode()), File("md5sums", sums.encode()),
             *(File(name, text.encode(), text.startswith("#!")) for name, text in scripts.items())]
    members = [("debian-binary", b"2.0\n"), ("control.tar.xz", lzma.compress(tar(about, seconds, "./"), preset=9)),
               ("data.tar.xz", lzma.compress(tar(files, seconds, "./"), preset=9))]
    out = b"!<arch>\n"
    for name, content in members:
        head = f"{name:<16}{seconds:<12}{0:<6}{0:<6}{'100644':<8}{len(content):<10}`\n"
        out += head.encode() + content + b"\n" * (len(content) % 2)
    return out


def wheel(files, info, seconds):
    """A wheel of files; the folder `info` has the list of them."""
    record = "".join(f"{file.name},sha256={digest(file.content)},{len(file.content)}\n" for file in files)
    out = io.BytesIO()
    with zipfile.ZipFile(out, "w") as archive:
        for file in [*files, File(f"{info}/RECORD", f"{record}{info}/RECORD,,\n".encode())]:
            one = zipfile.ZipInfo(file.name, time.gmtime(max(seconds, FIRST_OF_ZIP))[:6])
            one.create_system, one.external_attr = 3, (0o100000 | file.mode) << 16
            archive.writestr(one, file.content, zipfile.ZIP_DEFLATED, 9)
    return out.getvalue()


def digest(content):
    return base64.urlsafe_b64encode(hashlib.sha256(content).digest()).rstrip(b"=").decode()
