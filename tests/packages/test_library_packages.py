"""The Debian packages of the library for C: made twice, unpacked, and used by pkg-config, by CMake, and linked statically."""
import os
import pathlib
import subprocess

import pytest

from support.bench import SECONDS, TOP

pytestmark = [pytest.mark.needs("git", "a commit", "dpkg", "dpkg-deb", "cc", "pkg-config"), pytest.mark.xdist_group("packages")]
CALLER = TOP / "examples" / "library" / "solve.c"
ANSWER = "one\n##.##\n"
CMAKE = """cmake_minimum_required(VERSION 3.16)
project(caller C)
find_package(puzzles 0.1 REQUIRED)
add_executable(shared {caller})
target_link_libraries(shared puzzles::puzzles)
add_executable(static {caller})
target_link_libraries(static puzzles::static)
"""
LEFT = ("copyright-without-copyright-notice",)  # no licence is chosen


def ran(words, **more):
    done = subprocess.run(words, capture_output=True, text=True, check=False, timeout=SECONDS, **more)
    assert done.returncode == 0, f"{' '.join(map(str, words))}: {done.stdout[-500:]}{done.stderr[-500:]}"
    return done.stdout


def solves(caller, folder):
    """A caller that was made finds the library of a folder, and answers."""
    words = [caller, "pattern", "5x1:1/1//1/1/2.2"]
    assert ran(words, env={**os.environ, "LD_LIBRARY_PATH": str(folder)}) == ANSWER


@pytest.fixture(scope="module")
def made(library, tmp_path_factory):
    """The folder of the packages, and that into which both are unpacked."""
    built = library.resolve().parent
    if not (built / "libpuzzles.a").is_file():
        pytest.skip("no built libpuzzles.a")
    folder, root = tmp_path_factory.mktemp("library"), tmp_path_factory.mktemp("root")
    for name in ("one", "two"):
        ran([TOP / "packaging" / "package_library.py", built, folder / name], env={**os.environ, "TZ": f"Asia/{name}"})
    for package in (folder / "one").iterdir():
        ran(["dpkg-deb", "-x", package, root])
    return folder, root


def libraries(root):
    return next((root / "usr" / "lib").iterdir())


def test_same(made):
    """the same files and commit make the same bytes, and what a program loads is the library that was built"""
    folder, root = made
    names = sorted(path.name for path in (folder / "one").iterdir())
    assert [name.partition("_")[0] for name in names] == ["libpuzzles-dev", "libpuzzles0"], f"{names}"
    assert all((folder / "one" / name).read_bytes() == (folder / "two" / name).read_bytes() for name in names), "other bytes"
    assert os.readlink(libraries(root) / "libpuzzles.so") == "libpuzzles.so.0"


def test_pkg_config(made, tmp_path):
    """a caller in C is made by what pkg-config says, and statically too, without another library"""
    _, root = made
    place = libraries(root)
    known = {**os.environ, "PKG_CONFIG_PATH": str(place / "pkgconfig"), "PKG_CONFIG_SYSROOT_DIR": str(root)}
    assert ran(["pkg-config", "--modversion", "puzzles"], env=known).startswith("0.1")
    words = ran(["pkg-config", "--cflags", "--libs", "puzzles"], env=known).split()
    ran(["cc", "-Wall", "-Werror", "-o", tmp_path / "caller", CALLER, *words])
    solves(tmp_path / "caller", place)
    include = [word for word in words if word.startswith("-I")] or [f"-I{root}/usr/include"]
    ran(["cc", "-static", "-o", tmp_path / "static", CALLER, *include, place / "libpuzzles.a"])
    solves(tmp_path / "static", "/nowhere")


@pytest.mark.needs("cmake")
def test_cmake(made, tmp_path):
    """a caller in C is made by CMake, with the shared library and with the static one"""
    _, root = made
    (tmp_path / "CMakeLists.txt").write_text(CMAKE.format(caller=CALLER))
    place = libraries(root) / "cmake" / "puzzles"
    ran(["cmake", "-S", tmp_path, "-B", tmp_path / "build", f"-Dpuzzles_DIR={place}"])
    ran(["cmake", "--build", tmp_path / "build"])
    for name in ("shared", "static"):
        solves(tmp_path / "build" / name, libraries(root))


def test_exports(made):
    """nothing but the calls is seen of either library, in the shared one by the node of its version"""
    _, root = made
    place = libraries(root)
    shared = [line.split()[-1] for line in ran(["nm", "-D", "--defined-only", place / "libpuzzles.so.0"]).splitlines()]
    lines = ran(["nm", "-g", "--defined-only", place / "libpuzzles.a"]).splitlines()
    static = [line.split()[-1] for line in lines if " T " in line]
    calls = {name.partition("@")[0] for name in shared if name.startswith("puzzles_")}
    assert calls == set(static) and len(static) == 6, f"{static}"
    assert all(name.endswith("@@PUZZLES_0.1") for name in shared if name.startswith("puzzles_")), f"{shared}"
    assert all(name.startswith(("puzzles_", "PUZZLES_")) for name in shared), f"{shared}"


@pytest.mark.needs("lintian")
def test_looked_at(made):
    """lintian finds no error in either package, and no warning but what is for want of a licence"""
    folder, _ = made
    done = subprocess.run(["lintian", "--no-tag-display-limit", "--allow-root", *sorted((folder / "one").iterdir())],
                          capture_output=True, text=True, check=False, timeout=SECONDS)
    left = [line for line in done.stdout.splitlines() if line.startswith(("E:", "W:")) and not any(one in line for one in LEFT)]
    assert not left, "\n".join(left)


def test_faults(library, tmp_path):
    """what is no library, and a folder that can't be written: one sentence and a status"""
    script = TOP / "packaging" / "package_library.py"
    (tmp_path / "libpuzzles.so.0").write_text("none")
    for words, status, said in (([tmp_path, tmp_path / "out"], 7, "no ELF program"),
                                ([tmp_path / "none", tmp_path / "out"], 6, "none"),
                                ([pathlib.Path(library).resolve().parent, "/proc/out"], 6, "/proc/out")):
        done = subprocess.run([script, *words], capture_output=True, text=True, check=False, timeout=SECONDS)
        assert done.returncode == status and said in done.stderr and len(done.stderr.splitlines()) == 1, done.stderr
