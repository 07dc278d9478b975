#!/usr/bin/env python3
"""Packs the library for C: libpuzzles0 with what programs load, and libpuzzles-dev with what they are made with.

    packaging/package_library.py library/out FOLDER

makes two Debian packages in FOLDER, and prints the SHA-256 digest of each and of the library. library/out is as
`library/build.py so` leaves it. libpuzzles-dev has the header, the library for static linking, puzzles.pc for pkg-config, and a
package for CMake. Nothing but Python and git is needed. The same files and commit make the same bytes; the version is that of
package.py, whose text tells the rest.
Statuses: 0; 2 words refused; 6 a fault of reading or writing; 7 the library can't be packed, or git fails.
"""
import argparse
import hashlib
import pathlib

from package import about, ended, release, write
from package_files import File, deb, squeezed
import package_texts as texts

LIBRARY, STATIC, HEADER = "libpuzzles.so.0", "libpuzzles.a", "puzzles.h"
TRIPLETS = {"amd64": "x86_64-linux-gnu", "arm64": "aarch64-linux-gnu"}
SUMMARY = "solve, check, grade and generate logic puzzles, by calls of C"
CONTROL = f"""\
Package: {{name}}
Source: puzzles
Version: {{version}}
Architecture: {{machine}}
Multi-Arch: same
Maintainer: {{who}}
Installed-Size: {{size}}
{{needs}}Section: {{section}}
Priority: optional
Description: {SUMMARY}{{kind}}
 Of four games: Pattern (nonograms), Solo (sudoku), Light Up (Akari) and
 Tents. Puzzles are given by their game IDs, as Simon Tatham's Portable
 Puzzle Collection writes them. Each call is proved to answer as the
 program puzzles does.
"""
PKG_CONFIG = f"""\
prefix=/usr
includedir=${{{{prefix}}}}/include
libdir=${{{{prefix}}}}/lib/{{triplet}}

Name: puzzles
Description: {SUMMARY}
Version: {{number}}
Cflags: -I${{{{includedir}}}}
Libs: -L${{{{libdir}}}} -lpuzzles
"""
CMAKE = """\
# find_package(puzzles) gives the targets puzzles::puzzles, shared, and puzzles::static.
get_filename_component(_puzzles "${{CMAKE_CURRENT_LIST_DIR}}/../../../../.." ABSOLUTE)
foreach(_kind puzzles:SHARED:libpuzzles.so.0 static:STATIC:libpuzzles.a)
  string(REPLACE ":" ";" _parts ${{_kind}})
  list(GET _parts 0 _name)
  list(GET _parts 1 _how)
  list(GET _parts 2 _file)
  if(NOT TARGET puzzles::${{_name}})
    add_library(puzzles::${{_name}} ${{_how}} IMPORTED)
    set_target_properties(puzzles::${{_name}} PROPERTIES
      IMPORTED_LOCATION "${{_puzzles}}/usr/lib/{triplet}/${{_file}}"
      INTERFACE_INCLUDE_DIRECTORIES "${{_puzzles}}/usr/include")
  endif()
endforeach()
"""
CMAKE_VERSION = """\
set(PACKAGE_VERSION "{number}")
if(PACKAGE_FIND_VERSION VERSION_EQUAL PACKAGE_VERSION)
  set(PACKAGE_VERSION_EXACT TRUE)
endif()
if(NOT PACKAGE_FIND_VERSION VERSION_GREATER PACKAGE_VERSION)
  set(PACKAGE_VERSION_COMPATIBLE TRUE)
endif()
"""
OVERRIDES = """\
# What the library has is the proved object, byte for byte.
{name}: unstripped-binary-or-object *
{name}: unstripped-static-library *
{name}: no-symbols-control-file *
"""


def packed(one, name, section, needs, files, more=()):
    """A package by its name, with its copyright and changes."""
    who, changes = about(one)
    doc = f"usr/share/doc/{name}"
    files = [*files, File(f"{doc}/copyright", texts.COPYRIGHT.encode()),
             File(f"{doc}/changelog.gz", squeezed(changes.encode())),
             File(f"usr/share/lintian/overrides/{name}", OVERRIDES.format(name=name).encode())]
    size = sum(len(file.content) for file in files) // 1024 + 1
    kind = " (development)" if section == "libdevel" else ""
    control = CONTROL.format(name=name, version=one.debian, machine=one.machines[0], who=who, size=size, needs=needs, kind=kind,
                             section=section)
    return f"{name}_{one.debian}_{one.machines[0]}.deb", deb(control, files, one.seconds, dict(more))


def packages(one, folder):
    """Both packages of the files of a folder."""
    machine, _ = one.machines
    triplet = TRIPLETS[machine]
    place = f"usr/lib/{triplet}"
    needs = f"Depends: libc6 (>= {'.'.join(map(str, one.elf.glibc))})\n" if one.elf.glibc else ""
    more = {"triggers": "activate-noawait ldconfig\n", "shlibs": f"libpuzzles 0 libpuzzles0 (>= {one.debian})\n"}
    yield packed(one, "libpuzzles0", "libs", needs, [File(f"{place}/{LIBRARY}", one.program)], more)
    words = {"triplet": triplet, "number": one.number}
    yield packed(one, "libpuzzles-dev", "libdevel", f"Depends: libpuzzles0 (= {one.debian})\n", [
        File("usr/include/puzzles.h", (folder / HEADER).read_bytes()), File(f"{place}/libpuzzles.so", target=LIBRARY),
        File(f"{place}/{STATIC}", (folder / STATIC).read_bytes()),
        File(f"{place}/pkgconfig/puzzles.pc", PKG_CONFIG.format(**words).encode()),
        File(f"{place}/cmake/puzzles/puzzles-config.cmake", CMAKE.format(**words).encode()),
        File(f"{place}/cmake/puzzles/puzzles-config-version.cmake", CMAKE_VERSION.format(**words).encode())])


def main():
    form = argparse.ArgumentParser(description=__doc__, formatter_class=argparse.RawDescriptionHelpFormatter)
    form.add_argument("library", type=pathlib.Path, metavar="LIBRARY")
    form.add_argument("folder", type=pathlib.Path, metavar="FOLDER")
    asked = form.parse_args()
    one = release(asked.library / LIBRARY)
    write(asked.folder, packages(one, asked.library))
    print(f"{hashlib.sha256(one.program).hexdigest()}  {LIBRARY}")
    return 0


if __name__ == "__main__":
    ended(main)
