"""Hatch's hook: puts the built program into the wheel as a script, and names the system that it runs on."""
import os
import pathlib
import sys

from hatchling.builders.hooks.plugin.interface import BuildHookInterface

HERE = pathlib.Path(__file__).resolve().parent
PROGRAM = pathlib.Path(os.environ.get("PUZZLES", HERE.parent / "crates/puzzles/out/puzzles"))
sys.path.append(str(HERE))
from package_elf import Elf  # noqa: E402


class Program(BuildHookInterface):
    def initialize(self, version, build_data):
        if self.target_name != "wheel" or version == "editable":
            return
        elf = Elf(PROGRAM.read_bytes())
        machine = {62: "x86_64", 183: "aarch64"}[elf.machine]
        build_data["pure_python"], build_data["tag"] = False, "py3-none-manylinux_{}_{}_{}".format(*elf.glibc, machine)
        name = f"puzzles-{self.metadata.version}.data/scripts/puzzles"
        build_data["force_include"][str(PROGRAM)] = name
