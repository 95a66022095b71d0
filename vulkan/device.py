"""The replay of submissions on the software device, here or in a tree of another distribution."""

import os
import pathlib
import shutil
import subprocess

# What has to be there, and the package that has it.
PACKAGES = {
    "usr/share/vulkan/icd.d": ("lvp_icd", "mesa-vulkan-drivers"),
    "usr/share/vulkan/explicit_layer.d": ("VkLayer_khronos_validation", "vulkan-validationlayers"),
    "usr/bin": ("glslangValidator", "glslang-tools"),
}
PLACE = "opt/framec-vulkan"
# Seconds after which a replay counts as hung. On a busy machine one may get no processor for minutes.
LIMIT = 3600


class Missing(Exception):
    """What is not there."""


class Answer:
    """How a replay ended."""

    def __init__(self, done):
        lines = done.stdout.decode(errors="replace").splitlines(keepends=True)
        self.status, self.notes = done.returncode, done.stderr.decode(errors="replace")
        self.readbacks = "".join(line for line in lines if not line.startswith("message"))
        self.messages = [line.split(" ", 3)[2:] for line in lines if line.startswith("message ")]

    def hazards(self):
        """The names and texts of synchronization hazards."""
        return [(name, text) for name, text in self.messages if name.startswith("SYNC-")]

    def others(self):
        return [(name, text) for name, text in self.messages if not name.startswith("SYNC-")]


def driver(root):
    found = sorted((root / "usr/share/vulkan/icd.d").glob("lvp_icd*.json"))
    return "/" + str(found[0].relative_to(root))


class Device:
    """The program `framec-replay` of a build folder. With a tree it is copied there and started in it by chroot."""

    def __init__(self, build, tree=None):
        self.root = pathlib.Path(tree or "/")
        self.build = pathlib.Path(build).resolve()
        self.look()
        words = ["chroot", str(self.root)] if tree else []
        home = f"/{PLACE}" if tree else str(self.build)
        if tree:
            self.copy()
        environment = [f"VK_ICD_FILENAMES={driver(self.root)}", f"XDG_CACHE_HOME={home}/cache"]
        self.words = [*words, "/usr/bin/env", *environment, f"{home}/replay/framec-replay", "--families", "--execution"]

    def look(self):
        missing = []
        for folder, (name, package) in PACKAGES.items():
            there = self.root / folder
            if not there.is_dir() or not any(one.name.startswith(name) for one in there.iterdir()):
                missing.append(f"package {package} (nothing called {name} in {there})")
        for file in ("replay/framec-replay", "families/VkLayer_framec_families.json"):
            if not (self.build / file).exists():
                missing.append(f"{self.build / file} (cmake --build)")
        if missing:
            raise Missing("\n".join(missing))

    def copy(self):
        for folder in ("replay", "families"):
            to = self.root / PLACE / folder
            to.mkdir(parents=True, exist_ok=True)
            for file in (self.build / folder).iterdir():
                if file.is_file() and (file.name == "framec-replay" or file.suffix in (".so", ".json")):
                    new = to / (file.name + f".{os.getpid()}")
                    shutil.copy2(file, new)
                    new.rename(to / file.name)

    def replay(self, text, *options):
        done = subprocess.run([*self.words, *options], input=text, stdout=subprocess.PIPE, stderr=subprocess.PIPE, timeout=LIMIT)
        return Answer(done)

    def layer_version(self):
        """What the manifest of the validation layer says of it."""
        manifest = self.root / "usr/share/vulkan/explicit_layer.d/VkLayer_khronos_validation.json"
        text = manifest.read_text()
        return text.split('"api_version": "')[1].split('"')[0]
