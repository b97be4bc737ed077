"""What an installation of Vobrekan has, for tools/install and tools/release: each file by its path below the folder that it is installed in."""
import collections
import hashlib
import os
import re
import shutil
import subprocess
import sys
import tempfile

sys.dont_write_bytecode = True

import manual  # noqa: E402
import unproved  # noqa: E402
from unproved import TOP, Refused, Wanted, read, run  # noqa: E402

PROGRAMS = ["mtree", "mscope"]
TARGET = "x86_64-unknown-linux-gnu"
DOCS = "share/doc/vobrekan"
NOTES = "share/vobrekan"
COMPLETIONS = {
    "bash": lambda name: (f"{name}.bash", f"share/bash-completion/completions/{name}"),
    "zsh": lambda name: (f"_{name}", f"share/zsh/site-functions/_{name}"),
    "fish": lambda name: (f"{name}.fish", f"share/fish/vendor_completions.d/{name}.fish"),
}

# A file of the installation: its bytes and its mode; or a link, with the name of what it leads to.
Entry = collections.namedtuple("Entry", "data mode link", defaults=(None,))


def version():
    """The version of the whole: that of the crates for Rust."""
    return re.search(r'^version = "(.*)"$', read(f"{TOP}/bindings/rust/vobrekan/Cargo.toml"), re.M)[1]


def interface():
    """The part of the version that says whether a program which was linked with the library goes on with it."""
    parts = version().split(".")
    return parts[0] if parts[0] != "0" else ".".join(parts[:2])


def git(*words):
    """What git says of this checkout, or nothing where it is none."""
    ran = subprocess.run(["git", "-C", TOP, *words], stdin=subprocess.DEVNULL, capture_output=True, text=True)
    return ran.stdout.strip() if ran.returncode == 0 else ""


def commit():
    """The commit that stands here, and whether files differ from it."""
    name = git("rev-parse", "HEAD")
    return (name + (", with changes" if git("status", "--porcelain") else "")) if name else "unknown"


def taken(path):
    """The bytes of a file."""
    with open(path, "rb") as it:
        return it.read()


class Built:
    """The programs and the library, built or proved."""

    def __init__(self, workspace, is_proved):
        self.at, self.is_proved = workspace, is_proved
        if is_proved:
            self.prove()
            self.programs = {it: f"{TOP}/crates/{it}/out/{it}" for it in PROGRAMS}
            self.archive = f"{TOP}/bindings/out/libvobrekan.a"
        else:
            words = [sys.executable, f"{TOP}/tools/build", *PROGRAMS, unproved.LIBRARY]
            if subprocess.run(words, stdin=subprocess.DEVNULL).returncode:
                raise Refused("not all is built")
            self.programs = {it: unproved.file_of(Wanted("program", it)) for it in PROGRAMS}
            self.archive = unproved.file_of(Wanted("library", unproved.LIBRARY))

    @staticmethod
    def prove():
        """Proves the programs and the library, as far as that is not done; each program is run once, for nothing."""
        for name, words in {"mtree": ["run"], "mscope": ["--version"]}.items():
            ran = subprocess.run(["rt", "run", "--", *words], cwd=f"{TOP}/crates/{name}", stdin=subprocess.DEVNULL, stdout=sys.stderr)
            if ran.returncode:
                raise Refused(f"{name} is not proved")
        if subprocess.run([f"{TOP}/bindings/build"], stdin=subprocess.DEVNULL, stdout=sys.stderr).returncode:
            raise Refused("the library is not proved")

    def shared(self):
        """The library as a shared object, of which only the declared calls are to be seen; nothing where there is no gcc."""
        if not shutil.which("gcc"):
            return None
        with tempfile.TemporaryDirectory(prefix="vobrekan-shared-") as room:
            unproved.write(f"{room}/calls", "{ global: vb_*; local: *; };\n")
            words = ["gcc", "-shared", "-o", f"{room}/made.so", f"-Wl,-soname,libvobrekan.so.{interface()}", f"-Wl,--version-script={room}/calls"]
            words += ["-Wl,-z,relro,-z,now", "-Wl,--whole-archive", self.archive, "-Wl,--no-whole-archive"]
            run(words, "gcc")
            return taken(f"{room}/made.so")

    def crates(self, name):
        """The crates of the repository that a program or the library has in it."""
        return [name, *self.at.below(name)]

    def of_kit(self):
        """The libraries of the kit that are in what is installed, in order."""
        names = ["std"]
        for it in [*PROGRAMS, unproved.LIBRARY]:
            names += [dep for crate in self.crates(it) for dep in self.at.named[crate] if dep not in self.at.named]
        names = list(dict.fromkeys(names))
        for name in names:
            uses = re.findall(r"^dep (\w+)$", read(f"{self.at.kit}/rlibs/{name}.rlib/format"), re.M)
            names += [it for it in uses if it not in names]
        return sorted(names)

    def licences(self, name):
        """The licence files that the kit has beside one of its libraries."""
        folder = f"{self.at.kit}/rattle/{name}"
        found = sorted(it for it in os.listdir(folder) if it.startswith("LICENSE")) if os.path.isdir(folder) else []
        return {it: taken(f"{folder}/{it}") for it in found}

    def note(self, entries):
        """The text of the file BUILD: what is installed, and how it was made."""
        how = "proved" if self.is_proved else "unproved: no contract of it was looked at"
        text = f"vobrekan {version()}\nbuilt {how}\ncommit {commit()}\nkit {self.at.version}\ntarget {TARGET}, x86-64-v2\n"
        for path in ("bin/mtree", "bin/mscope", "lib/libvobrekan.a"):
            text += f"sha256 {hashlib.sha256(entries[path].data).hexdigest()} {path}\n"
        return text


def pkg_config(prefix):
    """The pkg-config file; without a folder it finds itself. A folder that the loader does not search is told to the linker."""
    libs = "-L${libdir} -lvobrekan" if prefix in ("/usr", "/usr/local") else "-L${libdir} -Wl,-rpath,${libdir} -lvobrekan"
    text = f"prefix={prefix or '${pcfiledir}/../..'}\nlibdir=${{prefix}}/lib\nincludedir=${{prefix}}/include\n\n"
    text += f"Name: vobrekan\nDescription: QEMU's guest memory model as proved software\nVersion: {version()}\n"
    return text + f"Libs: {libs}\nCflags: -I${{includedir}}\n"


def below(folder):
    """The files below a folder of the repository, by their paths in the repository."""
    for at, folders, files in os.walk(f"{TOP}/{folder}"):
        folders.sort()
        yield from (os.path.relpath(f"{at}/{it}", TOP) for it in sorted(files))


def documents():
    """The pages, the examples and the licences, as they stand in the repository."""
    paths = ["README.md", "CHANGELOG.md", "SECURITY.md", "LICENSE-APACHE", "LICENSE-MIT"]
    paths += [it for it in below("docs") if not it.startswith("docs/man/")]
    paths += [it for it in below("examples") if it != "examples/put-together"]
    return {f"{DOCS}/{it}": Entry(taken(f"{TOP}/{it}"), 0o644) for it in paths}


def entries(built, prefix=None):
    """All that is installed."""
    date = git("log", "-1", "--format=%cs")
    made = {f"bin/{it}": Entry(taken(path), 0o755) for it, path in built.programs.items()}
    made["lib/libvobrekan.a"] = Entry(taken(built.archive), 0o644)
    if shared := built.shared():
        real = f"libvobrekan.so.{version()}"
        made[f"lib/{real}"] = Entry(shared, 0o755)
        made[f"lib/libvobrekan.so.{interface()}"] = made["lib/libvobrekan.so"] = Entry(None, None, real)
    made["include/vobrekan.h"] = Entry(taken(f"{TOP}/bindings/vobrekan.h"), 0o644)
    made["lib/pkgconfig/vobrekan.pc"] = Entry(pkg_config(prefix).encode(), 0o644)
    for name in manual.names():
        made[f"share/man/man{name[-1]}/{name}"] = Entry(manual.page(name, version(), date).encode(), 0o644)
    for place in COMPLETIONS.values():
        for name in PROGRAMS:
            source, path = place(name)
            made[path] = Entry(taken(f"{TOP}/completions/{source}"), 0o644)
    made |= documents()
    for name in built.of_kit():
        made |= {f"{DOCS}/licences/{name}/{it}": Entry(data, 0o644) for it, data in built.licences(name).items()}
    made[f"{NOTES}/BUILD"] = Entry(built.note(made).encode(), 0o644)
    return made


def put(path, entry):
    """Puts a file or a link in its place, in one step."""
    os.makedirs(os.path.dirname(path), exist_ok=True)
    fresh = f"{path}.new"
    if os.path.lexists(fresh):
        os.remove(fresh)
    if entry.link:
        os.symlink(entry.link, fresh)
    else:
        with open(fresh, "wb") as it:
            it.write(entry.data)
        os.chmod(fresh, entry.mode)
    os.replace(fresh, path)
