"""A copy of the script wagner-list with what it needs, for tools/test-wagner-list, in which a program, a kit or a folder can be played."""

import os
import shutil
import subprocess
import tempfile

TOP = os.path.dirname(os.path.dirname(os.path.realpath(__file__)))
PROGRAM = "crates/wagner_list/out/wagner_list"
BUILT = "target/wagner_list.built"


def be_nobody():
    """Makes the process nobody's."""
    os.setgroups([])
    os.setgid(65534)
    os.setuid(65534)


class Copy:
    """A folder with the script, and beside it a folder for temporary files and one for commands that come first on the PATH."""

    def __init__(self, program=None, is_built=True):
        self.room = tempfile.mkdtemp(prefix="test-wagner-list-")
        self.top, self.temporary, self.commands = (f"{self.room}/{name}" for name in ("top", "temporary", "commands"))
        os.chmod(self.room, 0o755)
        for folder in (f"{self.top}/crates/wagner_list/src", f"{self.top}/crates/lists", self.temporary, self.commands):
            os.makedirs(folder)
        os.chmod(self.temporary, 0o1777)
        shutil.copy2(f"{TOP}/wagner-list", self.top)
        shutil.copytree(f"{TOP}/tools/script", f"{self.top}/tools/script")
        shutil.copy2(f"{TOP}/crates.txt", self.top)
        self.put("top/crates/wagner_list/src/main.rt", "// a source\n")
        if is_built:
            self.build(program)

    def __enter__(self):
        return self

    def __exit__(self, *_):
        shutil.rmtree(self.room)

    def put(self, name, text, mode=0o644):
        """Writes a file, by its name below the room."""
        os.makedirs(os.path.dirname(f"{self.room}/{name}"), exist_ok=True)
        with open(f"{self.room}/{name}", "w", encoding="utf-8") as file:
            file.write(text)
        os.chmod(f"{self.room}/{name}", mode)

    def build(self, program=None):
        """Puts a program there, the real one or a shell script, as if it had been built now."""
        if program:
            self.put(f"top/{PROGRAM}", program, 0o755)
        else:
            os.makedirs(os.path.dirname(f"{self.top}/{PROGRAM}"), exist_ok=True)
            shutil.copy2(f"{TOP}/{PROGRAM}", f"{self.top}/{PROGRAM}")
        self.put(f"top/{BUILT}", "")

    def around(self, path=None):
        """The environment of a call."""
        path = path or f"{self.commands}:/usr/local/bin:/usr/bin:/bin"
        return {"PATH": path, "TMPDIR": self.temporary, "HOME": self.temporary}

    def start(self, *words, file=b"", before="", behind="", as_nobody=False, path=None, **how):
        """Starts the script with a file on standard input; `before` and `behind` are put around the call in the language of the shell."""
        how = {"stdin": subprocess.PIPE, "stdout": subprocess.PIPE, "stderr": subprocess.PIPE, "cwd": self.room, **how}
        how["env"] = self.around(path)
        if as_nobody and os.geteuid() == 0:
            how["preexec_fn"] = be_nobody
        call = ["/bin/sh", "-c", f'{before} exec "$@" {behind}', "sh", f"{self.top}/wagner-list", *words]
        started = subprocess.Popen(call, **how)
        if started.stdin:
            try:
                started.stdin.write(file)
                started.stdin.close()
            except BrokenPipeError:
                pass
            started.stdin = None
        return started

    def run(self, *words, **how):
        """Runs the script to its end: status, what it printed, what it said."""
        started = self.start(*words, **how)
        printed, said = started.communicate(timeout=60)
        return started.returncode, printed, said
