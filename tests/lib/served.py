"""A `serve` that a test drives over pipes, and the other words of the program."""

import select
import subprocess
import sys


def differs(what):
    """Ends the script: something isn't as it has to be."""
    print(f"{sys.argv[0].rpartition('/')[2]}: {what}", file=sys.stderr)
    sys.exit(1)


def want(holds, what):
    if not holds:
        differs(what)


def run(program, *words, stdin=b"", **more):
    """The status, the lines printed and the text on standard error of a run that ends by itself."""
    done = subprocess.run([program, *map(str, words)], input=stdin, capture_output=True, timeout=600, **more)
    return done.returncode, done.stdout.decode("latin-1").splitlines(), done.stderr.decode().strip()


def sure(program, *words, **more):
    """The lines printed by a run that has to end with status 0."""
    status, out, err = run(program, *words, **more)
    want(status == 0, f"{words}: status {status}, {err}")
    return out


def script(folder, lines, name="script.txt"):
    path = folder / name
    path.write_text("".join(line + "\n" for line in lines))
    return path


class Served:
    """One running `serve`."""

    def __init__(self, program, image, *words, before=(), **more):
        pipes = {"stdin": subprocess.PIPE, "stdout": subprocess.PIPE, "stderr": subprocess.PIPE}
        words = [*before, program, "serve", str(image), *words]
        self.process = subprocess.Popen(words, **{**pipes, **more})

    def send(self, lines):
        """Hands so many lines over at once; False where it has ended meanwhile."""
        try:
            self.process.stdin.write("".join(line + "\n" for line in lines).encode())
            self.process.stdin.flush()
            return True
        except BrokenPipeError:
            return False

    def reply(self):
        """The next reply, or None where it ended without one."""
        line = self.process.stdout.readline()
        return line[:-1].decode() if line.endswith(b"\n") else None

    def ask(self, line):
        self.send([line])
        return self.reply()

    def silent(self, seconds):
        """Whether it prints nothing for so long."""
        return not select.select([self.process.stdout], [], [], seconds)[0]

    def kill(self):
        self.process.kill()
        self.finish()

    def finish(self):
        """Ends the input; the status, what else it printed, and the text on standard error."""
        try:
            self.process.stdin.close()
        except BrokenPipeError:
            pass
        out, err = self.process.stdout.read(), self.process.stderr.read()
        self.process.wait(60)
        return self.process.returncode, out.decode().splitlines(), err.decode().strip()
