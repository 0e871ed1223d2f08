"""Starts a terminal on a screen that nobody sees, sends it bytes, and reads the screen. Two scripts use it.

How fast the machine is doesn't matter: after a string the terminal draws marks, and the screen is read when they were
seen. Each process that it starts it ends by its own id, in `Screen.close` and `Terminal.close`; it ends no other one.
Started as a program inside a terminal, it passes bytes on between a socket and the terminal: `screens.py SOCKET`.
"""
import contextlib
import os
import pathlib
import select
import shutil
import socket
import struct
import subprocess
import sys
import tempfile
import time
import tty

WIDTH, HEIGHT = 1000, 2200
BACKGROUND = "204060"
# A mark is the last cell of the last line. It is in this corner of the screen, where nothing is compared. Its colour is
# one of the 256 that terminals of today have.
CORNER = 75, 100
READY, DRAWN, OVER = (201, (255, 0, 255)), (51, (0, 255, 255)), (226, (255, 255, 0))
# How long a terminal may take to draw a mark, in seconds; and when it is sent again, since the terminal may have got
# another size.
PATIENCE, AGAIN = 300, 3
HERE = pathlib.Path(__file__).resolve()


def relay(path):
    """Inside a terminal: passes on what comes from the socket, and the terminal's answers back."""
    tty.setraw(0)
    with socket.socket(socket.AF_UNIX) as line, contextlib.suppress(OSError):
        line.connect(path)
        while True:
            ready = select.select([0, line], [], [])[0]
            if 0 in ready:
                line.sendall(os.read(0, 4096))
            if line in ready:
                data = line.recv(65536)
                if not data:
                    return
                while data:
                    data = data[os.write(1, data):]


def end(process):
    """Ends one process that this program started."""
    if process.poll() is None:
        process.terminate()
        try:
            process.wait(5)
        except subprocess.TimeoutExpired:
            process.kill()
            process.wait()


class Screen:
    """An X server without a screen of its own, and a Wayland compositor inside it for terminals that need one. Neither
    has a pointer: it would be drawn over the pictures."""

    def __init__(self, width=WIDTH, height=HEIGHT):
        self.width, self.height = width, height
        self.folder = pathlib.Path(tempfile.mkdtemp(prefix="field."))
        self.log = open(self.folder / "log", "wb")
        ready, told = os.pipe()
        self.server = subprocess.Popen(
            ["Xvfb", "-displayfd", str(told), "-screen", "0", f"{width}x{height}x24", "-fbdir", self.folder,
             "-nolisten", "tcp", "-noreset", "-nocursor"], pass_fds=[told], stdout=self.log, stderr=self.log,
            start_new_session=True)
        os.close(told)
        with os.fdopen(ready) as line:
            self.display = ":" + line.readline().strip()
        (self.folder / "run").mkdir(mode=0o700)
        self.environment = {
            "PATH": os.environ["PATH"], "LANG": "C.UTF-8", "LC_ALL": "C.UTF-8", "HOME": str(self.folder),
            "DISPLAY": self.display, "XDG_RUNTIME_DIR": str(self.folder / "run"), "TERM": "xterm",
            # Without this konsole starts a bus of its own, which would stay.
            "DBUS_SESSION_BUS_ADDRESS": "disabled:"}
        self.compositor = None

    def start(self, words, **more):
        """Starts a program in a session of its own: a stop of this one by its terminal doesn't end it."""
        return subprocess.Popen(words, env={**self.environment, **more}, cwd=self.folder, stdin=subprocess.DEVNULL,
                                stdout=self.log, stderr=self.log, start_new_session=True)

    def needs_wayland(self):
        """Starts weston, which shows one full window inside the X server. With input devices it draws a pointer of its
        own, often at the top left, over a picture's first pixels."""
        if self.compositor:
            return
        self.compositor = self.start(
            ["weston", "--backend=x11-backend.so", "--use-pixman", "--shell=kiosk-shell.so", "--no-config",
             f"--width={self.width}", f"--height={self.height}", "--socket=field", "--idle-time=0", "--no-input"])
        self.environment["WAYLAND_DISPLAY"] = "field"
        if not wait_for(lambda: accepts(self.folder / "run" / "field"), PATIENCE):
            raise TimeoutError("weston didn't start")

    def pixels(self, top=0):
        """The screen's bytes from a row down, and how many a row has. The server keeps them in a file, after a head of
        the format of xwd."""
        with open(self.folder / "Xvfb_screen0", "rb") as kept:
            head = struct.unpack(">25I", kept.read(100))
            kept.seek(head[0] + 12 * head[19] + top * head[12])
            return kept.read((self.height - top) * head[12]), head[12]

    def picture(self, top=0):
        """The screen as a PIL image, from a row down."""
        return self.image(*self.pixels(top))

    def image(self, pixels, row):
        from PIL import Image
        return Image.frombytes("RGB", (self.width, len(pixels) // row), pixels, "raw", "BGRX", row)

    def at_rest(self):
        """The screen, once it is the same twice."""
        last = self.pixels()
        until = time.monotonic() + PATIENCE
        while time.monotonic() < until:
            time.sleep(0.1)
            last, before = self.pixels(), last
            if last == before:
                return self.image(*last)
        raise TimeoutError("the screen doesn't come to rest")

    def has(self, colour, picture=None):
        """Whether a pixel of the corner has this colour, on the screen or on this picture of it."""
        width, height = CORNER
        last = picture.crop((0, self.height - height, *picture.size)) if picture else self.picture(self.height - height)
        corner = last.crop((self.width - width, 0, self.width, height))
        return any(pixel == colour for _, pixel in corner.getcolors(width * height))

    def close(self):
        if self.compositor:
            end(self.compositor)
        end(self.server)
        self.log.close()
        shutil.rmtree(self.folder, ignore_errors=True)


def accepts(path):
    """Whether someone listens at a socket."""
    with socket.socket(socket.AF_UNIX) as line:
        return line.connect_ex(str(path)) == 0


def wait_for(test, seconds):
    """Whether the test is met within that time."""
    until = time.monotonic() + seconds
    while not test():
        if time.monotonic() > until:
            return False
        time.sleep(0.02)
    return True


def xterm(screen, program, background, options):
    # A cell of this font has 6 by 13 pixels.
    cells = f"{screen.width // 6}x{screen.height // 13}+0+0"
    return ["xterm", "-ti", "vt340", "-geometry", cells, "-fn", "fixed", "-b", "0", "-bw", "0", "+sb", "-fg", "white",
            "-bg", f"#{background}", "-xrm", "XTerm*cursorBlink: false", *options, "-e", *program]


def mlterm(screen, program, background, options):
    # A cell of this font has 10 by 20 pixels, and there are 2 around all cells. Without the file the font depends on
    # what is installed.
    (screen.folder / ".mlterm").mkdir(exist_ok=True)
    (screen.folder / ".mlterm/font").write_text("DEFAULT = 10x20\nISO8859_1 = 10x20\nISO10646_UCS4_1 = 10x20\n")
    cells = f"{(screen.width - 4) // 10}x{(screen.height - 4) // 20}+0+0"
    return ["mlterm", "--type=xcore", "--aa=false", f"--geometry={cells}", "--sbmod=none", "--borderless=true",
            "--fg=white", f"--bg=#{background}", *options, "-e", *program]


def foot(screen, program, background, options):
    screen.needs_wayland()
    return ["foot", "--config=/dev/null", "--override=main.pad=0x0", "--override=csd.preferred=none",
            f"--override=colors.background={background}", *options, *program]


def konsole(screen, program, background, options):
    share = screen.folder / ".local/share/konsole"
    share.mkdir(parents=True, exist_ok=True)
    (screen.folder / ".config").mkdir(exist_ok=True)
    colour = ",".join(str(part) for part in bytes.fromhex(background))
    (share / "field.colorscheme").write_text(f"[Background]\nColor={colour}\n\n[Foreground]\nColor=255,255,255\n")
    (share / "field.profile").write_text(
        # Else konsole writes its size over the middle of the screen when it starts.
        "[Appearance]\nColorScheme=field\n\n[General]\nName=field\nTerminalMargin=0\nShowTerminalSizeHint=false\n\n"
        "[Scrolling]\nScrollBarPosition=2\n")
    (screen.folder / ".config/konsolerc").write_text(
        "[Desktop Entry]\nDefaultProfile=field.profile\n\n[KonsoleWindow]\nShowMenuBarByDefault=false\n\n"
        "[MainWindow]\nMenuBar=Disabled\nToolBarsMovable=Disabled\n\n[TabBar]\nTabBarVisibility=AlwaysHideTabBar\n")
    return ["konsole", "--separate", "--hide-menubar", "--hide-tabbar", "--qwindowgeometry",
            f"{screen.width}x{screen.height}+0+0", *options, "-e", *program]


TERMINALS = {"xterm": xterm, "mlterm": mlterm, "foot": foot, "konsole": konsole}


class Terminal:
    """One terminal, started fresh."""

    def __init__(self, screen, name, background=BACKGROUND, options=()):
        self.screen, self.name, self.heard, self.asked = screen, name, b"", 0
        path = screen.folder / "line"
        path.unlink(missing_ok=True)
        with socket.socket(socket.AF_UNIX) as listener:
            listener.bind(str(path))
            listener.listen()
            program = [sys.executable, str(HERE), str(path)]
            self.process = screen.start(TERMINALS[name](screen, program, background, options))
            wait_for(lambda: select.select([listener], [], [], 0)[0] or self.ended(), PATIENCE)
            if not select.select([listener], [], [], 0)[0]:
                end(self.process)
                raise TimeoutError(f"{name} didn't start within {PATIENCE} seconds")
            self.line = listener.accept()[0]

    def show(self, data):
        """Sends a string. After it two marks are drawn, one after the other: a terminal that meets its end by the
        string has then met it. The status, if it has ended, and the screen, which has the last mark if it hasn't."""
        self.mark(READY)
        self.send(b"\x1b[2J\x1b[H" + data)
        self.mark(DRAWN)
        self.mark(OVER)
        picture = self.screen.at_rest()
        while not self.ended() and not self.screen.has(OVER[1], picture):
            self.mark(OVER)
            picture = self.screen.at_rest()
        return self.process.poll(), picture

    def mark(self, mark):
        """Draws a mark and asks a question, and waits until the one is seen and the other answered, or the terminal has
        ended."""
        number, colour = mark
        until = time.monotonic() + PATIENCE
        while time.monotonic() < until:
            self.send(f"\x1b[?25l\x1b[999;999H\x1b[48;5;{number}m \x1b[m\x1b[c".encode())
            self.asked += 1
            if wait_for(lambda: self.ended() or self.screen.has(colour) and self.answered(), AGAIN):
                return
        raise TimeoutError(f"{self.name} drew no mark within {PATIENCE} seconds")

    def send(self, data):
        with contextlib.suppress(OSError):
            self.line.sendall(data)

    def ended(self):
        return self.process.poll() is not None

    def answered(self):
        """Whether all questions were answered."""
        with contextlib.suppress(OSError):
            self.heard += self.line.recv(65536, socket.MSG_DONTWAIT)
        return self.heard.count(b"c") >= self.asked

    def close(self):
        """Ends the terminal while its program still runs: konsole starts another process after the end of that, which
        would stay if konsole ended in this moment."""
        end(self.process)
        self.line.close()


if __name__ == "__main__":
    relay(sys.argv[1])
