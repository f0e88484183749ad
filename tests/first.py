"""The first start of bin/plan: what it says and shows, the log that it leaves, how it is stopped and goes on.

    python3 -B tests/first.py

A build takes minutes, so `rt` is played here: a script that writes what rt writes, with a pause for each crate. For it
bin/plan is copied to a folder with five crates that `plan` stands on and one that it doesn't; `bin/run` there prints what it is
lent, and `bin/records` what it is asked. That the real rt writes the same is tried by tests/plan.sh.
"""
import os
import pathlib
import pty
import re
import shutil
import signal
import subprocess
import sys
import tempfile
import time

ROOT = pathlib.Path(__file__).resolve().parent.parent
CRATES = '''# Each crate, and what it uses.

# base: numbers
low:
aside: low

left: low libc
right: low
top: left right
plan: top io
'''
# PAUSE is the seconds that a crate takes, BAD a crate that isn't proved, or `run`: all is proved, but the program prints what it
# shouldn't; or `link`: no program is made. The model must not be eaten: it is for the program. Of a library that is proved already
# rt says nothing.
RT = '''#!/usr/bin/env bash
top=$(cd ../.. && pwd)
mkdir -p out "$top/target/stamp"
proved() { echo "rt: chose --jobs 2 for $1"; ${2:-:} "$1"; echo 'logic=proved functions=1'; }
try() {
  [ -e "$top/target/stamp/$1" ] || { sleep "$PAUSE" & echo $! >>"$top/processes"; wait; }
  if [ "$1" = "${BAD:-}" ]; then echo logic=not-proved; echo "rt: FAILED: $1"; exit 1; fi
  touch "$top/target/stamp/$1"
}
if [ "$1" = run ]; then
  proved plan >&2
  [ "${BAD:-}" = link ] || cp "$top/bin/run" out/plan
  exit
fi
cat >"$top/eaten"
echo "$*" >"$top/asked"
echo $$ >"$top/processes"
for crate in low left right top; do [ -e "$top/target/stamp/$crate" ] || proved $crate try; done
proved plan try
'''
RUN = '''#!/usr/bin/env bash
[ "${BAD:-}" != run ] || echo wrong
exec cat
'''
# The text says what comes of it.
RECORDS = '''#!/usr/bin/env bash
read -r status
echo "$1 $status"
exit $status
'''
TOOLS = 'bash cat cmp cp dirname env find grep head mkdir mktemp mv od readlink rm setsid sleep tac tail touch uname'.split()
GRADE = '\0the grade\n'
SHOWN = re.compile(rb'\r\x1b\[Kplan: (\d) of 5 crates done, \d+ s(?:, now ([a-z]+))?(?=\r)')


def script(path, text):
    path.write_text(text)
    path.chmod(0o755)


def alive(process):
    try:
        return pathlib.Path('/proc', process, 'stat').read_text().rpartition(')')[2].split()[0] not in 'ZX'
    except OSError:
        return False


class House:
    """A folder with bin/plan in it and a PATH of its own; what was wrong there is printed and counted."""

    def __init__(self, folder):
        self.root = pathlib.Path(folder)
        self.tools = self.root / 'tools'
        self.tried = self.failed = 0
        for name in ('bin', 'crates/plan/src', 'examples', 'tools'):
            (self.root / name).mkdir(parents=True)
        for name in ('src/main.rt', 'stdin', 'stdout'):
            (self.root / 'crates' / 'plan' / name).write_text(name[:3])
        for tool in TOOLS:
            (self.tools / tool).symlink_to(shutil.which(tool))
        (self.root / 'crates.txt').write_text(CRATES)
        (self.root / 'examples' / 'grade.model').write_text(GRADE)
        for name in ('plan', 'build', 'prove'):
            shutil.copy(ROOT / 'bin' / name, self.root / 'bin')
        script(self.root / 'bin' / 'run', RUN)
        script(self.root / 'bin' / 'records', RECORDS)
        script(self.tools / 'rt', RT)

    def environment(self, **more):
        return {'PATH': str(self.tools), 'PAUSE': '0', **more}

    def plan(self, *words, lent=b'', **more):
        done = subprocess.run([self.root / 'bin' / 'plan', *words], input=lent, capture_output=True, check=False,
                              env=self.environment(**more))
        return done.returncode, done.stdout.decode(), done.stderr.decode()

    def starts(self, **more):
        """bin/plan under way, as soon as its rt waits for the first crate."""
        (self.root / 'processes').unlink()
        started = subprocess.Popen([self.root / 'bin' / 'plan'], env=self.environment(**more),
                                   stdout=subprocess.DEVNULL, stderr=subprocess.DEVNULL)
        while started.poll() is None and not (self.root / 'processes').exists():
            time.sleep(0.1)
        time.sleep(0.3)
        return started

    def on_terminal(self, stop_at=None, **more):
        """All that a terminal shows, and the status. Ctrl-C is pressed as soon as `stop_at` is shown."""
        child, terminal = pty.fork()
        if child == 0:
            # A gate that runs in the background has this signal ignored, and so would have all that it starts.
            signal.signal(signal.SIGINT, signal.SIG_DFL)
            os.execve(self.root / 'bin' / 'plan', ['plan'], self.environment(**more))
        shown, pressed = b'', False
        while True:
            try:
                shown += os.read(terminal, 4096)
            except OSError:
                break
            if stop_at and stop_at in shown and not pressed:
                pressed = os.write(terminal, b'\x03') == 1
        status = os.waitstatus_to_exitcode(os.waitpid(child, 0)[1])
        os.close(terminal)
        return status, shown

    def read(self, name):
        return (self.root / name).read_text()

    def changed(self):
        """Every crate is to be proved again; the old program and its logs are there."""
        shutil.rmtree(self.root / 'target' / 'stamp')
        os.utime(self.root / 'crates.txt')

    def left(self):
        """The processes of the build that still run; some seconds are given to them."""
        for _ in range(30):
            left = [process for process in self.read('processes').split() if alive(process)]
            if not left:
                break
            time.sleep(0.1)
        return left

    def same(self, name, found, expected):
        self.tried += 1
        if found != expected:
            self.failed += 1
            print('first start, %s: %s\n  and not %s' % (name, found, expected))

    def has(self, name, text, *parts):
        for part in parts:
            self.same('%s says "%s"' % (name, part), (part in text) or text, True)


def refusals(house):
    status, told, said = house.plan(str(house.root / 'none'))
    house.same('a file that isn\'t there', (status, told, said), (2, '', "plan: %s can't be read\n" % (house.root / 'none')))
    house.same('a folder', house.plan(str(house.root))[:2], (2, ''))
    (house.tools / 'rt').rename(house.tools / 'away')
    status, told, said = house.plan()
    house.same('no rt', (status, told, said.count('\n')), (2, '', 1))
    house.has('no rt', said, 'Rattle toolchain', 'install', 'rt on PATH')
    (house.tools / 'away').rename(house.tools / 'rt')
    house.same('after refusals, a target', (house.root / 'target').exists(), False)


def without_terminal(house):
    status, told, said = house.plan('-', lent=b'\0lent\n')
    house.same('standard input', (status, told), (0, '\0lent\n'))
    house.has('a build', said, 'first 5 crates are proved', 'target/plan.log', 'built: 5 of 5 crates done')
    house.same('lines of a short build', said.count('\n'), 3)
    house.same('what rt is asked', (house.read('asked'), house.read('eaten')), ('check\n', ''))
    house.same('the log', re.findall(r'for (\w+)', house.read('target/plan.log')), 'low left right top plan plan'.split())
    house.same('a second start', house.plan(), (0, GRADE, ''))
    os.utime(house.root / 'crates.txt')
    house.has('a start after a change', house.plan()[2], 'built: 5 of 5 crates done')
    house.same('the start after that', house.plan(), (0, GRADE, ''))
    house.changed()
    said = house.plan(PAUSE='0.7', PLAN_EVERY='1')[2]
    house.has('a long build', said, 'of 5 crates done, 1 s, now', 'built: 5 of 5 crates done')


def texts(house):
    """A text is read by bin/records; what that prints is the model, or the refusal. A file with a 0 among its first four bytes
    is none."""
    text = house.root / 'day.text'
    for content, told in (('0', (0, '%s 0\n' % text)), ('1', (0, '%s 1\n' % text)), ('2', (2, '%s 2\n' % text)),
                          ('0  \0', (0, '0  \0')), ('0   \0', (0, '%s 0\n' % text))):
        text.write_text(content)
        house.same('a file of %r' % content, house.plan(str(text))[:2], told)
    house.same('a text on standard input', house.plan('-', lent=b'0\n')[:2], (0, '- 0\n'))


def bad(house):
    """A bad program isn't run, neither then nor at the next start. What moves during a build makes another one."""
    for crate, failed in (('right', 'rt: FAILED: right'), ('link', 'prove: rt has made no out/plan'),
                          ('run', "prove: plan doesn't print what its file stdout has")):
        house.changed()
        status, told, said = house.plan(BAD=crate)
        house.same('a bad crate', (status, told), (2, ''))
        house.has('a bad crate', said, 'could not be built (%s); target/plan.log says why' % failed)
        house.same('the start after a bad one', house.plan(BAD=crate)[:2], (2, ''))
    started = house.starts(PAUSE='0.5')
    os.utime(house.root / 'crates.txt')
    started.wait()
    house.has('the start after a move', house.plan()[2], 'built: 5 of 5 crates done')


def shows(house):
    """Each line is in place of the one before; the counts rise from 0, and each crate is named."""
    house.changed()
    status, shown = house.on_terminal(PAUSE='1.5')
    lines = SHOWN.findall(shown)
    house.same('on a terminal', status, 0)
    counts, names = [int(count) for count, _ in lines], {now for _, now in lines}
    house.same('the counts', ({0, 1, 2, 3, 4} - set(counts), counts), (set(), sorted(counts)))
    house.same('the crates that are named', {b'low', b'left', b'right', b'top', b'plan'} - names, set())
    house.same('crates that plan doesn\'t use', [now for now in names if b'aside' in now], [])
    last = re.search(rb'\r\x1b\[Kplan: built: 5 of 5 crates done, \d+ s\r\n\0the grade\r\n$', shown)
    house.same('the last line', last is not None or shown, True)


def stopped(house):
    """Ctrl-C in the third crate: no process is left, and the next start goes on with it. A signal ends all, too."""
    house.changed()
    status, shown = house.on_terminal(stop_at=b'now right', PAUSE='1.5')
    house.same('stopped', (status, b'the grade' in shown), (130, False))
    house.has('stopped', shown.decode(), 'plan: stopped. What is proved is kept, and the next start goes on from there')
    house.same('processes that are left', house.left(), [])
    house.same('proved so far', sorted(os.listdir(house.root / 'target' / 'stamp')), ['left', 'low'])
    # Two of the three that are done by then were proved before, and rt says nothing of them.
    status, told, said = house.plan(PAUSE='2', PLAN_EVERY='1')
    house.same('the next start', (status, told), (0, GRADE))
    house.same('what it says', re.search(r'3 of 5 crates done, \d+ s, now top\n', said) is not None or said, True)
    house.has('the next start', said, 'built: 5 of 5 crates done')
    house.same('proved then', re.findall(r'for (\w+)', house.read('target/plan.log')), ['right', 'top', 'plan', 'plan'])
    house.changed()
    started = house.starts(PAUSE='60')
    started.send_signal(signal.SIGTERM)
    house.same('ended by a signal', (started.wait(), house.left()), (130, []))


def emulated(house):
    """bin/run on a machine that isn't x86-64, without the toolchain and with one that has no emulator."""
    run = [ROOT / 'bin' / 'run', '/bin/true']
    (house.tools / 'uname').unlink()
    script(house.tools / 'uname', '#!/usr/bin/env bash\necho riscv64\n')
    for name, words in (('rt', 'an emulator, and the toolchain has none: install qemu-user'),
                        ('away', 'the Rattle toolchain: install it, its command rt on PATH')):
        (house.tools / 'rt').rename(house.tools / name)
        done = subprocess.run(run, capture_output=True, check=False, env=house.environment())
        house.same('bin/run', (done.returncode, done.stderr.decode()), (
            2, 'run: /bin/true is for x86-64 Linux. On this machine, riscv64, it needs %s\n' % words))


def main():
    with tempfile.TemporaryDirectory() as folder:
        house = House(folder)
        for part in (refusals, without_terminal, texts, bad, shows, stopped, emulated):
            part(house)
    print('first start of bin/plan: %d as it should be, %d not' % (house.tried - house.failed, house.failed))
    return house.failed


if __name__ == '__main__':
    sys.exit(1 if main() else 0)
