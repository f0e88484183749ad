"""What the check says of each must-fail edit. `rt ci` tries them all, but tells one line of what the check says; here each is
tried by the toolchain's own code once more, and all that is said is kept, for tests/edits.py to judge.

A log is kept under the sum of all that it rests on: the toolchain, the edit, its crate, and the crates below. So what was tried on
this machine is not tried again until one of those changes, as with `rt ci`. Logs are in the user's cache folder:
$XDG_CACHE_HOME, or ~/.cache.
"""
import concurrent.futures
import hashlib
import importlib.machinery
import importlib.util
import os
import pathlib
import shutil
import subprocess
import sys
import tempfile
import threading

ROOT = pathlib.Path(__file__).resolve().parent.parent
KEPT = pathlib.Path(os.environ.get('XDG_CACHE_HOME') or pathlib.Path.home() / '.cache') / 'bungalistor' / 'must-fail'
# A try of each edit is one check on one processor.
ONE_JOB = ['--jobs', '1']


def toolchain():
    """The command rt, as a module, which tries an edit by `must_fail`. Its own start makes crates know their files, as here."""
    loader = importlib.machinery.SourceFileLoader('rt', os.path.realpath(shutil.which('rt')))
    rt = importlib.util.module_from_spec(importlib.util.spec_from_loader('rt', loader))
    loader.exec_module(rt)
    init = rt.rtlib.Crate.__init__

    def with_files(self, *given, **named):
        init(self, *given, **named)
        rt.read_files(self)

    rt.rtlib.Crate.__init__ = with_files
    # It sets a signal's handler, which only the main thread may.
    rt.rtlib.guarded()
    return rt


class Tries:
    """The logs of the edits of some crates, by crate and the edit file's name without its ending."""

    def __init__(self, crates):
        self.rt, self.said, self.logs, self.bad = toolchain(), threading.local(), {}, []
        self.listen()
        stamps, todo = {}, []
        for crate in self.rt.rtlib.crates_below(str(ROOT)):
            for path in self.rt.edits_of(crate)[0] if crate.name in crates else []:
                log = self.kept(crate, path, stamps)
                self.logs[crate.name, pathlib.Path(path).stem] = log
                if not log.exists():
                    todo.append((crate, path, log))
        self.tried, self.files = len(todo), len(self.logs)
        self.make(todo)

    def kept(self, crate, path, stamps):
        """Where the log of an edit is kept, with all that it rests on as it is now."""
        path = pathlib.Path(path)
        return KEPT / hashlib.sha256(repr((self.rt.stamp_of(crate, stamps), path.stem, path.read_bytes())).encode()).hexdigest()

    def listen(self):
        """Keeps what each check says, by the thread that runs it."""
        checked = self.rt.checked

        def listening(*given):
            ran = checked(*given)
            self.said.text = ran.stdout
            return ran

        self.rt.checked = listening

    def make(self, todo):
        for crate in {crate.name: crate for crate, _, _ in todo}.values():
            # What a try begins with, and the libraries below.
            if subprocess.run(['rt', 'check'], cwd=crate.folder, stdout=subprocess.DEVNULL).returncode:
                sys.exit(f'{crate.name} is not proved')
        if todo:
            KEPT.mkdir(parents=True, exist_ok=True)
            most = max(self.rt.need(crate) for crate, _, _ in todo)
            lanes = max(1, min(self.rt.processors(), int(self.rt.free() / most)))
            with concurrent.futures.ThreadPoolExecutor(lanes) as pool:
                for _ in pool.map(lambda it: self.attempt(*it), todo):
                    pass

    def attempt(self, crate, path, log):
        """Tries one edit over what the crate's own check kept. What comes to no verdict is told, and not kept."""
        with tempfile.TemporaryDirectory(prefix='edit-') as room:
            self.rt.linked(f'{crate.folder}/out/incremental', f'{room}/seed')
            kind, told = self.rt.must_fail(crate, path, ONE_JOB, f'{room}/seed')
        print(told, flush=True)
        if kind not in (self.rt.REFUSED, self.rt.AT_LIMIT):
            self.bad.append(f'{crate.name}: {pathlib.Path(path).stem}: not refused')
        elif self.kept(crate, path, {}) != log:
            self.bad.append(f'{crate.name}: {pathlib.Path(path).stem}: a file that it rests on moved meanwhile')
        else:
            with tempfile.NamedTemporaryFile('w', dir=KEPT, delete=False) as made:
                made.write(self.said.text)
            os.replace(made.name, log)

    def log(self, crate, name):
        """What the check said; empty where it did not refuse."""
        log = self.logs[crate, name]
        return log.read_text() if log.exists() else ''
