"""The prover, called for one crate as `rt` calls it."""
import os
import shutil
import subprocess
import tempfile
import typing

ROOT = os.path.dirname(os.path.dirname(os.path.abspath(__file__)))
KIT = os.path.dirname(subprocess.run(['rt', 'doc'], stdout=subprocess.PIPE, text=True, check=True).stdout.strip())


def uses():
    """Of each crate of crates.txt, in its order: what it uses."""
    with open(os.path.join(ROOT, 'crates.txt'), encoding='utf-8') as file:
        lines = [line.split('#')[0] for line in file]
    return {line.split(':')[0].strip(): line.split(':')[1].split() for line in lines if ':' in line}


USES = uses()


def below(crates):
    """The crates of the repository that these use, also by others."""
    found = set()
    left = [used for crate in crates for used in USES[crate]]
    while left:
        crate = left.pop()
        if crate in USES and crate not in found:
            found.add(crate)
            left += USES[crate]
    return found


def folder(crate):
    return os.path.join(ROOT, 'crates', crate)


def library(crate):
    return os.path.join(folder(crate), 'out', 'rlib', crate + '.rlib')


def sources(crate):
    """Of each file that a check of the crate reads, its status."""
    return [os.stat(os.path.join(at, name)) for part in ('src', 'specs', 'proofs')
            for at, _, names in os.walk(os.path.join(folder(crate), part)) for name in names]


def is_left_by_ci(crate):
    """Whether the crate's library is the one that `rt ci` left, and no source of the crate or below it was written since. `rt ci` leaves no
    stamp, by which rt would know it again, and may link files of earlier runs: their status is changed then, their text is older."""
    made = os.path.join(library(crate), 'format')
    if not os.path.isfile(made) or os.path.exists(os.path.join(folder(crate), 'out', 'rlib', 'stamp')):
        return False
    made = os.stat(made).st_ctime_ns
    return all(file.st_mtime_ns < made for each in [crate, *below([crate])] for file in sources(each))


def build_below(crates):
    """Has the libraries built that stand below the crates; says what rt said where that fails. Those that `rt ci` left serve. Else rt builds
    the libraries, and the crates too where they are libraries, over what its checks kept: what these keep then is there to begin with."""
    needed = below(crates)
    if all(map(is_left_by_ci, needed)):
        return ''
    wanted = needed | {crate for crate in crates if os.path.isfile(os.path.join(folder(crate), 'src', 'lib.rt'))}
    for crate in sorted(wanted - below(wanted)):
        done = subprocess.run(['rt', 'lib'], cwd=folder(crate), stdout=subprocess.PIPE, stderr=subprocess.STDOUT, text=True, check=False)
        if done.returncode != 0:
            return done.stdout
    return ''


def room():
    """A folder in memory, where there is one: for each check the prover makes thousands of small files, a fifth of its time on a disk."""
    memory = '/dev/shm'
    return memory if os.access(memory, os.W_OK) and shutil.disk_usage(memory).free > 4 << 30 else None


class Checked(typing.NamedTuple):
    status: int
    said: str
    seconds: float  # of the processor
    megabytes: float  # of memory, at the most

    def proved(self):
        return self.status == 0 and '\nlogic=proved' in '\n' + self.said


def check(crate, at, kept=None):
    """One check of a crate that stands in the folder `at`, from nothing, or given and leaving what is in the folder `kept`. What it uses must
    be built, by build_below."""
    words = ['--crate-name', crate, 'src/main.rt' if os.path.isfile(os.path.join(at, 'src', 'main.rt')) else 'src/lib.rt']
    for used in ['std'] + USES[crate]:
        words += ['--extern', f'{used}={library(used) if used in USES else os.path.join(KIT, "rlibs", used + ".rlib")}']
    words += ['-L', 'dependency=' + os.path.join(KIT, 'rlibs')]
    for used in sorted(below([crate])):
        words += ['-L', 'dependency=' + os.path.dirname(library(used))]
    words += ['--antt-project', os.path.join(KIT, 'rattle', 'logic', 'antt-project.json')]
    words += ['--logic-built', os.path.join(KIT, 'logic_built'), '--jobs', '1', '--links', crate + '=']
    words += ['--incremental', kept] if kept else []
    with tempfile.TemporaryDirectory(dir=room()) as small, tempfile.TemporaryFile() as said:
        run = subprocess.Popen([os.path.join(KIT, 'bin', 'rattle'), 'check', *words], cwd=at, stdin=subprocess.DEVNULL, stdout=said,
                               stderr=subprocess.STDOUT, env=dict(os.environ, TMPDIR=small))
        _, status, used = os.wait4(run.pid, 0)
        run.returncode = os.waitstatus_to_exitcode(status)
        said.seek(0)
        text = said.read().decode(errors='replace')
    return Checked(run.returncode, text, used.ru_utime + used.ru_stime, used.ru_maxrss / 1024)
