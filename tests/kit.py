"""What the scripts here know of the Rattle kit: where it lies, how its prover is called on a crate over proved libraries, where what it proved and built stands, and of which
sources that is."""
import hashlib, pathlib, shutil, subprocess, sys

root = pathlib.Path(__file__).resolve().parent.parent


def home():
    """the kit's folder"""
    rt = shutil.which('rt')
    if rt is None:
        sys.exit('rt of the Rattle kit is not on the PATH')
    return pathlib.Path(rt).resolve().parent.parent


def named():
    """each crate and what crates.txt has behind it: the crates of the repository and the libraries of the kit that it stands on"""
    lines = (l.split('#')[0] for l in (root / 'crates.txt').read_text().splitlines())
    return {l.split(':')[0].strip(): l.split(':', 1)[1].split() for l in lines if ':' in l}


def depends():
    """each crate and the crates of the repository that it stands on"""
    found = named()
    return {crate: [c for c in of if c in found] for crate, of in found.items()}


def libraries(crate):
    """the libraries of the kit that a crate stands on"""
    found = named()
    return [c for c in found[crate] if c not in found]


def below(names):
    """these crates and all those that they stand on, lowest first"""
    deps, found = depends(), []

    def visit(crate):
        for d in deps[crate]:
            visit(d)
        if crate not in found:
            found.append(crate)
    for name in names:
        visit(name)
    return found


def sources():
    """a sum of all that the crates are proved and built from"""
    files = sorted(f for part in ('src', 'specs', 'proofs') for f in root.glob(f'crates/*/{part}/**/*') if f.is_file())
    told = hashlib.sha256((home() / 'KIT-ID').read_bytes())
    for f in [root / 'crates.txt', *files]:
        told.update(repr((str(f.relative_to(root)), f.read_bytes())).encode())
    return told.hexdigest()


def source(crate):
    """the folder of a crate's sources, in the repository or in the kit"""
    return (root / 'crates' if crate in named() else home() / 'rattle') / crate / 'src'


def rlib(crate):
    """the folder in which rt leaves a proved library"""
    return root / 'crates' / crate / 'out/rlib' / f'{crate}.rlib'


def prover(verb, crate, folder, libraries, *more):
    """the prover on the crate in a folder, over proved libraries, given as their folders by their names: its status, and all that it printed"""
    kit = home()
    words = [f'{kit}/bin/rattle', verb, '--crate-name', crate, 'src/lib.rt', '--extern', f'std={kit}/rlibs/std.rlib', '-L', f'dependency={kit}/rlibs']
    for name, proved in libraries.items():
        words += ['--extern', f'{name}={proved}', '-L', f'dependency={proved.parent}']
    words += ['--antt-project', f'{kit}/rattle/logic/antt-project.json', '--logic-built', f'{kit}/logic_built', *more]
    ran = subprocess.run(words, cwd=folder, stdin=subprocess.DEVNULL, stdout=subprocess.PIPE, stderr=subprocess.STDOUT, text=True, errors='replace')
    return ran.returncode, ran.stdout


BIN = root / 'target/bin'


def programs(*paths):
    """has those of these programs that lie in target/bin stand there, built of the sources as they are (tests/programs)"""
    names = [p.name for p in map(pathlib.Path.resolve, paths) if p.parent == BIN]
    if names and subprocess.run([root / 'tests/programs', *names]).returncode:
        sys.exit(1)


# `.ci/run` notes here, right behind rt ci, of which sources what rt ci left in crates/*/out is.
PASSED = root / 'target/passed'


def proved(names):
    """has these crates and all those below them stand as proved libraries in crates/*/out: rt ci has just left them there, or `rt lib` builds what is missing or has changed"""
    needed = below(names)
    by_ci = PASSED.is_file() and PASSED.read_text() == sources()
    if by_ci and all((rlib(c) / 'format').is_file() and not (rlib(c).parent / 'stamp').exists() for c in needed):
        return
    for name in names:
        ran = subprocess.run(['rt', 'lib'], cwd=root / 'crates' / name, stdin=subprocess.DEVNULL, stdout=subprocess.PIPE, stderr=subprocess.STDOUT, text=True, errors='replace')
        if ran.returncode:
            sys.exit(f'{name} is not proved (rt lib in crates/{name}):\n{ran.stdout[-3000:]}')
