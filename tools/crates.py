"""The files of a repository's crates, what crates.txt lists, lines counted, and one check timed. For the tools beside this file."""
import glob, os, subprocess, sys, time

PARTS = {'code': ('src', '.rt'), 'specs': ('specs', '.antt'), 'proofs': ('proofs', '.antt'), 'edits': ('must-fail', '.edit')}


def read(folder='.'):
    """crates.txt and every file under crates/, but for what rt made: path and text."""
    paths = glob.glob(folder + '/crates.txt')
    for part in sorted(glob.glob(folder + '/crates/*/*')):
        paths += sorted(glob.glob(part + '/**', recursive=True)) if os.path.isdir(part) and os.path.basename(part) != 'out' else [part]
    return {os.path.relpath(path, folder): open(path, encoding='utf-8', errors='replace').read() for path in paths if os.path.isfile(path)}


def listed(files):
    """The crates of crates.txt in their order, each with those of them that it is over."""
    parts = [line.split('#')[0].partition(':') for line in files.get('crates.txt', '').split('\n')]
    over = {words.split()[0]: others.split() for words, _, others in parts if words.strip()}
    return {name: [other for other in others if other in over] for name, others in over.items()}


def lowest_first(over):
    """The crates in an order in which each comes after those that it is over."""
    found = {}

    def put(name):
        for other in over[name]:
            if other not in found:
                put(other)
        found[name] = True

    for name in over:
        put(name)
    return list(found)


def part(files, kind, crate=None):
    """The paths of one kind of file: code, specs, proofs or edits, of one crate or of all."""
    folder, end = PARTS[kind]
    return [path for path in files if path.split('/')[2:3] == [folder] and path.endswith(end) and crate in (None, crate_of(path))]


def crate_of(path):
    return path.split('/')[1]


def lines(files, kind, crate=None):
    """Lines without blank ones."""
    return sum(1 for path in part(files, kind, crate) for line in files[path].split('\n') if line.strip())


def anew(folder):
    """Makes a copy of crates one where each check begins from nothing. `rt check` begins with what it kept in the crate's folder, and where
    the same text was proved in another folder, with what it kept there: so the copy has a comment of its own, and an empty folder of kept
    work."""
    for root in glob.glob(folder + '/crates/*/src/lib.rt') + glob.glob(folder + '/crates/*/src/main.rt'):
        with open(root, 'a', encoding='utf-8') as file:
            file.write('// timed at %f\n' % time.time())
        os.makedirs(os.path.dirname(root) + '/../out/incremental', exist_ok=True)


def check(name, folder):
    """The seconds of `rt check` of a crate in a folder, and the MB of its largest process. What it is over should be proved there."""
    begin = time.time()
    status, said, used = rt('check', name, folder)
    seconds = time.time() - begin
    tool = os.path.basename(sys.argv[0])
    if status:
        sys.exit('%s: %s is not proved\n%s' % (tool, name, said[-2000:]))
    if os.path.isfile('%s/crates/%s/src/lib.rt' % (folder, name)):
        rt('lib', name, folder)     # which the checks of those over it would do in their time
    print('%s: %s %.0f s' % (tool, name, seconds), file=sys.stderr)
    return seconds, used.ru_maxrss / 1024


def rt(verb, name, folder):
    run = subprocess.Popen(['rt', verb], cwd='%s/crates/%s' % (folder, name), stdout=subprocess.PIPE, stderr=subprocess.STDOUT)
    said = run.stdout.read().decode('utf-8', 'replace')
    _, status, used = os.wait4(run.pid, 0)
    return status, said, used
