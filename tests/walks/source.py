"""What the proofs need of a function: parameters, result and clauses, read from the crates' sources, and its body, read from the MIR.

A function is named as the compiler names it: crate::module::name. A clause speaks of a lent thing X as X (at entry) and X′ (at exit), and of the result as `res`."""
import functools, glob, re, subprocess

WORDS = {'usize': 'w64', 'u64': 'w64', 'u32': 'w32', 'u8': 'w8'}
# names that the printed text uses itself: a parameter of such a name gets a ₀
TAKEN = set('t fm mem run met os k res out ws e is l W H A M K E C Λ xs q d rest P u x at f code pieces stated T Post exits walk τ En s a are v g state b'.split())

def slice_of(t):
    m = re.match(r'&(mut )?\[(\w+)\]$', t)
    return (bool(m.group(1)), m.group(2)) if m else None
def hyphen(name): return name.replace('_', '-')
def camel(name): return ''.join(x.capitalize() for x in name.split('_'))
def split(path): parts = path.split('::'); return parts[0], parts[1:-1], parts[-1]

@functools.lru_cache(None)
def texts(crate): return {p: open(p).read() for p in sorted(glob.glob('crates/%s/src/**/*.rt' % crate, recursive=True))}
def file_of(crate, mods):
    base = 'crates/%s/src/' % crate
    return base + ('/'.join(mods) if mods else 'lib') + '.rt'

@functools.lru_cache(None)
def type_of(crate, name):
    """the crate in which a type of that name, as the sources of `crate` use it, is declared; with its kind and its fields"""
    for text in texts(crate).values():
        m = re.search(r'^pub (struct|enum) %s \{\n(.*?)^\}' % name, text, re.M | re.S)
        if m: return crate, m.group(1), re.findall(r'^    pub (\w+): (.+),$', m.group(2), re.M)
    for text in texts(crate).values():
        m = re.search(r'^(?:pub )?use (\w+)::(?:\w+::)*%s;' % name, text, re.M)
        if m and m.group(1) not in ('crate', crate): return type_of(m.group(1), name)
    raise Exception('no type %s in %s' % (name, crate))

def closing(text, i):
    """the place of the bracket that closes the one at i"""
    n = 0
    while True:
        if text[i] in '([{': n += 1
        if text[i] in ')]}': n -= 1
        if n == 0: return i
        i += 1

def renamed(n): return n + '₀' if n in TAKEN else n
def word(n, to, text): return re.sub(r"(?<![\w′₀·.-])(?<! \.)%s(?![\w′₀·-])" % n, to, text)

@functools.lru_cache(None)
def function(path):
    crate, mods, fn = split(path)
    text = texts(crate)[file_of(crate, mods)]
    m = re.search(r'^(?:pub(?:\(crate\))? )?(?:extern "C" )?fn %s\(' % fn, text, re.M)
    if not m: raise Exception('no function ' + path)
    i = m.end() - 1; j = closing(text, i)
    own = [p.strip().split(': ', 1) for p in re.split(r',(?![^\[]*\])', text[i + 1:j]) if p.strip()]
    end = re.search(r'^\{', text[j:], re.M).start() + j
    head = text[j + 1:end]
    r = re.match(r'\s*-> ([^\n{]+)', head)
    def clauses(word):
        out = []
        for m in re.finditer(r'^    %s \{ (?:λ (\w+)\. )?⌜\s(.*?)\s⌝ \}$' % word, head, re.M | re.S):
            s = ' '.join(m.group(2).split())
            if m.group(1) and m.group(1) != '_': s = globals()['word'](m.group(1), 'res', s)
            for n, _ in own:
                s = s.replace('now (%s .exit)' % n, renamed(n) + '′').replace('now (%s .entry)' % n, n)
                s = re.sub(r'now %s(?!\w)' % n, n, s)
                if renamed(n) != n: s = globals()['word'](n, renamed(n), s)
            s = re.sub(r'\((\w+[′₀]*)\)', r'\1', s)
            out.append(s)
        return out
    req, ens = clauses('requires'), clauses('ensures')
    both = lambda xs: xs[0] if len(xs) == 1 else ' × '.join('(%s)' % x for x in xs)
    ghost = {}
    for mod, names in re.findall(r'^ghost use ([^;{]+)\.\{([^}]*)\};', text, re.M):
        for n in names.split(','): ghost[n.strip().split(' as ')[-1]] = (mod, n.strip())
    return dict(path=path, crate=crate, mods=mods, fn=fn, h=hyphen(fn), params=[(renamed(n), t) for n, t in own], res=r.group(1).strip() if r else 'unit', req=both(req) if req else '', ens=both(ens), ghost=ghost)

@functools.lru_cache(None)
def mir_text(crate): return subprocess.run(['rt', 'mir', crate], capture_output=True, text=True).stdout
def mir(path):
    toks = re.findall(r'\(|\)|"[^"]*"|[^\s()]+', mir_text(split(path)[0]))
    def parse(i):
        if toks[i] == '(':
            out, i = [], i + 1
            while toks[i] != ')': x, i = parse(i); out.append(x)
            return out, i + 1
        return toks[i], i + 1
    for i in range(len(toks) - 2):
        if toks[i] == '(' and toks[i + 1] == 'fn-def' and toks[i + 2] == '"%s"' % path: return parse(i)[0][2]
    raise Exception('no MIR of ' + path)
def items(x):
    out = []
    while isinstance(x, list) and x and x[0] in ('lcons', 'tcons'): out.append(x[1]); x = x[2]
    return out
