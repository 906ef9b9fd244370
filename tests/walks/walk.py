"""Prints the proof of a function by a walk of its MIR: a function with no loop, or one with one loop over a state by value.

It follows what each local holds. What a call asks and what the returns cite is told in cited.py, by the names that a walk gives:
    X, ln-X, room-X, g-X    a lent list, its length, its room; what is known of a number X
    rN, eN, isN             the result of the Nth call, what it ensures, its relation;  XN, l-XN    the list X after it, its length
    yesN, noN               the Nth test holds, fails;      s .g, s .X′, s .inv     in a loop: its state, the lists, its invariant
{X} is the list X as it is at that place, {len_X} its length, {ready} the function's `requires`."""
import os
from text import *
from calls import rule_file
import cited

class Walker:
    def __init__(w, path):
        w.path, w.f = path, function(path); w.crate, w.fn, w.h = w.f['crate'], w.f['fn'], w.f['h']
        w.hint = cited.WALKS[path]; w.P, w.res = w.f['params'], w.f['res']
        m = mir(path); w.locs, w.body = items(m[4]), m[5]; w.n = len(w.locs)
        w.T = Types(w.crate)
        for _, t in w.P + [('', w.res)]: w.T.meet(w.crate, t)
        w.sl = [(n, slice_of(t)) for n, t in w.P if slice_of(t)]; w.refs = [(n, t[5:]) for n, t in w.P if t.startswith('&mut ') and not slice_of(t)]
        w.lent = [n for n, t in w.P if t.startswith('&')]
        w.R = {n: w.T.row(s[1]) for n, s in w.sl}; w.X = {n: w.T.denot(s[1]) for n, s in w.sl}
        w.muts = [n for n, s in w.sl if s[0]]
        w.callees = {}                      # path -> (module of its rule, the rules that are used)
        w.cur = {n: n for n, _ in w.sl}; w.len = {n: 'ln-' + n for n, _ in w.sl}
        w.v = {}                            # local -> (type, term, what is known of it)
        w.nth = w.ret = w.close = w.tests = 0; w.run = None; w.ready = 'ready'
    def fill(w, s): return s.format(ready=w.ready, **w.cur, **{'len_' + n: x for n, x in w.len.items()})
    # ---- what a local holds
    def what(w, t, term, g):
        if slice_of(t): return '(tt, (tt, (record { fits = room-%s .0 }, tt)))' % term
        if t in WORDS: return '(tt, record { fits = %s })' % g
        if t == 'f64': return '(float-lawful 𝓤 H A W binary64 .typed %s _ (refl, %s) .0)' % (paren(term), g)
        if t in ('bool', 'unit', 'ptr'): return '(tt, tt)'
        return '(typed-%s %s %s)' % (t, paren(term), paren(g))
    def field(w, value, i):
        t, term, g = value
        if slice_of(t): return ('usize', 's-%s .count' % term, 'room-%s .0' % term)
        fld, ft = w.T.fields(t)[i]; w.T.meet(w.T.home(t), ft)
        o = 'LL.owed %s′.the-type %s″.the-laws %s _ %s' % (t, t, paren(term), paren(g)) + ' .1' * i + ' .0'
        return (ft, '%s .%s' % (term, fld), w.T.fact(ft, o))
    # ---- operands
    def pos(w, k): return w.c.l.index('L%d' % k)
    def opd(w, o, shift):
        if o == 'unit': return '(unit-lit !)', ('unit', 'tt', '')
        if o[0] == 'copy':
            k, st = int(o[1][1]), items(o[1][2])
            if not st: return '(load ! (from ! (stop !)) (look ! %d refl))' % (w.pos(k) + shift), w.v[k]
            if st[0][0] == 'deref': return '(load ! (from ! (hop ! (look ! %d refl) (stop !))) (look-raw ! %d refl))' % (w.pos(k) + shift, w.c.l.index('Crun') + shift), w.run
            value, into, down = w.v[k], '(whole !)', '(stop !)'
            for x in st: value = w.field(value, int(x[1]))
            for x in reversed(st): into = '(sub ! %d refl %s)' % (int(x[1]), into); down = '(fld ! refl %s)' % down
            return '(load ! (from ! %s) (look-in ! %d %s))' % (down, w.pos(k) + shift, into), value
        return '(lit ! tt)', ({'32': 'u32', '64': 'usize'}[o[1]], o[2], 'lit< tt')
    def opds(w, xs, shift):
        r = [w.opd(x, shift) for x in xs]
        s = '(no-more !)'
        for x, _ in reversed(r): s = '(and-then ! %s %s)' % (x, s)
        return s[1:-1], [y for _, y in r]
    def target(w, place, value):
        k, st = int(place[1]), items(place[2])
        if st: w.run = value; return '(from ! (hop ! (look ! %d refl) (stop !))) (store-raw ! %d refl %s)' % (w.pos(k), w.c.l.index('Crun'), w.what(*value))
        verb = 'store' if k in w.v else 'init'
        w.v[k] = value
        return '(from ! (stop !)) (%s ! %d refl %s)' % (verb, w.pos(k), w.what(*value))
    # ---- statements
    def stmt(w, s):
        if s[0] == 'assign':
            rv = s[2]
            if rv[0] == 'rvOpd': o, value = w.opd(rv[1], 0); return 'assigns ! (of-opd ! %s) %s $' % (o, w.target(s[1], value))
            if rv[0] == 'addrOf':
                k = int(rv[1][1]); return 'assigns ! (addr ! (from ! (fld ! refl (hop ! (look-in ! %d (sub ! 0 refl (whole !))) (stop !))))) %s $' % (w.pos(k), w.target(s[1], ('ptr', w.v[k][1], '')))
            if rv[0] == 'aggregate':
                o, vs = w.opds(items(rv[1]), 0); p = vs[0][1]; return 'assigns ! (agg ! (%s)) %s $' % (o, w.target(s[1], (dict(w.P)[p], p, '')))
            if rv[0] == 'op2':
                a, _ = w.opd(rv[2], 0); b, _ = w.opd(rv[3], 0); return 'assigns ! (bin ! %s %s tt) %s $' % (a, b, w.target(s[1], ('bool', '', '')))
        if s[0] == 'call': return w.called(s)
        raise Exception('%s: a statement that this does not know: %s' % (w.path, str(s)[:200]))
    def called(w, s):
        path = s[1][1][1].strip('"'); g = function(path); h, P, xs = g['h'], g['params'], items(s[2])
        for _, t in P + [('', g['res'])]: w.T.meet(g['crate'], t)
        w.nth += 1; i = w.nth
        _, vs = w.opds(xs, 0); pair = list(zip(P, vs))
        sls = [(n, slice_of(t), v[1]) for (n, t), v in pair if slice_of(t)]; k = len(sls)
        asked = w.hint.get('req', {}); req = asked.get('%s#%d' % (g['fn'], i), asked.get(g['fn'], ''))
        if g['req'] and not req: req = '?'
        req = w.fill(req)
        if not sls:
            w.callees.setdefault(path, ('ByValue', w.crate, []))[2].append('calls-' + h)
            o, _ = w.opds(xs, 1)
            a = 'calls-%s ! fm mem run-of known-%s %s %s %s (λ _. %s) (λ r%d e%d is%d.\n' % (h, h, ' '.join(paren(x[1]) for x in vs), ' '.join('tt' if x[0] == 'bool' else paren(x[2]) for x in vs), req, o, i, i, i)
            w.close += 1
            return a + 'land ! %s $' % w.target(s[3], (g['res'], 'r%d' % i, w.T.fact(g['res'], 'is%d' % i)))
        modes = ''.join('m' if s_[0] else 's' if p in w.muts else 'c' for n, s_, p in sls)
        home = cited.HOME.get(path, g['crate'])
        w.callees.setdefault(path, (rule_file(g['fn']), home, []))[2].append('calls-%s-%s' % (h, modes))
        w.c.move([x for _, _, p in sls for x in ('H' + p, 'T' + p)]); pre = w.c.text()
        o, _ = w.opds(xs, 1 + k - 2 * k)
        muts = [p for n, s_, p in sls if s_[0]]
        args = ' '.join('s-%s %s' % (v[1], w.cur[v[1]]) if slice_of(t) else paren(v[1]) for (n, t), v in pair)
        a = (pre + '\n' if pre else '') + 'calls-%s-%s ! fm mem run-of known-%s %s %s %s %s (λ %s. %s)' % (h, modes, h, args, ' '.join(paren(w.len[p]) for p in muts), ' '.join('tt' if v[0] == 'bool' else paren(v[2]) for (n, t), v in pair if not slice_of(t)), req, ' '.join('_' for _ in range(k + 1)), o)
        for p in muts: w.cur[p] = '%s%d' % (p, i); w.len[p] = 'l-%s%d' % (p, i)
        a += ' (λ r%d %s e%d is%d %s.\n' % (i, ' '.join(w.cur[p] for p in muts), i, i, ' '.join(w.len[p] for p in muts)); w.close += 1
        return a + 'land ! %s $' % w.target(s[3], (g['res'], 'r%d' % i if g['res'] != 'unit' else 'tt', w.T.fact(g['res'], 'is%d' % i)))
    def ending(w, within):
        """close the `&mut` of a struct, return, free, and cite `exits`"""
        out = []; c = w.c
        for n, t in w.refs:
            rt, term, g = w.run
            c.move(['Crun']); c.op(w.T.owned(t, paren(term), paren(g)), 0, ['V']); c.move(['Crun', 'V', 'Brun', 'obs', 'auth'])
            c.op('closes ! tt %s %s (val-%s %s ∷ []) (s-%s .block) (s-%s .off)' % (w.T.row(t), paren(term), t, paren(term), n, n), 5, ['obs', 'Hrun', 'Trun'])
        out.append(c.text())
        look = '(look ! %d refl)' % w.pos(0)
        c.say(('returns-within ! Post refl %s $' if within else 'returns ! %s $') % look)
        for k in sorted(w.v, reverse=True): c.say('forget ! %d refl $' % w.pos(k))
        out.append(c.text())
        for k in range(w.n): c.move(['L%d' % k, 'D%d' % k]); c.op('free1 !', 2, [])
        c.say('free0 ! $'); out.append(c.text())
        keep = ' '.join('%d ∷' % c.l.index(x) for x in w.front())
        t, term, g = w.v[0]
        e = w.fill(w.hint['returns'][w.ret] if w.ret < len(w.hint.get('returns', [])) else '?'); w.ret += 1
        refs = ' '.join('%s %s' % (paren(w.run[1]), paren(w.run[2])) for _ in w.refs)
        out.append('keep ! (%s []) $ by ! (exits %s %s %s %s %s %s)' % (keep, paren(term), ' '.join(w.cur[n] for n in w.muts), refs, 'tt' if t in ('bool', 'unit') else paren(g), ' '.join(paren(w.len[n]) for n in w.muts), e))
        return [x for x in out if x]
    def front(w):
        out = []
        for n in w.lent: out += (['obs', 'Hrun', 'Trun'] if n in dict(w.refs) else ['H' + n, 'T' + n])
        return out
    def run_body(w, s, top, within):
        """the lines of a body; top: the number of the statement among those of the function, or None"""
        L = []
        while True:
            if s == 'return' or s[0] == 'return': return L + w.ending(within)
            if s[0] == 'seq' and isinstance(s[1], list) and s[1][0] == 'if':
                o, value = w.opd(s[1][1], 0)
                L.append('first ! $ branches ! %s' % o)
                w.tests += 1; i = w.tests
                keep = (dict(w.v), dict(w.cur), dict(w.len), list(w.c.l), w.close, w.run); w.close = 0
                A = w.run_body(s[1][2], None, True); A[-1] += ')' * w.close
                w.v, w.cur, w.len, w.c.l, w.close, w.run = keep
                L.append('(λ yes%d.' % i); L += A; L[-1] += ')'
                assert s[1][3] == 'skip' or s[1][3][0] == 'skip'
                L.append('(λ no%d. skips ! $ exec ! C Λ (En %s) pieces.t-%d (atRet (En %s) Post) $' % (i, w.ls, top + 1, w.ls)); w.close += 1
                s = s[2]; top += 1; continue
            if s[0] == 'seq': L += w.stmt(s[1]).split('\n'); s = s[2]; top = top + 1 if top else top; continue
            raise Exception('%s: %s' % (w.path, str(s)[:200]))
    # ---- the file
    def binders(w):
        out = []
        for n, t in w.P:
            if slice_of(t): out.append('(s-%s : Seat) (%s : List %s) (ln-%s : length %s ≡ s-%s .count) (room-%s : Room %s (s-%s .count))' % (n, n, w.X[n], n, n, n, n, w.R[n], n))
            elif t.startswith('&mut '): out.append('(s-%s : Seat) (%s : %s)' % (n, n, t[5:]))
            else: out.append('(%s : %s) (g-%s : %s)' % (n, w.T.denot(t), n, w.T.is_(t, n)))
        return '\n    '.join(out)
    def frame(w):
        P, T = w.P, w.T; li = {n: i for i, n in enumerate(w.lent)}
        o = UNIT if w.res == 'unit' else ''
        o += 'abbrev Arg : Type 0\nArg = %s\n\n' % (' × ('.join(['RefT (List %s)' % w.X[n] if slice_of(t) else 'RefT %s' % t[5:] if t[0] == '&' else T.denot(t) for n, t in P] + ['Unit {0}']) + ')' * len(P))
        def stay(n, t):
            if slice_of(t): return 'stay-slice (%d ∷ []) tt (plain (λ _. %s))' % (li[n], w.R[n]) if n in w.muts else 'stay-none-slice (%d ∷ []) tt (plain (λ _. %s)) yes' % (li[n], w.R[n])
            if t[0] == '&': return 'stay-ref (%d ∷ []) tt (plain (λ _. %s))' % (li[n], T.row(t[5:]))
            return 'stay-none (λ _. %s) yes' % T.row(t)
        o += 'abbrev stayed : Stays (f.ended .signature .params) (f.ended .kept)\nstayed = %s\n\n' % tup([stay(n, t) for n, t in P])
        o += 'module _ {M : Type 1} (𝓤 : URA M) (H : Heap 𝓤) (A : Atoms 𝓤) (W : Given 𝓤 H A) (mem : Memory → SProp 𝓤) (run-of : Routine → Fun 𝓤)\n    %s where\n' % w.binders()
        w.ks = tup(['s-%s .life' % n for n in w.lent]); w.qs = tup(['s-%s .share' % n for n in w.lent])
        o += '  abbrev x : Arg\n  x = %s\n\n' % tup(['ref-at s-%s %s' % (n, n) if slice_of(t) else 'record { ptr = (s-%s .block, s-%s .off); name = s-%s .tag; now = %s }' % (n, n, n, n) if t[0] == '&' else n for n, t in P])
        w.words = ['word s-%s' % n if slice_of(t) else 'vptr (s-%s .block) (s-%s .off)' % (n, n) if t[0] == '&' else T.val(t) + ' ' + n for n, t in P]
        o += '  abbrev at : Vals f.signature %s\n  at = %s\n\n' % (w.ks, tup([x + ' ∷ []' for x in w.words]))
        w.all = '((%s, %s, tt, x, at), tt)' % (w.ks, w.qs)
        o += '  abbrev Post : Val → SProp 𝓤\n  Post = walkOf 𝓤 H A f.ended stayed (f.clauses 𝓤 H A mem run-of) .post %s\n\n' % w.all
        o += '@TYPED@'
        hold = []
        for n in w.lent:
            if n in dict(w.refs): hold += ['‵ (fobs (s-%s .tag) (%s .coded .code %s′))' % (n, T.row(dict(w.refs)[n]), n), '‵ (fbor (s-%s .life) (Body (memory-of %s) (s-%s .block) (s-%s .off) (s-%s .tag)))' % (n, T.row(dict(w.refs)[n]), n, n, n), '‵ (Tok s-%s)' % n]
            else: hold += ['‵ (%s %s s-%s %s)' % ('Mut' if n in w.muts else 'Shr', w.R[n], n, n + '′' if n in w.muts else n), '‵ (Tok s-%s)' % n]
        exits = ' '.join(['(%s′ : List %s)' % (n, w.X[n]) for n in w.muts] + ['(%s′ : %s) → Is%s %s′ →' % (n, t, t, n) for n, t in w.refs])
        o += '  exits : (res : %s) %s%s %s%s → %s → ent 𝓤 (⋆ 𝓤 H A (%s ∷ [])) (Post (%s res))\n' % (T.denot(w.res), exits, '' if w.refs else ' →', T.is_(w.res, 'res'), ''.join(' → length %s′ ≡ s-%s .count' % (n, n) for n in w.muts), w.f['ens'], ' ∷ '.join(hold), T.val(w.res))
        c = Ctx(w.front())
        c.op('nothing !', 0, ['J'])
        for n in reversed(w.lent): t = 'Trun' if n in dict(w.refs) else 'T' + n; c.move([t, 'J']); c.op('join !', 2, ['J'])
        c.op('frame !', 1, []); c.op('nothing !', 0, ['P'])
        for n, t in reversed(P):
            if n in dict(w.refs):
                c.move(['obs', 'Hrun']); c.op('feqI ! (List Val) (vptr (s-%s .block) (s-%s .off) ∷ []) (vptr (s-%s .block) (s-%s .off) ∷ []) refl' % (n, n, n, n), 0, ['Q']); c.op('fjoin3 !', 3, ['Hrun']); c.move(['Hrun', 'P']); c.op('fjoin !', 2, ['P'])
            elif slice_of(t): c.move(['H' + n, 'P']); c.op('fjoin !', 2, ['P'])
            else: c.op(T.owned(t, n, 'g-' + n), 0, ['V']); c.op('fjoin !', 2, ['P'])
        c.op('frame !', 1, []); c.op(T.owned(w.res, 'res', 'is'), 0, ['V'])
        ws = tup([n + '′' if n in w.muts or n in dict(w.refs) else 'tt' for n, t in P]); fit = tup(['le-%s ∙ sym ln-%s' % (n, n) if n in w.muts else 'tt' for n, t in P])
        o += '  exits res %s %s is %s e =\n      qed W (%s ∷ []) ∵\n      suffices ! _ (ends-at 𝓤 H A f.ended stayed (f.clauses 𝓤 H A mem run-of) W %s (%s res) res %s %s) $ says ! e $\n      %s done !\n\n' % (' '.join(n + '′' for n in w.muts), ' '.join('%s′ is-%s' % (n, n) for n, _ in w.refs), ' '.join('le-' + n for n in w.muts), ' ∷ '.join(hold), w.all, T.val(w.res), ws, fit, c.text())
        return o
    def sym(w, path): return '#' + '·'.join(hyphen(x) for x in path.split('::'))
    def known(w, C): return ''.join(' (known-%s : Triple 𝓤 (%s %s) (Contract-%s 𝓤 H A mem run-of))' % (function(p)['h'], C, w.sym(p), function(p)['h']) for p in w.callees)
    def prologue(w):
        """up to the first statement: the context is [each slice and its token, in order; the locals]"""
        n, P = w.n, w.P
        c = w.c = Ctx([x for k in reversed(range(n)) for x in ('L%d' % k, 'D%d' % k)] + ['TOKS', 'OWNS'])
        L = [' '.join('alloc1 ! (λ l%d.' % k for k in range(n)) + ' alloc0 ! $ params1 ! $']
        for i, (m, t) in enumerate(P):
            w.v[i + 1] = (t, m, 'g-' + m) if not t.startswith('&mut ') or slice_of(t) else ('ptr', m, '')
            c.say('pass1 ! (init ! %d refl %s) $' % (w.pos(i + 1), w.what(*w.v[i + 1])))
        c.say('pass0 ! $'); L.append(c.text())
        c.move(['OWNS'])
        for m, t in P:
            c.op('fsplit !', 1, ['H' + m, 'OWNS'])
            if t[0] != '&': c.op('drop !', 1, [])
            elif slice_of(t): c.move(['OWNS'])
            else: c.op('fsplit3 !', 1, ['Q', 'obs', 'Hrun']); c.op('drop !', 1, []); c.move(['OWNS'])
        c.op('drop !', 1, []); c.move(['TOKS'])
        for m in w.lent: c.op('split !', 1, ['Trun' if m in dict(w.refs) else 'T' + m, 'TOKS']); c.move(['TOKS'])
        c.op('drop !', 1, [])
        if w.refs:
            m, t = w.refs[0]; r = w.T.row(t)
            c.move(['obs', 'Hrun', 'Trun']); L.append(c.text())
            L.append('opens ! tt %s {h = %s} (s-%s .block) (s-%s .off) (λ vs. spelt ! %s (Is %s) (shows 𝓤 H A %s) (LL.vals %s′.the-type %s″.the-laws) (LL.tells %s′.the-type %s″.the-laws) fullShare %s vs (s-%s .block) (s-%s .off) $ move ! (1 ∷ []) $ peeks ! %s (Is %s) (shows 𝓤 H A %s) %s (val-%s %s ∷ []) (λ g-%s. drop ! $' % (r, m, m, m, r, r, r, t, t, t, t, m, m, m, r, r, r, m, t, m, m))
            c.l[:3] = ['Crun', 'Brun', 'obs', 'auth']; w.close += 2; w.run = (t, m, 'g-' + m)
            c.move([x for s, _ in w.sl for x in ('H' + s, 'T' + s)] + ['Crun', 'Brun', 'obs', 'auth'])
        else: c.move([x for s, _ in w.sl for x in ('H' + s, 'T' + s)])
        L.append(c.text())
        return L
    def start(w):
        ty = ' ∷ '.join('%s (named %d) (s-%s .life) %s' % ('MutSlice' if n in w.muts else 'ShrSlice', w.lent.index(n), n, w.R[n]) if slice_of(t) else 'MutRef (named %d) (s-%s .life) %s' % (w.lent.index(n), n, w.T.row(t[5:])) if t[0] == '&' else w.T.row(t) for n, t in w.P)
        return 'qed W ((%s) ∷ ‵ (owns (%s ∷ []) x at) ∷ []) ∵ enter ! C Λ code.function (%s ∷ []) _ $' % (' ⊛ '.join('‵ (Tok s-%s)' % n for n in w.lent) + ' ⊛ ‵ ftrue', ty, ' ∷ '.join(w.words))
    def walk_type(w): return '%sent 𝓤 (onEntry 𝓤 H A f.signature %s %s x at) (WpFn 𝓤 H C Λ code.function (%s ∷ []) Post)' % (w.f['req'] + ' → ' if w.f['req'] else '', w.ks, w.qs, ' ∷ '.join(w.words))
    def tail(w, looped):
        h, P, T = w.h, w.P, w.T
        kn = [(function(p)['h'], p) for p in w.callees]
        C = '𝓣 .C' if looped else 'C'; CL = '𝓤 H (𝓣 .C) (𝓣 .Λ)' if looped else '𝓤 H C Λ'
        tri = lambda C: ''.join(' → Triple 𝓤 (%s %s) (Contract-%s 𝓤 H A mem run-of)' % (C, w.sym(p), g) for g, p in kn)
        ks = ' '.join('known-' + g for g, _ in kn)
        vl = tup(['slice-vals' if slice_of(t) else 'ptr-vals' if t[0] == '&' else T.vals(t) for n, t in P])
        kp = lambda n: proj('κs', w.lent.index(n)); qp = lambda n: proj('qs', w.lent.index(n))
        tl = tup(['%s-slice-tells (named %d) (%s) %s' % ('mut' if n in w.muts else 'shr', w.lent.index(n), kp(n), w.R[n]) if slice_of(t) else 'mut-tells (named %d) (%s) %s' % (w.lent.index(n), kp(n), T.row(t[5:])) if t[0] == '&' else T.tells(t) for n, t in P])
        args = []; env = {}
        for i, (n, t) in enumerate(P):
            a = proj('a', i); r = proj('are', i)
            if t[0] == '&':
                args.append('(record { life = %s; share = %s; block = %s .ptr .0; off = %s .ptr .1; tag = %s .name; count = %s }) (%s .now)' % (kp(n), qp(n), a, a, a, 'length (%s .now)' % a if slice_of(t) else '0', a)); env[n] = '(%s .now)' % a
                if slice_of(t): args.append('refl (%s .0 .1)' % r)
            else: args.append('(%s) %s' % (a, 'tt' if t == 'bool' else paren(T.fact(t, r)))); env[n] = '(%s)' % a
        req = w.f['req']
        for n in env: req = word(n, '@%s@' % n, req)
        for n in env: req = req.replace('@%s@' % n, env[n])
        o = 'module _ {M : Type 1} (𝓤 : URA M) (H : Heap 𝓤) (A : Atoms 𝓤) (W : Given 𝓤 H A) (mem : Memory → SProp 𝓤) (run-of : Routine → Fun 𝓤) where\n'
        o += '  %s-walks : %s%s → Walks 𝓤 H A f.ended stayed (WpFn %s code.function) (f.clauses 𝓤 H A mem run-of)\n' % (h, '(𝓣 : Tables 𝓤 H)' if looped else '(C : Calls 𝓤 H) (Λ : Loops 𝓤 H) → FmC 𝓤 H (W .laws) C', tri(C), CL)
        o += '  %s-walks %s %s = walked 𝓤 H A f.ended stayed (f.clauses 𝓤 H A mem run-of) (WpFn %s code.function)\n      (λ κs. %s)\n      (λ κs. %s)\n      (λ κs qs bounds a _ are. %s\n      (walk 𝓤 H A W mem run-of\n      %s\n      %s %s))\n\n' % (h, '𝓣' if looped else 'C Λ fm', ks, CL, vl, tl, 'needs 𝓤 (%s) _' % req if req else 'via 𝓤 _ (fst∗ 𝓤 _ (emp 𝓤))', '\n      '.join(args), '𝓣' if looped else 'C Λ fm', ks)
        nl = len(w.lent)
        go = tup(['goes-slice 𝓤 H A W %d %d tt (plain (λ _. %s))' % (nl, w.lent.index(n), w.R[n]) if n in w.muts else 'goes-none-slice 𝓤 H A W %d (%d ∷ []) tt (plain (λ _. %s)) yes' % (nl, w.lent.index(n), w.R[n]) if slice_of(t) else 'goes-ref 𝓤 H A W %d %d tt (plain (λ _. %s))' % (nl, w.lent.index(n), T.row(t[5:])) if t[0] == '&' else 'goes-none 𝓤 H A W %d (λ _. %s) yes (λ κs x f. refl)' % (nl, T.row(t)) for n, t in P])
        o += '%s-meets : {M : Type 1} (𝓤 : URA M) (H : Heap 𝓤) (A : Atoms 𝓤) → Given 𝓤 H A → (mem : Memory → SProp 𝓤) (run-of : Routine → Fun 𝓤) (𝓣 : Tables 𝓤 H)\n   %s\n    → Meets 𝓤 H A f.signature (WpFn 𝓤 H (𝓣 .C) (𝓣 .Λ) code.function) (f.spec 𝓤 H A mem run-of)\n' % (h, tri('𝓣 .C'))
        o += '%s-meets 𝓤 H A W mem run-of 𝓣 %s =\n    walk-meets 𝓤 H A f.ended stayed W %s (f.clauses 𝓤 H A mem run-of)\n    (WpFn 𝓤 H (𝓣 .C) (𝓣 .Λ) code.function) (WpFn-mono 𝓤 H (W .laws) 𝓣 code.function) (%s-walks 𝓤 H A W mem run-of %s %s)\n\n' % (h, ks, go, h, '𝓣' if looped else '(𝓣 .C) (𝓣 .Λ) (fmOf 𝓤 H (W .laws) 𝓣)', ks)
        o += 'pub %s-spec : {M : Type 1} → stated.statement M\nunfolding code.routine tablesOf\n%s-spec 𝓤 H 𝓜 𝓖 𝓡 =\n    entered 𝓤 H (tripleOf 𝓤 H (𝓖 .A) f.signature (f.spec 𝓤 H (𝓖 .A) (𝓜 .mem) (𝓡 .run)))\n    (tables 𝓤 H 𝓜 𝓡 code.env .C) (tables 𝓤 H 𝓜 𝓡 code.env .Λ) %s code.function (code.unfolded 𝓤 H 𝓜 𝓡)\n    (%s-meets 𝓤 H (𝓖 .A) (givenOf 𝓤 H 𝓜 𝓖) (𝓜 .mem) (𝓡 .run) (tablesOf 𝓤 H 𝓜 (tables 𝓤 H 𝓜 𝓡 code.env))\n' % (h, h, w.sym(w.path), h)
        o += '\n'.join('    (cited 𝓤 H (Contract-%s 𝓤 H (𝓖 .A) (𝓜 .mem) (𝓡 .run)) 𝓜 𝓡 code.env %s %s-def.routine code.calls-%s (%s-thm.met 𝓤 H 𝓜 𝓖 𝓡))' % (g, w.sym(p), g, w.sym(p)[1:], g) for g, p in kn) + ')\n'
        return o
    def env(w):
        w.ls = ' '.join('l%d' % k for k in range(w.n))
        return '    abbrev τ : ℕ → Ty\n    τ k = type-of k pieces.locals\n\n', ' ∷ '.join('(τ %d, l%d)' % (k, k) for k in range(w.n)) + ' ∷ []'
    def straight(w):
        o = w.frame()
        tau, en = w.env()
        L = w.prologue() + w.run_body(w.body, 1, False); L[-1] += ')' * (w.close + w.n)
        o += '  module _ (C : Calls 𝓤 H) (Λ : Loops 𝓤 H) (fm : FmC 𝓤 H (W .laws) C)%s where\n' % w.known('C')
        if ' En ' in '\n'.join(L) or '(En ' in '\n'.join(L): o += tau + '    abbrev En : (%s : ℕ) → Env 𝓤 H\n    En %s = %s\n\n' % (w.ls, w.ls, en)
        o += '    walk : %s\n    walk %s=\n        %s\n' % (w.walk_type(), 'ready ' if w.f['req'] else '', w.start())
        return o + '\n'.join('        ' + x for x in L) + '\n\n' + w.tail(False)
    def looped(w):
        hint = w.hint; o = w.frame(); tau, en = w.env()
        # up to the loop
        begin = w.prologue(); s = w.body; top = 1
        while s[1][0] != 'block': begin += w.stmt(s[1]).split('\n'); s = s[2]; top += 1
        turn, rest = s[1][1][1], s[2]
        last = turn[2][2]
        while last[0] == 'seq': last = last[2]
        k = int(last[1][1]); ty, term, known = w.v[k]
        begin.append(' '.join('forget ! %d refl $' % w.pos(i) for i in sorted(w.v, reverse=True) if i > len(w.P) and i != k))
        wrote = {i: w.v[i] for i in w.v if i <= len(w.P) or i == k}; wrote[k] = (ty, 's .g', w.T.fact(ty, 's .is'))
        w.c.move([x for n, _ in w.sl for x in ('H' + n, 'T' + n)]); begin.append(w.c.text())
        state = lambda g_, is_, lists, lens, inv: 'record { g = %s; %sis = %s; %s%sinv = %s }' % (g_, ''.join('%s′ = %s; ' % (n, lists[n]) for n in w.muts), is_, ''.join('l-%s = %s; ' % (n, lens[n]) for n in w.muts), 'ready = %s; ' % w.ready if w.f['req'] else '', inv)
        begin.append('keep ! (%s []) $ by ! (loop-from %s (%s))' % (' '.join('%d ∷' % i for i in range(len(w.sl) * 2 + w.n * 2)), w.ls, state(term, known, w.cur, w.len, w.fill(hint['start']))) + ')' * (w.close + w.n))
        # a turn
        Inv = hint['inv']
        o += '  -- what the loop\'s variable and the lists hold, and what is known of it\n  pub record State : Type 0 where\n    pub g : %s\n%s    pub is : Is%s g\n%s%s    pub inv : %s\n\n' % (ty, ''.join('    pub %s′ : List %s\n' % (n, w.X[n]) for n in w.muts), ty, ''.join('    pub l-%s : length %s′ ≡ s-%s .count\n' % (n, n, n) for n in w.muts), '    pub ready : %s\n' % w.f['req'] if w.f['req'] else '', Inv.format(g='g', **{n: n + '′' if n in w.muts else n for n, _ in w.sl}))
        cur = {n: '(s .%s′)' % n if n in w.muts else n for n, _ in w.sl}
        o += '  abbrev left : State → ℕ\n  left s = %s\n\n  abbrev Nearer : State → State → Type 0\n  Nearer t s = left t < left s\n\n  Nearer-wf : WellFounded Nearer\n  Nearer-wf = InvImage·wf left (Nat·lt-wfRel .wf)\n\n' % hint['measure'].format(g='(s .g)', **cur)
        w.c = Ctx([x for n, _ in w.sl for x in ('H' + n, 'T' + n)] + [x for i in reversed(range(w.n)) for x in ('L%d' % i, 'D%d' % i)])
        w.ready = '(s .ready)'; w.v = dict(wrote); w.cur = dict(cur); w.len = {n: '(s .l-%s)' % n if n in w.muts else 'ln-' + n for n, _ in w.sl}; w.close = 0; w.nth = 0
        L = w.stmt(turn[1]).split('\n'); test = turn[2]
        L.append('first ! $ branches ! %s' % w.opd(test[1][1], 0)[0])
        keep = (dict(w.v), dict(w.cur), dict(w.len), list(w.c.l), w.close); w.close = 0
        A = ['(λ yes1. skips ! $ exec ! C Λ En (bodyAfter (bodyAfter pieces.turn-1)) (anyQ (Turned s)) $']
        b = test[2]
        while b[0] == 'seq': A += w.stmt(b[1]).split('\n'); b = b[2]
        A.append(w.stmt(b).replace('assigns !', 'assigns-last !'))
        A.append(' '.join('forget ! %d refl $' % w.pos(i) for i in sorted(w.v, reverse=True) if i not in wrote))
        w.c.move([x for n, _ in w.sl for x in ('H' + n, 'T' + n)]); A.append(w.c.text())
        _, t_, known = w.v[k]
        A.append('again ! Nearer At s (%s) (%s)' % (state(t_, known, w.cur, w.len, w.fill(hint['next'])), w.fill(hint['nearer'])) + ')' * (w.close + 1))
        A = [x for x in A if x]
        w.v, w.cur, w.len, w.c.l, w.close = keep; before = w.close; w.close = 0
        B = ['(λ no1. jumps ! $ exec ! C Λ En pieces.t-%d (atRet En Post) $' % (top + 1)]
        B += w.run_body(rest, top + 1, False); B[-1] += ')' * (w.close + 1 + before)
        o += '  module _ (𝓣 : Tables 𝓤 H)%s where\n    abbrev C : Calls 𝓤 H\n    C = 𝓣 .C\n\n    abbrev Λ : Loops 𝓤 H\n    Λ = 𝓣 .Λ\n\n    abbrev fm : FmC 𝓤 H (W .laws) C\n    fm = fmOf 𝓤 H (W .laws) 𝓣\n\n' % w.known('𝓣 .C')
        o += tau + '    module _ (%s : ℕ) where\n      abbrev En : Env 𝓤 H\n      En = %s\n\n' % (w.ls, en)
        hold = ' ∷ '.join('‵ (%s %s s-%s %s) ∷ ‵ (Tok s-%s)' % ('Mut' if n in w.muts else 'Shr', w.R[n], n, cur[n], n) for n, _ in w.sl)
        def vv(i):
            t, term, _ = wrote[i]
            return 'word s-%s' % term if slice_of(t) else '%s %s' % (w.T.val(t), paren(term))
        locs = ' ∷ '.join('‵ (%s) ∷ ‵ (fdies (τ %d) l%d)' % ('fat fullShare (τ %d) l%d 0 (%s)' % (i, i, vv(i)) if i in wrote else 'froom (τ %d) l%d 0' % (i, i), i, i) for i in reversed(range(w.n)))
        o += '      abbrev At : State → List (Item 𝓤)\n      At s = %s\n          ∷ %s ∷ []\n\n' % (hold, locs)
        o += '      abbrev Turned : State → Out → SProp 𝓤\n      Turned s = afterTurn 𝓤 H (Below 𝓤 H A Nearer At s) (afterBlock 𝓤 H (afterSeq 𝓤 H (Wp 𝓤 H C Λ En pieces.t-%d (atReturn 𝓤 H En Post)) (atReturn 𝓤 H En Post)))\n\n' % (top + 1)
        o += '      turns : (s : State) → Sq W (At s) (runs C Λ En pieces.turn-1 (anyQ (Turned s)))\n      unfolding afterTurn\n      turns s =\n' + '\n'.join('          ' + x for x in L + A + B) + '\n\n'
        o += '      loop-from : (s : State) → ent 𝓤 (⋆ 𝓤 H A (At s)) (Wp 𝓤 H C Λ En pieces.t-%d (atReturn 𝓤 H En Post))\n      loop-from s = qed W (At s) ∵ exec ! C Λ En pieces.t-%d (atRet En Post) $ first ! $ blocks ! $ loops ! 𝓣 Nearer Nearer-wf At turns s\n\n' % (top, top)
        o += '    walk : %s\n    walk %s=\n        %s\n%s\n\n' % (w.walk_type(), 'ready ' if w.f['req'] else '', w.start(), '\n'.join('        ' + x for x in begin if x))
        return o + w.tail(True)
    def text(w):
        def has_loop(s): return isinstance(s, list) and (s[:1] == ['loop'] or any(has_loop(x) for x in s))
        loop = has_loop(w.body)
        o = w.looped() if loop else w.straight()
        typed = ''
        for s in sorted(w.T.known):
            if re.search(r'\btyped-%s\b' % s, o):
                typed += '  typed-%s : (v : %s) → Is%s v → T (hasTy %s″.mir (val-%s v)) × WT (val-%s v)\n  typed-%s v g = ' % ((s,) * 7)
                typed += ('%s″.the-field-laws .lawful 𝓤 H A W .typed (%s′.the-type .to v) _ g .0\n\n' if w.T.kind(s) == 'enum' else 'LL.lawful %s′.the-type %s″.the-laws 𝓤 H A W .typed v _ g .0\n\n') % (s, s)
        o = o.replace('@TYPED@', typed)
        own = module(w.crate, 'proofs', '.'.join(w.f['mods'] + [w.fn]), w.crate)
        said = tokens(' '.join([w.f['req'], w.f['ens']] + [str(x) for x in w.hint.values()]))
        more = {n: (placed(m, w.crate), s) for n, (m, s) in w.f['ghost'].items() if occurs(n, said)}
        for line in w.hint.get('uses', []):
            m, names = re.match(r'(.*)\.\{(.*)\}$', line).groups()
            if not m.startswith('Rattle·') and m[0].isupper(): m = module(w.crate, 'proofs', m, w.crate)
            for n in names.split(','): more[n.strip().split(' as ')[-1]] = (m, n.strip())
        head = '-- `%s` meets its contract: a walk of its MIR%s. Printed (tests/walks).\n-- Assumes nothing.\n' % (w.path, ', with a loop' if loop else '')
        uses = library_uses(o, more) + w.T.uses(o)
        for p, (m, home, rules) in w.callees.items():
            g = function(p); at = module(g['crate'], 'proofs', '.'.join(g['mods'] + [g['fn']]), w.crate)
            uses += 'use %s.{Contract-%s, %s}\nuse %s.Symbol as %s-def\nuse %s.Symbol.{name as %s}\nuse %s.Met as %s-thm\n' % (module(home, 'proofs', m, w.crate), g['h'], ', '.join(sorted(set(rules))), at, g['h'], at, w.sym(p), at, g['h'])
        uses += 'use %s.Key.{name as %s}\nuse %s as f\nuse %s.Statement as stated\nuse %s.Code as code\n' % (own, w.sym(w.path), own, own, own) + ('use %s.Code.Mir as pieces\n' % own if 'pieces.' in o else '')
        return head + uses + '\n' + o

def print_walk(path):
    w = Walker(path); o = w.text()
    d = 'crates/%s/proofs/%s' % (w.crate, '/'.join(w.f['mods'] + [w.fn]))
    os.makedirs(d, exist_ok=True)
    open(d + '/Proof.antt', 'w').write(o)
    print(d, o.count('\n'), 'lines,', w.n, 'locals; calls', ', '.join('%s (%s)' % (p, ' '.join(sorted(set(x[2])))) for p, x in w.callees.items()))
