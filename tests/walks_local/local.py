#!/usr/bin/env python3
"""Prints walks of functions that lend locals of their own (README.md here). Run it in the repository's folder. It extends tests/walks."""
import os, re, sys
HERE = os.path.dirname(os.path.abspath(__file__))
sys.path[:0] = [HERE, os.path.join(os.path.dirname(HERE), 'walks')]
import text, calls, walk, cited
from text import *
import cited_local
cited.WALKS.update(cited_local.WALKS); cited.HOME.update(cited_local.HOME)

text.LIBRARY += '''
lib.ListN: take drop=drop-list
mathlib.Core.List: _++_
base.Fml: fres
denote.Array: Array array-vals array-tells array-makes array-lawful
denote.Plain: uint-lawful
Rattle·lent.proofs.One: One one-at lend-one back-one
Rattle·lent.proofs.Local: array-val local-at lend-whole back-whole lend-front back-front lend-whole-shr back-whole-shr lend-front-shr back-front-shr lend-struct back-struct'''

# ---- arrays by value
def array_of(t):
    m = re.match(r'\[(\w+); (\d+)\]$', t)
    return (m.group(1), m.group(2)) if m else None
def ref_of(t): return t[5:] if t.startswith('&mut ') and not slice_of(t) else None

class Arrays(Types):
    def makes(self, t): return '(uint-makes 𝓤 H A W %s)' % WORDS[t] if t in WORDS else '(float-makes 𝓤 H A W binary64)' if t == 'f64' else '((%s.makes %s′.the-type %s″.the-plain) 𝓤 H A)' % (self.laws(t), t, t)
    def lawful(self, t): return '(uint-lawful 𝓤 H A W %s)' % WORDS[t] if t in WORDS else '(float-lawful 𝓤 H A W binary64)' if t == 'f64' else '(LL.lawful %s′.the-type %s″.the-laws 𝓤 H A W)' % (t, t)
    def meet(self, crate, t):
        a = array_of(t); super().meet(crate, a[0] if a else t)
    def denot(self, t):
        a = array_of(t); return 'List ' + self.denot(a[0]) if a else super().denot(t)
    def val(self, t):
        a = array_of(t); return 'array-val (%s)' % self.vals(a[0]) if a else super().val(t)
    def row(self, t):
        a = array_of(t); return '(Array %s %s)' % (self.row(a[0]), a[1]) if a else super().row(t)
    def is_(self, t, x):
        a = array_of(t); return 'Is %s %s (array-vals (%s) %s)' % (self.row(t), x, self.vals(a[0]), x) if a else super().is_(t, x)
    def owned(self, t, x, g):
        a = array_of(t); return 'owned ! %s (Is %s) (array-makes 𝓤 H A W %s %s %s) %s _ %s' % (self.row(t), self.row(t), self.row(a[0]), self.makes(a[0]), a[1], x, g) if a else super().owned(t, x, g)
    def tells(self, t):
        a = array_of(t); return 'array-tells %s (%s) (%s) %s' % (self.row(a[0]), self.vals(a[0]), self.tells(a[0]), a[1]) if a else super().tells(t)
    def vals(self, t):
        a = array_of(t); return 'array-vals (%s)' % self.vals(a[0]) if a else super().vals(t)
text.Types = calls.Types = walk.Types = Arrays

# ---- the walk
class Walker(walk.Walker):
    """A local array or struct is lent just before the call that it goes to, and is back just after: its cell gives way to [what is lent; its token; what is kept].
    The list that is lent of local k is called ownK, and after the Nth call ownKN; count-ownK: the length of the part; is-ownKN, le-ownKN: what its way back gives"""
    def what(w, t, term, g):
        a = array_of(t)
        if a: return '(array-lawful 𝓤 H A W %s %s %s .typed %s _ %s .0)' % (w.T.row(a[0]), w.T.lawful(a[0]), a[1], paren(term), paren(g))
        if t == 'local slice': return '(tt, (tt, (record { fits = %s }, tt)))' % g
        if t == 'local': return '(tt, tt)'
        return super().what(t, term, g)
    def stmt(w, s):
        if s[0] == 'assign' and s[2][0] == 'addrOf' and not items(s[2][1][2]): return 'assigns ! (addr ! (from ! (stop !))) %s $' % w.target(s[1], ('local', int(s[2][1][1]), ''))
        if s[0] == 'assign' and s[2][0] == 'aggregate':
            o, vs = w.opds(items(s[2][1]), 0)
            if vs[0][0] == 'local': return 'assigns ! (agg ! (%s)) %s $' % (o, w.target(s[1], ('local slice', (vs[0][1], vs[1][1]), vs[1][2])))
        return super().stmt(s)
    def lend(w, k, t, of):
        """local k goes into a parameter of type t; `of`: the local and, for a slice, the count"""
        l = of if isinstance(of, int) else of[0]; own = 'own%d' % l; ty, xs, g = w.v[l]; T = w.T
        w.c.move(['L%d' % l]); out = [w.c.text()] if w.c.out else []
        if ref_of(t):
            R = T.row(ty); seat = '(local-at l%d 1 ν-%s δ-%s)' % (l, own, own)
            out.append('lend-struct ! tt %s tt %s %s l%d %s %s (λ ν-%s δ-%s.' % (R, paren(T.val(ty)), T.makes(ty), l, paren(xs), paren(g), own, own))
            back = lambda ys, i: ('back-struct ! tt %s tt %s (%s) l%d ν-%s δ-%s %s (λ is-%s%d.' % (R, paren(T.val(ty)), T.tells(ty), l, own, own, paren(ys), own, i), (ty, ys, 'is-%s%d' % (own, i)))
            w.cur[own] = paren(xs)
        else:
            e, n = array_of(ty); R = T.row(e); mut = slice_of(t)[0]; count = of[1]; vals, tells = '(%s)' % T.vals(e), '(%s)' % T.tells(e); ln = '(%s .1 .0 .1)' % paren(g)
            seat = '(local-at l%d %s ν-%s δ-%s)' % (l, paren(count), own, own); shr = '' if mut else '-shr'
            if count == n:
                out.append('lend-whole%s ! tt %s tt %s %s %s l%d %s %s (lit< tt, lit< tt) (λ ν-%s δ-%s.' % (shr, R, vals, T.makes(e), n, l, paren(xs), paren(g), own, own))
                w.cur[own], w.len[own] = paren(xs), ln
                back = lambda ys, i: ('back-whole ! tt %s %s %s %s l%d ν-%s δ-%s %s %s %s (λ is-%s%d.' % (R, vals, tells, n, l, own, own, paren(xs), paren(ys), ln, own, i), (ty, ys, 'is-%s%d' % (own, i)))
                if not mut: back = lambda ys, i: ('back-whole-shr ! tt %s %s %s %s l%d ν-%s δ-%s %s %s $' % (R, vals, tells, n, l, own, own, paren(xs), ln), (ty, xs, g))
            else:
                le = w.fill(w.hint['within'])
                out.append('lend-front%s ! tt %s tt %s %s %s l%d %s %s %s (lit< tt, lit< tt) %s (λ ν-%s δ-%s count-%s.' % (shr, R, vals, T.makes(e), n, l, paren(count), paren(xs), paren(g), le, own, own, own))
                w.cur[own], w.len[own] = '(take %s %s)' % (paren(count), paren(xs)), 'count-' + own
                rest = '%s ++ drop-list %s %s' % ('%s', paren(count), paren(xs))
                back = lambda ys, i: ('back-front ! tt %s %s %s %s l%d %s ν-%s δ-%s %s %s %s (λ le-%s%d is-%s%d.' % (R, vals, tells, n, l, paren(count), own, own, paren(xs), paren(ys), ln, own, i, own, i), (ty, rest % paren(ys), 'is-%s%d' % (own, i)))
                if not mut: back = lambda ys, i: ('back-front-shr ! tt %s %s %s %s l%d %s ν-%s δ-%s %s %s $' % (R, vals, tells, n, l, paren(count), own, own, paren(xs), ln), (ty, xs, g))
            if mut: w.muts.append(own)
        if out[-1].endswith('.'): w.close += 1
        w.c.l[:1] = ['H' + own, 'T' + own, 'K' + own]; w.v[k] = (t, own, '')
        return out, (l, own, seat, back, ref_of(t) or slice_of(t)[0])
    def called(w, s):
        path = s[1][1][1].strip('"'); g = function(path); h, P, xs = g['h'], g['params'], items(s[2])
        temp = lambda x: int(x[1][1]) if x[0] == 'copy' and not items(x[1][2]) else None
        mine = [(temp(x), t, w.v[temp(x)][1]) for (_, t), x in zip(P, xs) if temp(x) in w.v and w.v[temp(x)][0] in ('local', 'local slice')]
        if not mine: return super().called(s)
        for _, t in P + [('', g['res'])]: w.T.meet(g['crate'], t)
        out, lent = [], []
        for k, t, of in mine: a, b = w.lend(k, t, of); out += a; lent.append(b)
        if not any(ref_of(t) for _, t in P): a = super().called(s); i = w.nth
        else:
            w.nth += 1; i = w.nth
            _, vs = w.opds(xs, 0); pair = list(zip(P, vs))
            ls = [(n, t, v[1]) for (n, t), v in pair if t[0] == '&']; k = len(ls)
            modes = ''.join('r' if ref_of(t) else 'm' if slice_of(t)[0] else 's' if p in w.muts else 'c' for _, t, p in ls)
            asked = w.hint.get('req', {}); req = w.fill(asked.get('%s#%d' % (g['fn'], i), asked.get(g['fn'], '?' if g['req'] else '')))
            home = cited.HOME.get(path, g['crate'])
            w.callees.setdefault(path, (walk.rule_file(g['fn']), home, []))[2].append('calls-%s-%s' % (h, modes))
            w.c.move([x for _, _, p in ls for x in ('H' + p, 'T' + p)]); pre = w.c.text()
            o, _ = w.opds(xs, 1 + k - 2 * k)
            kept = [p for _, t, p in ls if t.startswith('&mut ')]; lens = [p for _, t, p in ls if slice_of(t) and slice_of(t)[0]]
            args = ' '.join('s-%s %s' % (v[1], w.cur[v[1]]) if t[0] == '&' else paren(v[1]) for (_, t), v in pair)
            a = (pre + '\n' if pre else '') + 'calls-%s-%s ! fm mem run-of known-%s %s %s %s %s (λ %s. %s)' % (h, modes, h, args, ' '.join(paren(w.len[p]) for p in lens), ' '.join('tt' if v[0] == 'bool' else paren(v[2]) for (_, t), v in pair if t[0] != '&'), req, ' '.join('_' for _ in range(k + 1)), o)
            for p in kept: w.cur[p] = '%s%d' % (p, i)
            for p in lens: w.len[p] = 'l-%s%d' % (p, i)
            a += ' (λ r%d %s e%d is%d %s.\n' % (i, ' '.join(w.cur[p] for p in kept), i, i, ' '.join(w.len[p] for p in lens)); w.close += 1
            a += 'land ! %s $' % w.target(s[3], (g['res'], 'r%d' % i if g['res'] != 'unit' else 'tt', w.T.fact(g['res'], 'is%d' % i)))
        for l, own, seat, back, mut in lent:
            a = re.sub(r'(?<![\w-])s-%s(?![\w-])' % own, seat, a)
            w.c.move(['H' + own, 'T' + own, 'K' + own])
            step, value = back(w.cur[own], i)
            a += '\n' + (w.c.text() + ' ' if w.c.out else '') + step; w.close += step.endswith('.')
            w.c.l[:3] = ['L%d' % l]; w.v[l] = value
            if own in w.muts: w.muts.remove(own)
        return '\n'.join([x for x in out if x] + [a])
    def text(w): return super().text().replace('( ⊛ ‵ ftrue)', '‵ ftrue').replace('(⋆ 𝓤 H A ( ∷ []))', '(⋆ 𝓤 H A [])').replace('qed W ( ∷ []) ∵', 'qed W [] ∵').replace('Printed (tests/walks)', 'Printed (tests/walks_local)')
walk.Walker = Walker

def main(a):
    if a[0] == 'values': text.values(a[1], a[2:])
    elif a[0] == 'calls':
        import calls_local
        calls_local.print_rules(a[1], a[2].split(','), a[3] if len(a) > 3 else a[1].split('::')[0])
    elif a[0] == 'byvalue': calls.by_value(a[1], a[2:])
    elif a[0] == 'walk':
        for f in a[1:]: walk.print_walk(f)
if __name__ == '__main__': main(sys.argv[1:])
