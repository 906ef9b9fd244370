"""Prints call rules as tests/walks/calls.py does, of a function to which a `&mut` of a struct may be lent too (mode r: lent again)."""
from text import *
from calls import rule_file

def ref_of(t): return t[5:] if t.startswith('&mut ') and not slice_of(t) else None

def rule(path, modes_list, here):
    import text
    f = function(path); P, res, h, crate = f['params'], f['res'], f['h'], f['crate']
    T = text.Types(here)
    for _, t in P + [('', res)]: T.meet(crate, t)
    lent = [(n, t) for n, t in P if t[0] == '&']; k = len(lent)
    R = {n: T.row(ref_of(t) or slice_of(t)[1]) for n, t in lent}; X = {n: T.denot(ref_of(t)) if ref_of(t) else 'List ' + T.denot(slice_of(t)[1]) for n, t in lent}
    kept = [n for n, t in lent if t.startswith('&mut ')]; lists = [n for n, t in lent if slice_of(t) and slice_of(t)[0]]; refs = [n for n, t in lent if ref_of(t)]
    B = ' '.join('(s-%s : Seat) (%s : %s)' % (n, n, X[n]) if n in X else '(%s : %s)' % (n, T.denot(t)) for n, t in P)
    N = ' '.join('s-%s %s' % (n, n) if n in X else n for n, t in P)
    K = ' → '.join('Seat → %s' % X[n] if n in X else T.denot(t) for n, t in P)
    hyps = [('g-' + n, T.is_(t, n)) for n, t in P if n not in X] + ([('l', f['req'])] if f['req'] else [])
    at_ = lambda n, s: '%s %s %s' % ('one-at' if n in refs else 'ref-at', s, n)
    word_ = lambda n, s: 'vptr (%s .block) (%s .off)' % (s, s) if n in refs else 'word ' + s
    own_ = lambda n, s, x: '%s %s %s %s' % ('One' if n in refs else 'Mut' if n in lists else 'Shr', R[n], s, x)
    plain = ' '.join(n for n, t in P)
    ks = tup(['s-%s .life' % n for n, _ in lent]); qs = tup(['s-%s .share' % n for n, _ in lent])
    args = tup([at_(n, 's-' + n) if n in X else n for n, t in P])
    words = [word_(n, 's-' + n) if n in X else T.val(t) + ' ' + n for n, t in P]
    exits = ' '.join('(%s′ : %s)' % (n, X[n]) for n in kept)
    name, sym = 'Contract-' + h, '#' + '·'.join([hyphen(x) for x in path.split('::')])
    o = UNIT if res == 'unit' else ''
    o += '-- what the callee ensures of its result and of what was lent, at exit\nabbrev pub Ensured-%s : %s → %s → %sType 0\nEnsured-%s %s res %s = %s\n\n' % (h, ' → '.join(X.get(n) or T.denot(t) for n, t in P), T.denot(res), ''.join('%s → ' % X[n] for n in kept), h, plain, ' '.join(n + '′' for n in kept), f['ens'])
    o += 'module _ {M : Type 1} (𝓤 : URA M) (H : Heap 𝓤) (A : Atoms 𝓤) (mem : Memory → SProp 𝓤) (run : Routine → Fun 𝓤) where\n'
    o += '  abbrev pub %s : Contract 𝓤\n  %s = tripleOf 𝓤 H A callee.signature (callee.spec 𝓤 H A mem run)\n\n' % (name, name)
    o += '  abbrev to : %s → %s .Ghost\n  to %s = ((%s, %s, tt, %s, %s), tt)\n\n' % (K, name, N, ks, qs, args, tup([x + ' ∷ []' for x in words]))
    toks = ['‵ (Tok s-%s)' % n for n, _ in lent]; owns = ['‵ (%s)' % own_(n, 's-' + n, n) for n, _ in lent]
    c = Ctx(['T' + n for n, _ in lent] + ['O' + n for n, _ in lent])
    if f['req']: c.say('says ! l $')
    c.op('nothing !', 0, ['J'])
    for n, _ in reversed(lent): c.move(['T' + n, 'J']); c.op('join !', 2, ['J'])
    if f['req']: c.op('frame !', 1, [])
    c.op('nothing !', 0, ['P'])
    for n, t in reversed(P):
        if n in X: c.move(['O' + n, 'P']); c.op('fjoin !', 2, ['P'])
        else: c.op(T.owned(t, n, 'g-' + n), 0, ['V']); c.op('fjoin !', 2, ['P'])
    if not f['req']: c.move(['J', 'P']); c.op('join !', 2, ['J']); c.op('frame !', 1, []); c.op('nothing !', 0, ['E'])
    o += '  goes : Given 𝓤 H A → %s → %sent 𝓤 (⋆ 𝓤 H A (%s ∷ [])) (%s .pre (to %s))\n' % (B, ''.join(x[1] + ' → ' for x in hyps), ' ∷ '.join(toks + owns), name, N)
    o += '  goes W %s %s = qed W (%s ∷ []) ∵ %s done !\n\n' % (N, ' '.join(x[0] for x in hyps), ' ∷ '.join(toks + owns), c.text())
    o += 'module _ {M : Type 1} {𝓤 : URA M} {H : Heap 𝓤} {A : Atoms 𝓤} {K : Type 0} {W : Given 𝓤 H A} {Γ : List (Item 𝓤)} {E : Env 𝓤 H} {C : Calls 𝓤 H} {Λ : Loops 𝓤 H} {xs : List Operand} {q : After 𝓤 H} {d : Place} {rest : Code} where\n'
    for modes in modes_list:
        mode = dict(zip([n for n, _ in lent], modes)); name_ = 'calls-%s-%s' % (h, modes)
        hold = lambda n, l: '‵ (%s %s s-%s %s) ∷ ‵ (Tok s-%s)' % ({'r': 'One', 'c': 'Shr'}.get(mode[n], 'Mut'), R[n], n, l, n)
        before = ' ∷ '.join(hold(n, n) for n, _ in lent); after = ' ∷ '.join(hold(n, n + '′' if n in kept else n) for n, _ in lent)
        o += '  pub %s : K → FmC 𝓤 H (W .laws) C → (mem : Memory → SProp 𝓤) (run : Routine → Fun 𝓤) → Triple 𝓤 (C %s) (%s 𝓤 H A mem run)\n      → %s%s%s\n' % (name_, sym, name, B, ''.join(' → length %s ≡ s-%s .count' % (n, n) for n in lists), ''.join(' → ' + x[1] for x in hyps))
        o += '      → ((P %s : Item 𝓤) → Opds K W (P ∷ %s ∷ Γ) E xs (%s ∷ []))\n' % (' '.join('Ω%d' % i for i in range(k)), ' ∷ '.join('Ω%d' % i for i in range(k)), ' ∷ '.join(words))
        o += '      → ((res : %s) %s → Ensured-%s %s res %s → Is %s res (%s res ∷ [])%s → Seq K W (%s ∷ Γ) (lands C Λ E d (%s res) rest q))\n' % (T.denot(res), exits, h, plain, ' '.join(n + '′' for n in kept), T.row(res), T.val(res), ''.join(' → length %s′ ≡ s-%s .count' % (n, n) for n in lists), after, T.val(res))
        o += '      → Seq K W (%s ∷ Γ) (runs C Λ E (seq (call %s xs d) rest) q)\n' % (before, sym)
        o += '  %s t fm mem run met %s %s %s os k =\n' % (name_, N, ' '.join('ln-' + n for n in lists), ' '.join(x[0] for x in hyps))
        c = Ctx([x for n, _ in lent for x in ('H' + n, 'T' + n)], 't'); L = []; close = 0
        for n, _ in lent:
            c.move(['H' + n, 'T' + n])
            if mode[n] == 'm': c.say('lend-mut t tt %s s-%s %s ln-%s (λ ν-%s δ-%s w-%s.' % (R[n], n, n, n, n, n, n)); close += 1
            if mode[n] == 'r': c.say('lend-one t tt %s s-%s %s (λ ν-%s δ-%s.' % (R[n], n, n, n, n)); close += 1
            if mode[n] == 's': c.say('lend-shr t tt %s s-%s %s (λ ν-%s δ-%s w-%s.' % (R[n], n, n, n, n, n)); close += 1
            if mode[n] == 'c': c.say('lend-copy t %s s-%s %s $' % (R[n], n, n))
            c.l[:2] = ['t' + n, 'o' + n, 'k' + n]
            L.append(c.text())
        lt = {n: 's-' + n if mode[n] == 'c' else '(lent-to s-%s ν-%s δ-%s)' % (n, n, n) for n, _ in lent}
        at = ' '.join('%s %s' % (lt[n], n) if n in X else n for n, t in P)
        c.move(['t' + n for n, _ in lent] + ['o' + n for n, _ in lent])
        c.op('group t %d' % (2 * k), 2 * k, ['pre'])
        c.op('use1 W (raw (%s 𝓤 H A mem run .pre (to 𝓤 H A mem run %s))) (goes 𝓤 H A mem run W %s %s)' % (name, at, at, ' '.join(x[0] for x in hyps)), 1, ['pre'])
        L.append(c.text())
        L.append('calls-at t fm (%s 𝓤 H A mem run) met (to 𝓤 H A mem run %s) (os %s) (λ out.' % (name, at, ' '.join('_' for _ in range(k + 1)))); close += 1
        c.l[:1] = ['post']
        toksep = ' ⊛ '.join(['‵ (Tok %s)' % lt[n] for n, _ in lent] + ['‵ ftrue'])
        ks2 = tup(['%s .life' % lt[n] if mode[n] == 'c' else 'ν-%s ∷ []' % n for n, _ in lent])
        args2 = tup([at_(n, lt[n]) if n in X else n for n, t in P])
        L.append('use1 W (later (some (λ (res : %s). ((%s) ⊛ ‵ (%s .own res (out ∷ []))) ⊛ raw (ensured 𝓤 H A callee.ended (callee.clauses 𝓤 H A mem run) %s %s tt res)))) (id⊢ 𝓤 _) $ await t tt $ pick t (λ res.' % (T.denot(res), toksep, T.row(res), ks2, args2)); close += 1
        c.l[:1] = ['to', 'en']; c.say('split t $'); c.move(['en'])
        wt = ' × ('.join([X[n] if n in kept else 'Unit {0}' for n, t in P] + ['Unit {0}']) + ')' * len(P)
        ws = {n: 'ws' + ' .1' * i + ' .0' for i, (n, t) in enumerate(P)}
        Q = 'Ensured-%s %s res %s' % (h, plain, ' '.join('(%s)' % ws[n] for n in kept))
        c.say('use1 W (some (λ (ws : %s). ‵ (lasts callee.ended %s %s ws) ⊛ raw (fact 𝓤 (%s)))) (id⊢ 𝓤 _) $ pick t (λ ws.' % (wt, ks2, args2, Q)); close += 1
        c.l[:1] = ['la', 'fa']; c.say('split t $'); c.move(['fa']); c.say('heard t (%s) (λ e.' % Q); close += 1; c.l[:1] = []
        for n, t in P:
            c.op('fsplit t', 1, ['f' + n, 'la'])
            if n in lists:
                c.op('fsplit t', 1, ['f' + n, 'eq']); c.move(['eq']); c.say('feqL t (λ le-%s.' % n); close += 1; c.l[:1] = []
                c.move(['la'])
            elif n in refs: c.move(['la'])
            else: c.op('drop t', 1, [])
        c.op('drop t', 1, [])
        c.move(['to']); c.op('split t', 1, ['to', 're']); c.move(['re'])
        c.say('peeks t %s (Is %s) (shows 𝓤 H A %s) res (out ∷ []) (λ is.' % (T.row(res), T.row(res), T.row(res))); close += 1
        c.op('drop t', 1, [])
        for n, _ in lent: c.op('split t', 1, ['t' + n, 'to']); c.move(['to'])
        c.op('drop t', 1, [])
        L.append(c.text())
        for n, _ in lent:
            if mode[n] == 'm': c.move(['t' + n, 'f' + n, 'k' + n]); c.op('back-mut t tt %s s-%s ν-%s δ-%s %s (%s) ln-%s w-%s le-%s' % (R[n], n, n, n, n, ws[n], n, n, n), 3, ['H' + n, 'T' + n])
            if mode[n] == 'r': c.move(['t' + n, 'f' + n, 'k' + n]); c.op('back-one t tt %s s-%s ν-%s δ-%s %s (%s)' % (R[n], n, n, n, n, ws[n]), 3, ['H' + n, 'T' + n])
            if mode[n] == 's': c.move(['t' + n, 'k' + n]); c.op('back-shr t tt %s s-%s ν-%s δ-%s %s w-%s' % (R[n], n, n, n, n, n), 2, ['H' + n, 'T' + n])
            if mode[n] == 'c': c.l[c.l.index('k' + n)] = 'H' + n; c.l[c.l.index('t' + n)] = 'T' + n
            L.append(c.text())
        c.move([x for n, _ in lent for x in ('H' + n, 'T' + n)])
        L.append(c.text())
        final = ' ∷ '.join(hold(n, '(%s)' % ws[n] if n in kept else n) for n, _ in lent)
        L.append('subst (λ (u : Val). Seq K W (%s ∷ Γ) (lands C Λ E d u rest q)) (sym (ap only (%s res (out ∷ []) is))) (k res %s e (subst (Is %s res) (%s res (out ∷ []) is) is) %s)%s' % (final, T.tells(res), ' '.join('(%s)' % ws[n] for n in kept), T.row(res), T.tells(res), ' '.join('(le-%s ∙ ln-%s)' % (n, n) for n in lists), ')' * close))
        o += '\n'.join('      ' + x for x in L if x) + '\n\n'
    own = module(crate, 'proofs', '.'.join(f['mods'] + [f['fn']]), here)
    head = '-- How `%s` is called, with %s lent to it: a rule for each way to lend (m: a `&mut` slice lent again, s: a `&mut` slice lent as `&`, c: a `&` slice passed on, r: a `&mut` of a struct lent again). Printed (tests/walks_local).\n-- Assumes `Given`, and that the callee meets its contract.\n' % (path, ', '.join('`%s`' % t for _, t in lent))
    ghost = {n: (placed(m, here), s) for n, (m, s) in f['ghost'].items()}
    return head + library_uses(o, ghost) + T.uses(o) + 'use %s as callee\nuse %s.Symbol.{name as %s}\n\n' % (own, own, sym) + o.rstrip('\n') + '\n'

def print_rules(path, modes_list, here):
    p = 'crates/%s/proofs/%s.antt' % (here, rule_file(split(path)[2]))
    o = rule(path, modes_list, here)
    open(p, 'w').write(o); print(p, o.count('\n'), 'lines')
