"""The text of proofs/F/Proof.antt: the walk of a function that is a thin loop over lent lists of records.

    let mut p = begin(.., the buffers, ..);
    while p.going { [if p.flag] p = turn(.., the buffers, p, list[p.at]); .. }      or, in an arm: filled[p.at] = p.record; p = turn(.., p);
    [count(account, p.growth);]
    p.answer
"""
from parts import *
from mir import function, items, flat, place, callee


FILLED_HEAD = '''use lib.ListN.{set, length-set}
use denote.Index.{row, whole-out, whole-in, elem-put}
'''


def is_ref(k):
    return isinstance(k, tuple) and k[0] == 'ref'


def is_list(k):
    return isinstance(k, tuple) and k[0] == 'list'


class Loop:
    """root, here, name: the repository, and the function's crate and name. kit: the crate of Frame and Opening.
    params: (name, Kind | Slice | Filled | ('ref', Kind) | ('list', Kind)).  A Slice is a &mut [u32] or of other numbers, a Filled a &mut [S] that an arm
        stores in, 'ref' a &mut S, 'list' a &[S].
    stage: the Stage. carried: the Kind of p. result, answer, answer_at: the Kind, the field and the field's number of what is returned.
    size: of each list, the bytes of an element.
    begin: its Callee; begin_args, begin_is, begin_ready: what it is passed where that is no parameter, that it is one, and its `requires`.
    first: the stage after it; inv_start: that the invariant holds there.
    arms: one, or two by the flag p.FLAG; each with
        callee, list, index (p's number), none (what getD has outside), args, is, ready, next (the stage after it), inv, falls, within,
        and of two: name, body (its MIR). An arm that stores has, in place of list, none, args and is: filled, made (p's field and its number), and its
        callee may take some of the buffers alone, by & or &mut.
    counting: None, or dict(by=CountingCall, growth, room, and index or made, made_ready): what is counted and that it fits; it is p's field of
        that number, or what the Plain callee made returns for p.
    last: the last value of the lent struct. done: what the `ensures` says at the stage s. done_is: that it does at the turn x.
    inv_params, inv: the parameters of the invariant, and what `Inv` and `μ` are applied to.
    laws: (crate, module of its proofs, names) that the proof cites. cites: definitions (parts.spec_uses). small: (Kind, fields), or None."""

    flag = counting = last = None

    def __init__(self, **given):
        self.__dict__.update(given)
        self.F = dashed(self.name)
        self.slices = [n for n, k in self.params if isinstance(k, Slice)]
        self.plain = [(n, k) for n, k in self.params if isinstance(k, Kind)]
        self.refs = [(n, k[1]) for n, k in self.params if is_ref(k)]
        self.lists = [(n, k[1]) for n, k in self.params if is_list(k)]
        self.filled_lists = [(n, k.record) for n, k in self.params if isinstance(k, Filled)]
        self.lent = [n for n, k in self.params if not isinstance(k, Kind)]
        self.life = {n: i for i, n in enumerate(self.lent)}
        self.kind = dict(self.params)
        self.param = {i + 1: n for i, (n, k) in enumerate(self.params)}
        self.count, self.body = function(self.root, self.here, self.name)
        self.blocks = ' '.join(block(i) for i in range(self.count))
        self.front = ['held'] + sum([['tok·' + n, 'own·' + n] for n, k in self.lists], []) + (['acc', 'ro'] if self.refs else []) + ['kept']
        self.made = self.counting.get('made') if self.counting else None
        self.callees = [self.begin] + [a['callee'] for a in self.arms] + ([self.made] if self.made else []) + ([self.counting['by']] if self.counting else [])
        for c in [self.begin] + [a['callee'] for a in self.arms]:
            assert all(c.row[n] == self.row(n) for n in c.slices), c.name
        # the loop
        self.loop_at = [i for i, b in enumerate(self.body) if isinstance(b, list) and b[0] == 'block'][0]
        self.turn = flat(self.body[self.loop_at][1][1])
        self.rest = self.loop_at + 2
        self.p = place([b for b in self.body[:self.loop_at] if isinstance(b, list) and b[0] == 'call'][0][3])[0]
        self.test = place(self.turn[0][1])[0]
        # while one stretch of code is walked: the locals that are filled, the fat pointers and the element pointers, by what they point to
        self.filled, self.fat, self.ptrs, self.arm = set(), {}, {}, None

    # ---- small texts
    def row(self, n):
        """The row of a buffer's or a list's elements."""
        k = self.kind[n]
        return k.row if isinstance(k, Slice) else k[1].row

    def type(self, k):
        return k[1].ty if is_ref(k) else 'List %s' % k[1].ty if is_list(k) else k.ty

    def fat_value(self, n):
        return '(slice-at %s %s %s)' % (self.row(n), at(n), n)

    def pointer(self, n):
        return '(vptr %s)' % at(n)

    def value(self, n):
        """The machine value of a parameter."""
        k = self.kind[n]
        return k.val(n) if isinstance(k, Kind) else self.pointer(n) if is_ref(k) else self.fat_value(n)

    def argument(self, n):
        k = self.kind[n]
        if isinstance(k, Kind):
            return n
        if is_ref(k):
            return '(at-value %s %s γ-%s %s)' % (k[1].row, at(n), n, n)
        return '(at-list %s %s γ-%s %s)' % (self.row(n), at(n), n, n)

    def type_row(self, n):
        k = self.kind[n]
        if isinstance(k, Kind):
            return k.row
        name = 'MutRef' if is_ref(k) else 'ShrSlice' if is_list(k) else 'MutSlice'
        return '%s (named %d) κ-%s %s' % (name, self.life[n], n, self.row(n))

    def own(self, n):
        return '(%s .own %s (%s ∷ []))' % (self.type_row(n), self.argument(n), self.fat_value(n))

    def held(self, lists):
        return chain('‵ (Cells %s %s %s)' % (self.row(n), at(n), l) for n, l in zip(self.slices, lists))

    def carried_at(self, x):
        return self.stage.held('%s .at' % x)

    def going(self, x):
        return '%s .at .%s .going' % (x, self.stage.carried)

    def answer_of(self, x):
        return '(%s .%s .%s)' % (x, self.stage.carried, self.answer)

    def app(self, c, name, args):
        return '%s.%s 𝓤 H A mem run″ W %s %s' % (c.mod, name, ' '.join(at(n) for n in c.slices), ' '.join(args))

    def pos(self, cx, local):
        return cx.at('_%d' % local)

    # ---- assignments
    def field_is(self, x, number):
        P = self.carried
        return '(%s.owed %s %s _ (%s .is)%s .0)' % (P.LL, P.tl, self.carried_at(x), x, ' .1' * int(number))

    def assign(self, cx, st, x, ind):
        """One assignment, and the number of parentheses that it opens."""
        d, path = place(st[1])
        rv = st[2]
        if path:
            return self.stored(cx, d, path, rv, ind), 1
        to = '(from ! (stop !)) (%s ! %d refl ' % ('store' if d in self.filled else 'init', self.pos(cx, d))
        self.filled.add(d)
        if rv[0] == 'addrOf':
            local, _ = place(rv[1])
            if self.param[local] in self.slices:
                source = '(fld ! refl (hop ! (look-in ! %d (sub ! 0 refl (whole !))) (stop !)))' % self.pos(cx, local)
            else:
                source = '(hop ! (look ! %d refl) (stop !))' % self.pos(cx, local)
            return 'assigns ! (addr ! (from ! %s)) %s(tt, tt)) $ ' % (source, to), 0
        if rv[0] == 'aggregate':
            a, b = items(rv[1])
            n = self.fat[d] = self.param[place(b[1])[0]]
            return 'assigns ! (agg ! %s) %s(tt, (tt, (record { fits = r-%s .0 }, tt)))) $ ' % (operands(cx, [a, b]), to, n), 0
        if rv[0] == 'op2' and rv[1] == 'offset':
            n = self.ptrs[d] = self.param[place(rv[2][1])[0]]
            t = 'assigns ! (bin ! %s %s tt) %s(tt, tt)) $ ' % (operand(cx, rv[2]), operand(cx, rv[3]), to)
            t += '\n' + ind + 'rewrite ! %d (λ (p : ℕ). ‵ (fat fullShare tyPtr %s 0 (vptr b-%s p))) (sym (place-is %s o-%s %s)) refl $ ' % (
                self.pos(cx, d), block(d), n, self.size[n], n, self.arm['index'])
            return t, 0
        if rv[0] == 'op2':
            assert rv[1][0] == 'mul', st
            return 'assigns ! (bin ! %s (lit ! tt) (record { fits = small })) %s(tt, record { fits = small })) $ ' % (operand(cx, rv[2]), to), 0
        assert rv[0] == 'rvOpd', st
        local, steps = place(rv[1][1])
        if steps and steps[0][0] == 'deref' and local in self.param:  # the lent struct is read
            n = self.param[local]
            return 'assigns ! (of-opd ! (load ! (from ! (hop ! (look ! %d refl) (stop !))) (look-raw ! %d refl))) %s%s) $ ' % (
                self.pos(cx, local), cx.at('acc'), to, self.kind[n][1].typed(n, '_', n + '-is')), 0
        if steps and steps[0][0] == 'deref':
            return self.element(cx, local, d, ind), 2
        if local in self.param:  # a length
            return 'assigns ! (of-opd ! %s) %s(tt, record { fits = r-%s .0 })) $ ' % (operand(cx, rv[1]), to, self.param[local]), 0
        assert local == self.p, st
        typed = self.result.typed(self.answer_of(x + ' .at'), '_', self.field_is(x, steps[0][1])) if d == 0 else '(tt, tt)'
        return 'assigns ! (of-opd ! %s) %s%s) $ ' % (operand(cx, rv[1]), to, typed), 0

    def element(self, cx, local, d, ind):
        """An element of a list of records is copied out."""
        n, a = self.ptrs[local], self.arm
        k = dict(self.lists)[n]
        row = k.row
        t = cx.move('own·' + n) + 'use1 W (‵ %s ⊛ ‵ %s) (shr-slice-copy 𝓤 H A W (named %d) κ-%s %s .twice %s (%s ∷ [])) $ split ! $ fsplit ! $ drop ! $ fsplit ! $ ' % (
            self.own(n), self.own(n), self.life[n], n, row, self.argument(n), self.fat_value(n))
        cx.front(1, ['res', 'shr', 'own·' + n])
        t += cx.move('shr', 'tok·' + n) + '\n' + ind + 'looks-slice ! tt %s (Is %s) (shows 𝓤 H A %s) %s %s %s %s %s (λ q′.\n' % (row, row, row, k.spells(), k.tells(), k.copy(), n, at(n))
        cx.front(2, ['row', 'obor', 'shr'])
        t += ind + 'elem-out ! %s (Is %s) (shows 𝓤 H A %s) %s %s q′ %s %s %s %s within (λ e-is.\n' % (row, row, row, k.spells(), k.tells(), n, a['index'], a['none'], at(n))
        cx.front(1, ['cell', 'eown', 'others'])
        t += ind + 'assigns ! (of-opd ! (load ! (from ! (hop ! (look ! %d refl) (stop !))) (look-raw ! 0 refl))) (from ! (stop !)) (init ! %d refl %s) $\n' % (self.pos(cx, local), self.pos(cx, d), k.typed('e', '_', 'e-is'))
        t += ind + 'elem-back ! %s q′ %s %s %s %s %s within $ shuts-slice ! tt %s q′ %s %s $ ' % (row, n, a['index'], a['none'], k.vals('e'), at(n), row, n, at(n))
        cx.front(3, ['row'])
        cx.front(2, ['tok·' + n])
        t += cx.move('shr', 'res') + 'drop ! $ drop ! $ '
        cx.front(2, [])
        return t + cx.move(*self.front)

    def stored(self, cx, local, path, rv, ind):
        """The record that p has is stored at its place of the list that is filled: the element is taken out of the row, and put back."""
        n, a = self.ptrs[local], self.arm
        assert path[0][0] == 'deref' and n == a['filled'], path
        k = self.kind[n].record
        old, made, index, row = self.stage.of('x .at', n), '(%s .%s)' % (self.carried_at('x'), a['made'][0]), a['index'], k.row
        t = self.taken_apart(cx) + cx.move('c·' + n) + '\n' + ind
        t += 'use1 W (‵ (row %s fullShare %s %s)) (whole-out 𝓤 H A W %s %s %s) $\n' % (row, old, at(n), row, old, at(n))
        t += ind + 'elem-out ! %s (Is %s) (shows 𝓤 H A %s) %s %s fullShare %s %s %s %s at-place (λ _.\n' % (row, row, row, k.spells(), k.tells(), old, index, made, at(n))
        cx.front(1, ['cell', 'eown', 'others'])
        t += ind + 'assigns ! (of-opd ! %s) (from ! (hop ! (look ! %d refl) (stop !))) (store-raw ! 0 refl %s) $\n' % (operand(cx, rv[1]), self.pos(cx, local), k.typed(made, '_', 'made-is'))
        t += ind + 'move ! (1 ∷ []) $ drop ! $ %smove ! (1 ∷ 0 ∷ []) $\n' % k.owned(made, 'made-is')
        t += ind + 'elem-put ! %s fullShare %s %s %s %s %s at-place $\n' % (row, old, index, made, k.vals(made), at(n))
        cx.front(3, ['c·' + n])
        return t + ind + 'use1 W (‵ (Cells %s %s stored)) (whole-in 𝓤 H A W %s stored %s) $ ' % (row, at(n), row, at(n))

    def taken_apart(self, cx):
        """The memory of the buffers, each by itself."""
        return cx.move('held') + cx.split(['c·' + n for n in self.slices]) if 'held' in cx.items else ''

    # ---- the file
    def text(self):
        self.items = {'kept': 'Kept'}
        for n, k in self.lists:
            self.items['tok·' + n] = '‵ (flft κ-%s q-%s)' % (n, n)
            self.items['own·' + n] = '‵ ' + self.own(n)
        for n, k in self.refs:
            self.items['acc'] = '‵ (cellAt fullShare (%s .mir) %s %s)' % (k.row, k.vals(n), at(n))
            self.items['ro'] = '‵ (RefOpened %s %s κ-%s q-%s γ-%s %s)' % (k.row, at(n), n, n, n, n)
        self.back = self.front[1:]
        self.fin = [l for l in self.back if l not in ('acc', 'ro')]
        if self.counting:
            n, k = self.refs[0]
            self.fin = self.fin[:-1] + ['res', 'toka', 'kept']
            self.items['res'] = '‵ (fres γ-%s (%s .coded .code %s))' % (n, k.row, self.last)
            self.items['toka'] = '‵ (flft κ-%s q-%s)' % (n, n)
        return prune(self.head() + self.stays() + self.turning() + self.entry() + self.opens_all() + self.finish() + self.code() + self.contract())

    def head(self):
        here, own = self.here, '%s.%s' % (proofs(self.here, self.here), self.name)
        t = '-- `%s::%s` meets its contract: a walk of its MIR, by hand. It knows of its callees only that each meets its contract.\n' % (here, self.name)
        t += '-- Each buffer is opened at the start and closed at the end; in between the walk has its memory, which it lends to each callee. A list of records is looked into at each turn. The loop goes by `proofs/Loop.antt`.\n'
        t += '-- The context is [%s; _0; …; _%d; that the locals die]. Assumes nothing.\n' % ('; '.join(self.front), self.count - 1)
        t += ''.join('mod %s\n' % c.mod for c in self.callees)
        t += HEAD + (FILLED_HEAD if self.filled_lists else '') + kind_uses(here, [k for n, k in self.plain + self.refs + self.lists + self.filled_lists] + [self.carried, self.result] + ([self.counting['by'].counting.growth] if self.counting else []))
        t += spec_uses(here, self.cites) + ''.join('use %s.%s.{%s}\n' % (proofs(here, c), m, ', '.join(ns)) for c, m, ns in self.laws) + kit_uses(here, self.kit)
        for c in self.callees:
            t += 'use %s.Proof.%s as %s\n' % (own, c.mod, c.mod) + c.uses()
        return t + 'use %s.Key.{name as #%s·%s}\nuse %s as %s\nuse %s.Statement as stated\nuse %s.Code as code\nuse %s.Code.Mir as code-mir\n\n' % (own, here, self.F, own, self.F, own, own, own)

    def stays(self):
        stays, goes, many = [], [], len(self.lent)
        for n, k in self.params:
            i = self.life.get(n)
            if isinstance(k, Kind):
                stays.append('stay-none (λ _. %s) yes' % k.row)
                goes.append('goes-none 𝓤 H A W %d (λ _. %s) yes (λ κs x f. refl)' % (many, k.row))
            elif isinstance(k, Slice):
                stays.append('stay-slice (%d ∷ []) tt (plain (λ _. %s))' % (i, k.row))
                goes.append('goes-slice 𝓤 H A W %d %d tt (plain (λ _. %s))' % (many, i, k.row))
            elif is_ref(k):
                stays.append('%s-ref (%d ∷ []) tt (plain (λ _. %s))' % ('gave' if self.counting else 'stay', i, k[1].row))
                goes.append('goes-%sref 𝓤 H A W %d %d tt (plain (λ _. %s))' % ('gave-' if self.counting else '', many, i, k[1].row))
            else:
                stays.append('stay-none-slice (%d ∷ []) tt (plain (λ _. %s)) yes' % (i, k[1].row))
                goes.append('goes-none-slice 𝓤 H A W %d (%d ∷ []) tt (plain (λ _. %s)) yes' % (many, i, k[1].row))
        self.goes = nest(goes)
        t = 'abbrev stayed : Stays (%s.ended .signature .params) (%s.ended .kept)\nstayed = %s\n\n' % (self.F, self.F, nest(stays))
        if self.flag:
            t += 'holds : (y : Bool) → T y → y ≡ true\nholds true h = refl\nholds false h = absurd h\n\nfails : (y : Bool) → T (not y) → y ≡ false\nfails true h = absurd h\nfails false h = refl\n\n'
        if self.small:
            k, fields = self.small
            bounds, parts, have = 'Unit {0}', 'tt', 'Unit {0}'
            for i, f in reversed(list(enumerate(fields))):
                f = 'a .' + field(f)
                bounds = '(%s < 2 ^ 32) × (%s)' % (f, bounds) if i < len(fields) - 1 else '%s < 2 ^ 32' % f
                parts = '(fs%s .0 .1, %s)' % (' .1' * i, parts) if i < len(fields) - 1 else 'fs%s .0 .1' % (' .1' * i)
                have = '(Is u32 (%s) (vint w32 (%s) ∷ [])) × (%s)' % (f, f, have)
            t += '-- the fields of a struct that is one are numbers of 32 bits\nsmall-fields : {a : %s} → %s → %s\nsmall-fields {a} is = %s\n  where\n    fs : %s\n    fs = %s.owed %s a _ is\n\n' % (
                k.ty, k.is_('a'), bounds, parts, have, k.LL, k.tl)
        return t

    def turning(self):
        S = self.stage
        t = 'module _ %s where\n' % ' '.join('(%s : %s)' % (n, self.type(self.kind[n])) for n in self.inv_params)
        t += '  -- a stage that the loop comes to\n  record Turning : Type 0 where\n    at : %s\n    inv : Inv %s at\n    is : %s\n' % (
            S.name, self.inv, self.carried.is_(S.held('at'), '(%s ∷ [])' % self.carried.val(S.held('at'))))
        t += ''.join('    %s-len : length %s ≡ length %s\n' % (n, S.of('at', n), n) for n in self.slices)
        t += '\n  abbrev left : Turning → ℕ\n  left x = μ %s (x .at)\n\n  abbrev ≺ : Turning → Turning → Type 0\n  ≺ y x = left y < left x\n\n  wf : WellFounded ≺\n  wf = InvImage·wf left (Nat·lt-wfRel .wf)\n\n' % self.inv
        return t

    def entry(self):
        F, params = self.F, self.params
        known = ['(%s-is : %s)' % (n, k.is_(n)) for n, k in self.plain] + ['(r-%s : Room %s (length %s))' % (n, self.row(n), n) for n in self.lent if not is_ref(self.kind[n])]
        t = 'module _ {M : Type 1} (𝓤 : URA M) (H : Heap 𝓤) (A : Atoms 𝓤) (W : Given 𝓤 H A) (mem : Memory → SProp 𝓤) (run″ : Routine → Fun 𝓤)\n    (%s : Lft) (%s : Share) (%s : ℕ) (%s : GName)\n    %s\n    %s where\n' % (
            ' '.join('κ-' + n for n in self.lent), ' '.join('q-' + n for n in self.lent), ' '.join(at(n) for n in self.lent), ' '.join('γ-' + n for n in self.lent),
            ' '.join('(%s : %s)' % (n, self.type(k)) for n, k in params), ' '.join(known))
        arg_type, val_type = 'Unit {0}', 'Unit {0}'
        for n, k in reversed(params):
            arg_type = '(%s × %s)' % (k.ty if isinstance(k, Kind) else 'RefT %s' % (self.type(k) if is_ref(k) else '(%s)' % self.type(k)), arg_type)
            val_type = '(List Val × %s)' % val_type
        t += '  abbrev args : %s\n  args = %s\n\n  abbrev at : %s\n  at = %s\n\n' % (
            arg_type, nest(self.argument(n) for n, k in params), val_type, nest(k.vals(n) if isinstance(k, Kind) else '(%s ∷ [])' % self.value(n) for n, k in params))
        self.κs, self.qs = nest('κ-' + n for n in self.lent), nest('q-' + n for n in self.lent)
        t += '  abbrev bound : walkOf 𝓤 H A %s.ended stayed (%s.clauses 𝓤 H A mem run″) .Ghost\n  bound = ((%s, %s, tt, args, at), tt)\n\n' % (F, F, self.κs, self.qs)
        t += '  abbrev Post : Val → SProp 𝓤\n  Post = walkOf 𝓤 H A %s.ended stayed (%s.clauses 𝓤 H A mem run″) .post bound\n\n' % (F, F)
        t += '  abbrev Held : %s → Item 𝓤\n  Held s = %s\n\n' % (self.stage.name, self.held([self.stage.of('s', n) for n in self.slices]))
        t += '  abbrev Kept : Item 𝓤\n  Kept = %s\n\n' % chain('‵ (Opened %s %s κ-%s q-%s γ-%s %s)' % (self.row(n), at(n), n, n, n, n) for n in self.slices)
        t += '  -- what the walk has beside the buffers and its locals\n  abbrev Rest : Item 𝓤\n  Rest = %s\n\n' % chain(self.items[l] for l in self.back)
        t += '  abbrev Toks : Item 𝓤\n  Toks = %s ⊛ ‵ ftrue\n\n  abbrev Owns : Item 𝓤\n  Owns = ‵ (owns (%s ∷ []) args at)\n\n' % (
            chain('‵ (flft κ-%s q-%s)' % (n, n) for n in self.lent), ' ∷ '.join(self.type_row(n) for n, k in params))
        return t

    def struct_is(self):
        return '(%s)' % self.refs[0][1].is_(self.refs[0][0]) if self.refs else None

    def opens_all(self):
        given = self.struct_is()
        t = '  opens-all : ent 𝓤 (sep 𝓤 (mean 𝓤 H A Toks) (mean 𝓤 H A Owns)) (H .⇛ (%s(mean 𝓤 H A ((%s) ⊛ Rest))))\n' % ('guard 𝓤 %s ' % given if given else '', self.held(self.slices))
        cx = Context(['toks', 'owns'])
        b, par = 'updating ! $ ' + cx.split(['tok·' + n for n in self.lent] + ['true·']), 0
        for n, k in self.params:
            b += '\n      ' + cx.move('owns') + 'fsplit ! $ '
            if isinstance(k, Kind):
                b += 'drop ! $ '
            elif is_list(k):
                cx.front(1, ['own·' + n, 'owns'])
            else:
                cx.front(1, ['m·' + n, 'owns'])
                b += cx.move('m·' + n, 'tok·' + n)
                if isinstance(k, Slice):
                    b += 'use2 W (later (‵ (Cells %s %s %s) ⊛ ‵ (Opened %s %s κ-%s q-%s γ-%s %s))) (slice-opens %s %s 𝓤 H A W (named %d) κ-%s q-%s γ-%s %s) $ await ! tt $ split ! $ ' % (
                        k.row, at(n), n, k.row, at(n), n, n, n, n, k.row, at(n), self.life[n], n, n, n, n)
                    cx.front(2, ['c·' + n, 'o·' + n])
                else:
                    b += 'use2 W (later (given %s (%s ⊛ %s))) (ref-opens %s %s 𝓤 H A W %s %s (named %d) κ-%s q-%s γ-%s %s) $ await ! tt $ learn ! (λ %s-is. split ! $ ' % (
                        given, self.items['acc'], self.items['ro'], k[1].row, at(n), k[1].spells(), k[1].tells(), self.life[n], n, n, n, n, n)
                    cx.front(2, ['acc', 'ro'])
                    par += 1
        b += '\n      at-once ! $ ' + ('check ! %s-is $ ' % self.refs[0][0] if self.refs else '')
        b += cx.keep(*(['c·' + n for n in self.slices] + self.back[:-1] + ['o·' + n for n in self.slices]))
        b += ('group ! %d $ ' % len(self.slices) if len(self.slices) > 1 else '') + 'done !' + ')' * par
        return t + '  opens-all =\n      qed W (Toks ∷ Owns ∷ []) ∵ ' + b + '\n\n'

    def finish(self):
        F, S, R = self.F, self.stage, self.result
        out = self.answer_of('s')
        t = '  -- from the memory at the last stage to the end\n  module _ (s : %s) %s (done-so : %s) (end-is : %s) where\n' % (
            S.name, ' '.join('(%s-len : length %s ≡ length %s)' % (n, S.of('s', n), n) for n in self.slices), self.done, R.is_(out, '(%s ∷ [])' % R.val(out)))
        t += '    abbrev AtEnd : Item 𝓤\n    AtEnd = Held s ⊛ %s\n\n' % chain(self.items[l] for l in self.fin)
        t += '    finish : ent 𝓤 (mean 𝓤 H A AtEnd) (H .⇛ (Post %s))\n' % R.val(out)
        cx = Context(['held'] + self.fin)
        b = 'updating ! $ ' + cx.split(['c·' + n for n in self.slices]) + cx.move('kept') + cx.split(['o·' + n for n in self.slices])
        for n in self.slices:
            i, ys, row = self.life[n], S.of('s', n), self.row(n)
            b += '\n        ' + cx.move('c·' + n, 'o·' + n)
            b += 'use2 W (later (‵ (MutSlice (named %d) κ-%s %s .own (at-list %s %s γ-%s %s) (%s ∷ [])) ⊛ ‵ (flft κ-%s q-%s))) (slice-closes %s %s 𝓤 H A W (named %d) κ-%s q-%s γ-%s %s %s r-%s %s-len) $ await ! tt $ split ! $ ' % (
                i, n, row, row, at(n), n, ys, self.fat_value(n), n, n, row, at(n), i, n, n, n, n, ys, n, n)
            cx.front(2, ['m·' + n, 'tok·' + n])
        if self.counting:
            cx.items[cx.at('toka')] = 'tok·' + self.refs[0][0]
        last = ['tt' if isinstance(k, Kind) or is_list(k) else self.last if is_ref(k) else S.of('s', n) for n, k in self.params]
        fits = ['%s-len' % n if isinstance(k, Slice) else 'tt' for n, k in self.params]
        b += '\n        at-once ! $ suffices ! _ (ends-at 𝓤 H A %s.ended stayed (%s.clauses 𝓤 H A mem run″) W bound %s %s %s %s) $ says ! done-so $ nothing ! $ ' % (F, F, R.val(out), out, nest(last), nest(fits))
        cx.items.insert(0, 'true')
        b += cx.group(['tok·' + n for n in self.lent] + ['true'], 'toks') + 'frame ! $ \n        nothing ! $ '
        cx.front(1, ['o'])
        for n, k in reversed(self.params):
            if isinstance(k, Kind):
                b += k.owned(n, n + '-is') + 'fjoin ! $ '
            else:
                b += cx.move('res' if is_ref(k) else 'own·' + n if is_list(k) else 'm·' + n, 'o') + 'fjoin ! $ '
                cx.front(2, ['o'])
        b += 'frame ! $ %sdone !' % R.owned(out, 'end-is')
        return t + '    finish =\n        qed W (Held s ∷ %s ∷ []) ∵ ' % ' ∷ '.join(self.items[l] for l in self.fin) + b + '\n\n'

    # ---- the code
    def slots(self, x, extra):
        r = []
        for i in range(self.count):
            if i in extra:
                r.append('is-some %s' % extra[i])
            elif 0 < i <= len(self.params):
                r.append('is-some %s' % self.value(self.param[i]))
            elif i == self.p:
                r.append('is-some %s' % self.carried.val(self.carried_at(x)))
            else:
                r.append('none')
        while r[-1] == 'none':
            r.pop()
        return ' ∷ '.join(r) + ' ∷ []'

    def context(self, x, extra):
        return 'Held (%s .at) ∷ %s ∷ (slots E (%s) ++ (‵ (dieAll E) ∷ []))' % (x, ' ∷ '.join(self.items[l] for l in self.back), self.slots(x, extra))

    def fresh(self):
        """The context where a stretch of code begins."""
        self.filled, self.fat, self.ptrs = set(), {}, {}
        return Context(self.front + ['_%d' % i for i in range(self.count)] + ['dies'])

    def tested(self, cx, eq):
        I = ' ' * 10
        return I + self.assign(cx, self.turn[0], 'x', '')[0] + '\n' + I + 'rewrite ! %d (λ (y : Bool). ‵ (fat fullShare tyBool %s 0 (vbool y))) %s refl $\n' % (self.pos(cx, self.test), block(self.test), eq)

    def code(self):
        known = ' '.join('(known-%s : Triple 𝓤 (𝓣 .C %s) (%s.Called 𝓤 H A mem run″))' % (c.F, c.key, c.mod) for c in self.callees)
        self.known = known
        hyp = '(%s-is′ : %s) → ' % (self.refs[0][0], self.refs[0][1].is_(self.refs[0][0])) if self.refs else ''
        use = '%s-is′ ' % self.refs[0][0] if self.refs else ''
        names = ' '.join(self.inv_params)
        self.order = '(≺ %s)' % names
        t = '  module _ (𝓣 : Tables 𝓤 H) %s where\n    abbrev C : Calls 𝓤 H\n    C = 𝓣 .C\n\n    abbrev Λ : Loops 𝓤 H\n    Λ = 𝓣 .Λ\n\n' % known
        t += '    module _ (%s : ℕ) where\n      abbrev E : Env 𝓤 H\n      E = blocks-of (code.function .locals) %s\n\n      abbrev X : Type 0\n      X = Turning %s\n\n' % (self.blocks, cons(block(i) for i in range(self.count)), names)
        t += '      -- the context where the loop\'s test is reached\n      abbrev I : X → List (Item 𝓤)\n      I x = %s\n\n' % self.context('x', {})
        t += '      -- when the loop is left, the rest of the body runs\n      abbrev Left : Kit.Post 𝓤 H\n      Left = anyQ (afterBlock 𝓤 H (afterSeq 𝓤 H (Wp 𝓤 H C Λ E code-mir.t-%d (atReturn 𝓤 H E Post)) (atReturn 𝓤 H E Post)))\n\n' % self.rest
        t += '      abbrev After : X → Kit.Post 𝓤 H\n      After x = anyQ (afterTurn 𝓤 H (Below 𝓤 H A %s I x) (post 𝓤 H Left))\n\n' % self.order
        t += '      abbrev Turns : X → Type 1\n      Turns x = Sq W (I x) (runs C Λ E code-mir.turn-1 (After x))\n\n'
        t += '      ends : %s(x : X) → %s ≡ false → Turns x\n      unfolding afterTurn\n      ends %sx stopped =\n' % (hyp, self.going('x'), use) + self.ends()
        t += self.more()
        t += '      turn-at : %s(x : X) (y : Bool) → %s ≡ y → Turns x\n      turn-at %sx true e = more x e\n      turn-at %sx false e = ends %sx e\n\n' % (hyp, self.going('x'), use, use, use)
        return t + self.walk()

    def ends(self):
        cx = self.fresh()
        S, R, I = self.stage, self.result, ' ' * 10
        t = self.tested(cx, 'stopped') + I + 'leaves-loop ! (load ! (from ! (stop !)) (look ! %d refl)) $ exec ! C Λ E code-mir.t-%d (atRet E Post) $\n' % (self.pos(cx, self.test), self.rest)
        par, extra = 0, {self.test: '(vbool false)'}
        out = self.answer_of('x .at')
        for st in self.body[self.loop_at + 1:]:
            if st == 'return':
                continue
            if st[0] == 'assign':
                a, opened = self.assign(cx, st, 'x', I)
                t += I + a + '\n'
                par += opened
                d = place(st[1])[0]
                extra[d] = R.val(out) if d == 0 else self.pointer(self.refs[0][0])
            elif self.made and callee(st) == (self.made.crate, self.made.name):
                a, opened, d = self.made_for(cx, st, I)
                t += a
                par += opened
                extra[d] = self.made.result.val(self.counting['growth'])
            else:
                a, opened, d = self.counted(cx, st, I)
                t += a
                par += opened
                extra[d] = 'u'
        t += I + cx.group(['held'] + self.fin, 'fin') + 'use1 W (later (raw (Post %s))) (finish (x .at) %s (%s) end-is) $ await ! tt $\n' % (R.val(out), ' '.join('(x .%s-len)' % n for n in self.slices), self.done_is)
        t += I + 'returns ! (look ! %d refl) $ leave-all ! E (%s) (done !)%s\n' % (self.pos(cx, 0), self.slots('x', extra), ')' * par)
        t += '        where\n          end-is : %s\n          end-is = %s\n' % (R.is_(out, '(%s ∷ [])' % R.val(out)), self.field_is('x', self.answer_at))
        if self.counting and not self.made:
            k, g = self.counting['by'].counting.growth, self.counting['growth']
            t += '\n          growth-is : %s\n          growth-is = %s\n' % (k.is_(g), self.field_is('x', self.counting['index']))
        return t + '\n'

    def made_for(self, cx, st, I):
        """The call that makes what is counted from p."""
        c, k = self.made, self.made.result
        d = place(st[3])[0]

        def app(name):
            return '%s.%s 𝓤 H A mem run″ W %s' % (c.mod, name, self.carried_at('x'))

        t = I + 'use0 W (raw (%s.Called 𝓤 H A mem run″ .pre (%s))) (%s (x .is)%s) $\n' % (c.mod, app('to'), app('before'), ' ' + self.counting['made_ready'] if c.requires else '')
        cx.items.insert(0, 'pre')
        t += I + 'calls-at ! (fmOf 𝓤 H (W .laws) 𝓣) (%s.Called 𝓤 H A mem run″) known-%s (%s) %s (λ w.\n' % (c.mod, c.F, app('to'), operands(cx, items(st[2])))
        t += I + 'use1 W (later (given (%s w) (‵ ftrue))) (%s w) $ await ! tt $ learn ! (λ made. drop ! $ ' % (app('Told'), app('after'))
        cx.front(1, [])
        growth = self.counting['growth']
        t += 'land ! (from ! (stop !)) (init ! %d refl %s) $\n' % (self.pos(cx, d), k.typed(growth, '(w ∷ [])', '(subst (λ (u : Val). Is %s %s (u ∷ [])) (sym (made .value)) (made .is))' % (k.row, growth)))
        t += I + 'rewrite ! %d (λ (u : Val). ‵ (fat fullShare %s-l.mir %s 0 u)) (made .value) refl $\n' % (self.pos(cx, d), k.name, block(d))
        return t, 2, d

    def counted(self, cx, st, I):
        """The call that counts into the lent struct: the borrow is closed and passed on for good."""
        counting, c = self.counting, self.counting['by']
        n, k = self.refs[0]
        assert callee(st) == (c.crate, c.name), st
        d = place(st[3])[0]

        def app(name):
            return '%s.%s 𝓤 H A mem run″ W κ-%s q-%s γ-%s %s %s %s' % (c.mod, name, n, n, n, at(n), n, counting['growth'])

        t = I + cx.move('acc', 'ro') + 'use2 W (later (‵ (MutRef (named %d) κ-%s %s .own %s (%s ∷ [])) ⊛ ‵ (flft κ-%s q-%s))) (ref-closes %s %s 𝓤 H A W %s (named %d) κ-%s q-%s γ-%s %s %s %s %s-is′) $ await ! tt $ use1 W (raw (%s.Called 𝓤 H A mem run″ .pre (%s))) (%s %s %s) $\n' % (
            self.life[n], n, k.row, self.argument(n), self.pointer(n), n, n, k.row, at(n), k.makes(), self.life[n], n, n, n, n, n, k.vals(n), n, c.mod, app('to'), app('before'), '(made .is)' if self.made else 'growth-is', counting['room'])
        cx.front(2, ['pre'])
        t += I + 'calls-at ! (fmOf 𝓤 H (W .laws) 𝓣) (%s.Called 𝓤 H A mem run″) known-%s (%s) %s (λ u.\n' % (c.mod, c.F, app('to'), operands(cx, items(st[2])))
        t += I + 'use1 W (later (given (u ≡ vunit) (%s ⊛ %s))) (%s u) $ await ! tt $ learn ! (λ unit-is. split ! $ ' % (self.items['res'].replace('(s .', '(x .at .'), self.items['toka'], app('after'))
        cx.front(1, ['res', 'toka'])
        t += 'land ! (from ! (stop !)) (init ! %d refl (subst (λ (y : Val). T (hasTy tyUnit y) × WT y) (sym unit-is) (tt, tt))) $\n' % self.pos(cx, d)
        return t, 2, d

    def called(self, cx, c, st, args, hyps, rooms, rule, after, ind):
        """A call with the buffers' memory: the text to the point where its result is known, as told; it opens three parentheses."""
        assert callee(st) == (c.crate, c.name), (st, c.name)
        part = c.slices != self.slices
        t = ''
        if part:
            t = ind + self.taken_apart(cx) + cx.group(['c·' + n for n in c.slices], 'held') + '\n'
        t += ind + 'use1 W (later (some (λ (k : %s). raw (%s.Called 𝓤 H A mem run″ .pre (%s k)) ⊛ %s k))) (%s %s %s) $ await ! tt $ pick ! (λ k. split ! $\n' % (
            self.app(c, 'Key', args), c.mod, self.app(c, 'to', args), self.app(c, 'Out', args), self.app(c, 'before', args), ' '.join(hyps), ' '.join(rooms))
        cx.front(1, ['pre', 'out'])
        t += ind + '%s ! (fmOf 𝓤 H (W .laws) 𝓣) (%s.Called 𝓤 H A mem run″) known-%s (%s k) %s (λ w.\n' % (rule, c.mod, c.F, self.app(c, 'to', args), operands(cx, items(st[2])))
        held = '(%s)' % self.cells(c.slices, after) if part else 'Held ' + after
        t += ind + 'use2 W (later (given (%s w) (%s))) (%s k w) $ await ! tt $ learn ! (λ told.\n' % (self.app(c, 'Told', args), held, self.app(c, 'after', args))
        cx.front(2, ['held'])
        if part:
            t += ind + cx.split(['c·' + n for n in c.slices]) + cx.group(['c·' + n for n in self.slices], 'held') + cx.move(*self.front) + '\n'
        return t

    def cells(self, names, stage):
        """The memory of some of the buffers at a stage."""
        return chain('‵ (Cells %s %s %s)' % (self.row(n), at(n), self.stage.of(stage, n)) for n in names)

    def landed(self, after):
        """That what was returned is a value of the carried struct."""
        P, p = self.carried, self.stage.held(after)
        return P.typed(p, '(w ∷ [])', '(subst (λ (u : Val). Is %s %s (u ∷ [])) (sym (told .value)) (told .is))' % (P.row, p))

    def spelled(self, cx, ind):
        return ind + 'rewrite ! %d (λ (u : Val). ‵ (fat fullShare %s-l.mir %s 0 u)) (told .value) refl $\n' % (self.pos(cx, self.p), self.carried.name, block(self.p))

    def arm_text(self, cx, a, sts, ind, assigned):
        self.arm = a
        c, S, after = a['callee'], self.stage, '(%s)' % a['next']
        t, par = '', 0
        assigned = list(assigned)
        for st in sts[:-1]:
            text, opened = self.assign(cx, st, 'x', ind)
            t += ind + text + '\n'
            par += opened
            assigned.append(place(st[1])[0])
        call = sts[-1]
        for o in items(call[2]):
            local, _ = place(o[1])
            if local in self.fat:
                n = self.fat[local]
                t += ind + 'rewrite ! %d (λ (n : ℕ). ‵ (fat fullShare (sliceTy (tyRef erased %s (tyInt %s))) %s 0 (sliceVal (b-%s, o-%s) n))) (sym (x .%s-len)) refl $\n' % (
                    self.pos(cx, local), 'mut' if c.mode == 'mut' else 'imm', self.kind[n].w, block(local), n, n, n)
        given, known = a.get('args', {}), a.get('is', {})
        args = [given.get(n) or (S.of('x .at', n) if isinstance(k, Slice) else self.carried_at('x') if k.name == self.carried.name else n) for n, k in c.params]
        hyps = [known.get(n) or ('(x .is)' if k.name == self.carried.name else n + '-is') for n, k in c.plain] + ([a['ready']] if c.requires else [])
        rooms = ['(subst (Room %s) (sym (x .%s-len)) r-%s)' % (self.row(n), n, n) for n in c.slices]
        t += self.called(cx, c, call, args, hyps, rooms, 'calls-at-last', after, ind)
        par += 3
        t += ind + 'land-last ! (from ! (stop !)) (store ! %d refl %s) $\n' % (self.pos(cx, self.p), self.landed(after))
        t += ind + ' '.join('forget ! %d refl $' % self.pos(cx, d) for d in dict.fromkeys(assigned)) + '\n' + self.spelled(cx, ind)
        t += ind + 'again ! %s I x (record { at = %s; inv = %s; is = told .is; %s }) (%s)%s\n' % (
            self.order, a['next'], a['inv'], '; '.join('%s-len = %s' % (n, self.length_after(a, c, n)) for n in self.slices), a['falls'], ')' * par)
        if 'filled' in a:
            return t + self.stored_facts(a)
        n, j, size = a['list'], a['index'], self.size[a['list']]
        t += '        where\n          e : %s\n          e = getD %s %s %s\n\n          within : %s < length %s\n          within = %s\n\n          small : %s * %s < 2 ^ 64\n          small = let far : length %s * %s < 2 ^ 63 = r-%s .1 in let w : %s < length %s = %s in omega arith\n\n' % (
            dict(self.lists)[n].ty, n, j, a['none'], j, n, a['within'], j, size, n, size, n, j, n, a['within'])
        return t

    def length_after(self, a, c, n):
        """That a buffer is as long as it was, after an arm."""
        if n == a.get('filled'):
            return 'length-set %s %s (%s .%s) ∙ x .%s-len' % (self.stage.of('x .at', n), a['index'], self.carried_at('x'), a['made'][0], n)
        return 'told .%s-len ∙ x .%s-len' % (n, n) if n in c.slices and c.mode == 'mut' else 'x .%s-len' % n

    def stored_facts(self, a):
        """What an arm that stores names: the list then, that the place is in it, that the record is one, and that the offset fits."""
        n, j = a['filled'], a['index']
        k, size, old, made = self.kind[n].record, self.size[n], self.stage.of('x .at', n), '(%s .%s)' % (self.carried_at('x'), a['made'][0])
        t = '        where\n          stored : List %s\n          stored = set %s %s %s\n\n' % (k.ty, old, j, made)
        t += '          at-place : %s < length %s\n          at-place = let w : %s < length %s = %s in let e : length %s ≡ length %s = x .%s-len in omega arith\n\n' % (
            j, old, j, n, a['within'], old, n, n)
        t += '          made-is : %s\n          made-is = %s\n\n' % (k.is_(made), self.field_is('x', a['made'][1]))
        t += '          small : %s * %s < 2 ^ 64\n          small = let far : length %s * %s < 2 ^ 63 = r-%s .1 in let w : %s < length %s = %s in omega arith\n\n' % (
            j, size, n, size, n, j, n, a['within'])
        return t

    def more(self):
        rest, I = self.turn[2:], ' ' * 10
        head = '      more : (x : X) → %s ≡ true → Turns x\n      unfolding afterTurn\n      more x go =\n' % self.going('x')
        if len(self.arms) == 1:
            cx = self.fresh()
            t = head + self.tested(cx, 'go') + I + 'stays ! (load ! (from ! (stop !)) (look ! %d refl)) $\n' % self.pos(cx, self.test)
            return t + self.arm_text(cx, self.arms[0], rest, I, [self.test])
        flag = '%s .%s' % (self.carried_at('x')[1:-1], self.flag)
        cond = rest[-1]
        assert cond[0] == 'if', cond
        read = [place(st[1])[0] for st in rest[:-1]]
        extra = {self.test: '(vbool true)'}
        extra.update({d: '(vbool (%s))' % flag for d in read})
        t = '      -- the context where an arm begins\n      abbrev J : X → List (Item 𝓤)\n      J x = %s\n\n' % self.context('x', extra)
        for a, value, body in zip(self.arms, ('true', 'false'), (flat(cond[2]), flat(cond[3]))):
            cx = self.fresh()
            self.filled = {self.test, *read}
            t += '      %s : (x : X) → %s ≡ true → %s ≡ %s → Sq W (J x) (runs C Λ E %s (After x))\n      unfolding afterTurn\n      %s x go flag =\n' % (a['name'], self.going('x'), flag, value, a['body'], a['name'])
            t += self.arm_text(cx, a, body, I, [self.test] + read)
        cx = self.fresh()
        t += head + self.tested(cx, 'go') + I + 'stays ! (load ! (from ! (stop !)) (look ! %d refl)) $\n' % self.pos(cx, self.test)
        for st in rest[:-1]:
            t += I + self.assign(cx, st, 'x', I)[0] + '\n'
        return t + I + 'branches ! %s (λ h. %s x go (holds (%s) h)) (λ h. %s x go (fails (%s) h))\n\n' % (operand(cx, cond[1]), self.arms[0]['name'], flag, self.arms[1]['name'], flag)

    def walk(self):
        F, I, S = self.F, ' ' * 8, self.stage
        passed = ' ∷ '.join(self.value(n) for n, k in self.params)
        names = ' '.join(self.inv_params)
        t = '    walk : ent 𝓤 (onEntry 𝓤 H A %s.signature %s %s args at) (WpFn 𝓤 H C Λ code.function (%s ∷ []) Post)\n    walk =\n' % (F, self.κs, self.qs, passed)
        t += I + 'qed W (Toks ∷ Owns ∷ []) ∵ enter ! C Λ code.function (%s ∷ []) _ $\n' % passed
        t += I + 'alloc-all ! (code.function .locals) (λ %s. params1 ! $\n' % self.blocks
        par = 1
        for i, (n, k) in enumerate(self.params):
            typed = k.typed(n, k.vals(n), n + '-is') if isinstance(k, Kind) else '(tt, tt)' if is_ref(k) else '(tt, (tt, (record { fits = r-%s .0 }, tt)))' % n
            t += I + 'pass1 ! (init ! %d refl %s) $\n' % (i + 1, typed)
        self.fresh()
        cx = Context(['_%d' % i for i in range(self.count)] + ['dies', 'toks', 'owns'])
        t += I + 'pass0 ! $ ' + cx.move('toks', 'owns')
        all_of_it = '((%s) ⊛ Rest)' % self.held(self.slices)
        if self.refs:
            t += 'use2 W (later (given %s %s)) opens-all $ await ! tt $ learn ! (λ %s-is. ' % (self.struct_is(), all_of_it, self.refs[0][0])
            par += 1
        else:
            t += 'use2 W (later %s) opens-all $ await ! tt $ ' % all_of_it
        cx.front(2, ['all'])
        t += cx.split(self.front) + cx.move(*self.front) + '\n'
        assigned = []
        for st in self.body[:self.loop_at]:
            if st[0] == 'assign':
                t += I + self.assign(cx, st, None, I)[0] + '\n'
                assigned.append(place(st[1])[0])
                continue
            c = self.begin
            args = [self.begin_args.get(n) or n for n, k in c.params]
            hyps = [self.begin_is.get(n) or n + '-is' for n, k in c.plain] + ([self.begin_ready] if c.requires else [])
            t += self.called(cx, c, st, args, hyps, ['r-' + n for n in c.slices], 'calls-at', self.first, I)
            par += 3
            t += I + 'land ! (from ! (stop !)) (init ! %d refl %s) $\n' % (self.pos(cx, self.p), self.landed(self.first)) + self.spelled(cx, I)
        t += I + ' '.join('forget ! %d refl $' % self.pos(cx, d) for d in assigned) + '\n'
        t += I + 'first ! $ into-block ! $ loops ! 𝓣 %s (wf %s) (I %s) (λ x. turn-at %s%s x (%s) refl)\n' % (
            self.order, names, self.blocks, self.blocks, ' %s-is' % self.refs[0][0] if self.refs else '', self.going('x'))
        t += I + '(record { at = %s; inv = %s; is = told .is; %s })%s\n\n' % (
            self.first, self.inv_start, '; '.join('%s-len = %s' % (n, 'told .%s-len' % n if self.begin.mode == 'mut' and n in self.begin.slices else 'refl') for n in self.slices), ')' * par)
        return t

    # ---- the contract
    def contract(self):
        F, many = self.F, len(self.lent)
        number = {n: i for i, (n, k) in enumerate(self.params)}

        def life(n):
            return nth(self.life[n], 'κs') + ')'

        spells = nest(k.spells() if isinstance(k, Kind) else 'ptr-vals' if is_ref(k) else 'slice-vals' for n, k in self.params)
        tells = nest(k.tells() if isinstance(k, Kind) else '(%s (named %d) %s %s)' % (
            'mut-tells' if is_ref(k) else 'shr-slice-tells' if is_list(k) else 'mut-slice-tells', self.life[n], life(n), self.row(n)) for n, k in self.params)
        given = [life(n) for n in self.lent] + [nth(i, 'qs') + ')' for i in range(many)]
        given += ['%s .ptr .%d)' % (nth(number[n], 'a'), i) for n in self.lent for i in (0, 1)] + ['%s .name)' % nth(number[n], 'a') for n in self.lent]
        given += [nth(number[n], 'a') + (')' if isinstance(k, Kind) else ' .now)') for n, k in self.params]
        given += [nth(number[n], 'are') + ')' for n, k in self.plain] + [nth(number[n], 'are') + ' .0 .1)' for n in self.lent if not is_ref(self.kind[n])]
        return contract(self.here, F, spells, tells, given, self.goes, self.callees)
