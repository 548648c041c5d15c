"""The text of the walk of a function that counts into a lent struct, and of a call of it that gives the struct up for good.

    pub fn grow_lent(account: &mut Account, growth: Account)
        requires { ⌜ GrowthFits (now account) growth ⌝ }
        ensures { λ _. ⌜ now (account .exit) ≡ grown (now (account .entry)) growth ⌝ }
    {
        *account = grow(*account, growth);
    }
"""
from parts import *
from call import Callee


class Counting:
    """The function. crate, name: its own. counter: (crate, name) of the covered function that it calls. account, growth: Kinds.
    room, grown: what the contracts of both say, by these names. cites: what these two are (parts.spec_uses)."""

    def __init__(self, crate, name, counter, account, growth, room, grown, cites):
        self.__dict__.update({k: v for k, v in locals().items() if k != 'self'})
        self.F = dashed(name)
        self.key = '#%s·%s' % (crate, self.F)

    def head(self, here):
        return HEAD + kind_uses(here, [self.account, self.growth]) + spec_uses(here, self.cites)

    def text(self):
        """proofs/NAME/Proof.antt of its crate: the walk."""
        T, B, F, here = self.account, self.growth, self.F, self.crate
        C, c = self.counter
        G = dashed(c)
        key = '#%s·%s' % (C, G)
        p = '%s.%s' % (proofs(here, C), c)
        own = '%s.%s' % (proofs(here, here), self.name)
        t = '-- `%s::%s` meets its contract: a walk of its MIR, by hand. The borrow of the struct is opened, the struct is copied out and passed to `%s`, and what that returns is stored; the borrow is closed at it.\n-- Assumes nothing.\n' % (here, self.name, c)
        t += self.head(here)
        t += 'use %s as %s\nuse %s.Symbol as %s-def\nuse %s.Symbol.{name as %s}\nuse %s.Met as %s-thm\n' % (p, G, p, G, p, key, p, G)
        t += 'use %s.Key.{name as %s}\nuse %s as %s\nuse %s.Statement as stated\nuse %s.Code as code\n\n' % (own, self.key, own, F, own, own)
        names = dict(F=F, G=G, key=key, own=self.key, calls=calls(C, c), T=T.ty, B=B.ty, Trow=T.row, Brow=B.row, Ttl=T.tl, Btl=B.tl, Tsp=T.spells(), Tte=T.tells(), Bsp=B.spells(), Bte=B.tells(), Tmk=T.makes(), Bmk=B.makes(),
                     hvals=T.vals('h'), nvals=B.vals('n'), nval=B.val('n'), room=self.room, grown=self.grown, Tis=T.is_('h'), Bis=B.is_('n'), Tty=T.typed('h', '_', 'h-is'), Rty=T.typed('r', '_', 'is'), Bty=B.typed('n', '_', 'n-is'))
        return prune(t + (WALK % names))


class CountingCall:
    """A call of it. counting: its Counting. here: the caller's crate. kit: the crate of Opening. mod: the file to write."""

    def __init__(self, counting, here, kit, mod):
        self.counting, self.here, self.kit, self.mod = counting, here, kit, mod
        self.crate, self.name, self.F, self.key = counting.crate, counting.name, counting.F, counting.key
        self.calls = calls(self.crate, self.name)

    uses = Callee.uses

    def text(self):
        """proofs/CALLER/Proof/MOD.antt of the caller's crate."""
        c, here, F = self.counting, self.here, self.F
        T, B = c.account, c.growth
        t = '-- The call of `%s` where the borrow is not needed any more: it is passed on at its own lifetime, share and name, and what is had after the call is what says its last value.\n-- Assumes `Given`.\n' % self.name
        t += c.head(here) + kit_uses(here, self.kit) + 'use %s.%s as %s\n\n' % (proofs(here, self.crate), self.name, F)
        names = dict(F=F, T=T.ty, B=B.ty, Trow=T.row, Brow=B.row, nvals=B.vals('n'), Bis=B.is_('n'), room=c.room, grown=c.grown, Bow=B.owned('n', 'n-is'))
        return prune(t + (CALL % names))


WALK = '''abbrev stayed : Stays (%(F)s.ended .signature .params) (%(F)s.ended .kept)
stayed = (stay-ref (0 ∷ []) tt (plain (λ _. %(Trow)s)), (stay-none (λ _. %(Brow)s) yes, tt))

module _ {M : Type 1} (𝓤 : URA M) (H : Heap 𝓤) (A : Atoms 𝓤) (mem : Memory → SProp 𝓤) (run″ : Routine → Fun 𝓤) where
  -- the contract that the proof cites
  abbrev Counted : Contract 𝓤
  Counted = tripleOf 𝓤 H A %(G)s.signature (%(G)s.spec 𝓤 H A mem run″)

  -- of the callee's `ensured`, the clause alone
  counted-of : (h : %(T)s) (n : %(B)s) (r : %(T)s) → ent 𝓤 (ensured 𝓤 H A %(G)s.ended (%(G)s.clauses 𝓤 H A mem run″) tt (h, (n, tt)) tt r) (fact 𝓤 (r ≡ %(grown)s h n))
  counted-of h n r = exE 𝓤 _ (λ ws. snd∗ 𝓤 (sem 𝓤 H A (lasts %(G)s.ended tt (h, (n, tt)) ws)) (fact 𝓤 (r ≡ %(grown)s h n)))

module _ {M : Type 1} (𝓤 : URA M) (H : Heap 𝓤) (A : Atoms 𝓤) (W : Given 𝓤 H A) (mem : Memory → SProp 𝓤) (run″ : Routine → Fun 𝓤) (κ : Lft) (q : Share) (b o : ℕ) (γ : GName) (h : %(T)s) (n : %(B)s) (n-is : %(Bis)s) where
  abbrev Arg : Type 0
  Arg = RefT %(T)s × (%(B)s × Unit {0})

  abbrev x : Arg
  x = (record { ptr = (b, o); name = γ; now = h }, (n, tt))

  abbrev at : List Val × (List Val × Unit {0})
  at = (vptr b o ∷ [], (%(nvals)s, tt))

  abbrev Post : Val → SProp 𝓤
  Post = walkOf 𝓤 H A %(F)s.ended stayed (%(F)s.clauses 𝓤 H A mem run″) .post (((κ, tt), (q, tt), tt, x, at), tt)

  exits : (r : %(T)s) → r ≡ %(grown)s h n → ent 𝓤 (sep 𝓤 (A .obs γ (%(Trow)s .coded .code r)) (sep 𝓤 (A .bor κ (Body (memory-of %(Trow)s) b o γ)) (A .lft κ q))) (Post vunit)
  exits r e =
      qed W (‵ (fobs γ (%(Trow)s .coded .code r)) ∷ ‵ (fbor κ (Body (memory-of %(Trow)s) b o γ)) ∷ ‵ (flft κ q) ∷ []) ∵
      suffices ! _ (ends-at 𝓤 H A %(F)s.ended stayed (%(F)s.clauses 𝓤 H A mem run″) W (((κ, tt), (q, tt), tt, x, at), tt) vunit tt (r, (tt, tt)) (tt, (tt, tt))) $ says ! e $ nothing ! $ move ! (3 ∷ 0 ∷ []) $ join ! $
      frame ! $ feqI ! (List Val) (vptr b o ∷ []) (vptr b o ∷ []) refl $ fjoin3 ! $ nothing ! $ owned ! %(Brow)s (Is %(Brow)s) %(Bmk)s n _ n-is $ fjoin ! $ move ! (1 ∷ 0 ∷ []) $ fjoin ! $
      feqI ! (List Val) (vunit ∷ []) (vunit ∷ []) refl $ move ! (1 ∷ 0 ∷ []) $ done !

  abbrev to : Counted 𝓤 H A mem run″ .Ghost
  to = ((tt, tt, tt, (h, (n, tt)), (%(hvals)s, (%(nvals)s, tt))), tt)

  asked : %(room)s h n → %(Tis)s → ent 𝓤 (emp 𝓤) (Counted 𝓤 H A mem run″ .pre to)
  asked room h-is =
      qed W [] ∵ says ! room $ nothing ! $ frame ! $ nothing ! $ owned ! %(Brow)s (Is %(Brow)s) %(Bmk)s n _ n-is $ fjoin ! $
      owned ! %(Trow)s (Is %(Trow)s) %(Tmk)s h _ h-is $ fjoin ! $ done !

  module _ (C : Calls 𝓤 H) (Λ : Loops 𝓤 H) (fm : FmC 𝓤 H (W .laws) C) (known : Triple 𝓤 (C %(key)s) (Counted 𝓤 H A mem run″)) where
    walk : %(room)s h n → ent 𝓤 (onEntry 𝓤 H A %(F)s.signature (κ, tt) (q, tt) x at) (WpFn 𝓤 H C Λ code.function (vptr b o ∷ %(nval)s ∷ []) Post)
    walk room =
        qed W ((‵ (flft κ q) ⊛ ‵ ftrue) ∷ ‵ (owns (MutRef (named 0) κ %(Trow)s ∷ %(Brow)s ∷ []) x at) ∷ []) ∵ enter ! C Λ code.function (vptr b o ∷ %(nval)s ∷ []) _ $
        alloc1 ! (λ l₀. alloc1 ! (λ l₁. alloc1 ! (λ l₂. alloc1 ! (λ l₃. alloc1 ! (λ l₄. alloc0 ! $ params1 ! $ pass1 ! (init ! 6 refl (tt, tt)) $
        pass1 ! (init ! 4 refl %(Bty)s) $ pass0 ! $
        -- the borrow is opened
        move ! (11 ∷ []) $ fsplit ! $ fsplit3 ! $ drop ! $ move ! (13 ∷ []) $ split ! $ move ! (2 ∷ 3 ∷ 0 ∷ []) $
        opens ! tt %(Trow)s {h = h} b o (λ vs. spelt ! %(Trow)s (Is %(Trow)s) (shows 𝓤 H A %(Trow)s) %(Tsp)s %(Tte)s fullShare h vs b o $
        move ! (1 ∷ []) $ peeks ! %(Trow)s (Is %(Trow)s) (shows 𝓤 H A %(Trow)s) h %(hvals)s (λ h-is. move ! (1 ∷ 0 ∷ []) $
        -- [the struct's cell; what it owns; the open borrow; obs; auth; true; what the second parameter owns; _4; …; _3; …; _2; …; _1; …; room for _0; …]
        assigns ! (of-opd ! (load ! (from ! (hop ! (look ! 13 refl) (stop !))) (look-raw ! 0 refl))) (from ! (stop !)) (init ! 7 refl %(Tty)s) $
        use0 W (raw (Counted 𝓤 H A mem run″ .pre to)) (asked room h-is) $
        calls-at ! fm (Counted 𝓤 H A mem run″) known to (and-then ! (load ! (from ! (stop !)) (look ! 8 refl)) (and-then ! (load ! (from ! (stop !)) (look ! 12 refl)) (no-more !))) (λ w.
        use1 W (later (some (λ (r : %(T)s). (‵ ftrue ⊛ ‵ (%(Trow)s .own r (w ∷ []))) ⊛ raw (ensured 𝓤 H A %(G)s.ended (%(G)s.clauses 𝓤 H A mem run″) tt (h, (n, tt)) tt r)))) (id⊢ 𝓤 _) $ await ! tt $ pick ! (λ r.
        split ! $ move ! (1 ∷ []) $ use1 W (raw (fact 𝓤 (r ≡ %(grown)s h n))) (counted-of 𝓤 H A mem run″ h n r) $ heard ! (r ≡ %(grown)s h n) (λ e. split ! $ drop ! $
        peeks ! %(Trow)s (Is %(Trow)s) (shows 𝓤 H A %(Trow)s) r (w ∷ []) (λ is.
        land ! (from ! (stop !)) (init ! 10 refl %(Rty)s) $
        assigns ! (of-opd ! (load ! (from ! (stop !)) (look ! 10 refl))) (from ! (hop ! (look ! 14 refl) (stop !))) (store-raw ! 1 refl %(Rty)s) $
        assigns ! (of-opd ! (unit-lit !)) (from ! (stop !)) (init ! 16 refl (tt, tt)) $
        move ! (1 ∷ 0 ∷ 3 ∷ 4 ∷ 5 ∷ []) $ closes ! tt %(Trow)s r (w ∷ []) b o $
        returns ! (look ! 14 refl) $ forget ! 6 refl $ forget ! 8 refl $ forget ! 10 refl $ forget ! 12 refl $ forget ! 14 refl $
        move ! (14 ∷ 15 ∷ []) $ free1 ! $ move ! (12 ∷ 13 ∷ []) $ free1 ! $ move ! (10 ∷ 11 ∷ []) $ free1 ! $ move ! (8 ∷ 9 ∷ []) $ free1 ! $ move ! (6 ∷ 7 ∷ []) $ free1 ! $ free0 ! $
        keep ! (0 ∷ 1 ∷ 2 ∷ []) $ by ! (exits r e))))))))))))

module _ {M : Type 1} (𝓤 : URA M) (H : Heap 𝓤) (A : Atoms 𝓤) (W : Given 𝓤 H A) (mem : Memory → SProp 𝓤) (run″ : Routine → Fun 𝓤) where
  %(F)s-walks : (C : Calls 𝓤 H) (Λ : Loops 𝓤 H) → FmC 𝓤 H (W .laws) C → Triple 𝓤 (C %(key)s) (Counted 𝓤 H A mem run″) → Walks 𝓤 H A %(F)s.ended stayed (WpFn 𝓤 H C Λ code.function) (%(F)s.clauses 𝓤 H A mem run″)
  %(F)s-walks C Λ fm known = walked 𝓤 H A %(F)s.ended stayed (%(F)s.clauses 𝓤 H A mem run″) (WpFn 𝓤 H C Λ code.function) (λ κs. (ptr-vals, (%(Bsp)s, tt))) (λ κs. (mut-tells (named 0) (κs .0) %(Trow)s, (%(Bte)s, tt)))
      (λ κs qs bounds a g are. needs 𝓤 (%(room)s (a .0 .now) (a .1 .0)) _ (λ room. walk 𝓤 H A W mem run″ (κs .0) (qs .0) (a .0 .ptr .0) (a .0 .ptr .1) (a .0 .name) (a .0 .now) (a .1 .0) (are .1 .0) C Λ fm known room))

%(F)s-meets : {M : Type 1} (𝓤 : URA M) (H : Heap 𝓤) (A : Atoms 𝓤) → Given 𝓤 H A → (mem : Memory → SProp 𝓤) (run″ : Routine → Fun 𝓤) (𝓣 : Tables 𝓤 H) → Triple 𝓤 (𝓣 .C %(key)s) (Counted 𝓤 H A mem run″)
    → Meets 𝓤 H A %(F)s.signature (WpFn 𝓤 H (𝓣 .C) (𝓣 .Λ) code.function) (%(F)s.spec 𝓤 H A mem run″)
%(F)s-meets 𝓤 H A W mem run″ 𝓣 known =
    walk-meets 𝓤 H A %(F)s.ended stayed W (goes-ref 𝓤 H A W 1 0 tt (plain (λ _. %(Trow)s)), (goes-none 𝓤 H A W 1 (λ _. %(Brow)s) yes (λ κs x f. refl), tt)) (%(F)s.clauses 𝓤 H A mem run″)
    (WpFn 𝓤 H (𝓣 .C) (𝓣 .Λ) code.function) (WpFn-mono 𝓤 H (W .laws) 𝓣 code.function) (%(F)s-walks 𝓤 H A W mem run″ (𝓣 .C) (𝓣 .Λ) (fmOf 𝓤 H (W .laws) 𝓣) known)

pub %(F)s-spec : {M : Type 1} → stated.statement M
unfolding code.routine tablesOf
%(F)s-spec 𝓤 H 𝓜 𝓖 𝓡 =
    entered 𝓤 H (tripleOf 𝓤 H (𝓖 .A) %(F)s.signature (%(F)s.spec 𝓤 H (𝓖 .A) (𝓜 .mem) (𝓡 .run)))
    (tables 𝓤 H 𝓜 𝓡 code.env .C) (tables 𝓤 H 𝓜 𝓡 code.env .Λ) %(own)s code.function (code.unfolded 𝓤 H 𝓜 𝓡)
    (%(F)s-meets 𝓤 H (𝓖 .A) (givenOf 𝓤 H 𝓜 𝓖) (𝓜 .mem) (𝓡 .run) (tablesOf 𝓤 H 𝓜 (tables 𝓤 H 𝓜 𝓡 code.env))
    (cited 𝓤 H (Counted 𝓤 H (𝓖 .A) (𝓜 .mem) (𝓡 .run)) 𝓜 𝓡 code.env %(key)s %(G)s-def.routine %(calls)s (%(G)s-thm.met 𝓤 H 𝓜 𝓖 𝓡)))
'''

CALL = '''module _ {M : Type 1} (𝓤 : URA M) (H : Heap 𝓤) (A : Atoms 𝓤) (mem : Memory → SProp 𝓤) (run″ : Routine → Fun 𝓤) where
  abbrev pub Called : Contract 𝓤
  Called = tripleOf 𝓤 H A %(F)s.signature (%(F)s.spec 𝓤 H A mem run″)

  module _ (W : Given 𝓤 H A) (κ : Lft) (q : Share) (γ : GName) (b o : ℕ) (a : %(T)s) (n : %(B)s) where
    abbrev pub to : Called .Ghost
    to = (((κ, tt), (q, tt), tt, (at-value %(Trow)s b o γ a, (n, tt)), (vptr b o ∷ [], (%(nvals)s, tt))), tt)

    pub before : %(Bis)s → %(room)s a n → ent 𝓤 (sep 𝓤 (sem 𝓤 H A (MutRef (named 0) κ %(Trow)s .own (at-value %(Trow)s b o γ a) (vptr b o ∷ []))) (A .lft κ q)) (Called .pre to)
    before n-is room =
        qed W (‵ (MutRef (named 0) κ %(Trow)s .own (at-value %(Trow)s b o γ a) (vptr b o ∷ [])) ∷ ‵ (flft κ q) ∷ []) ∵ says ! room $
        nothing ! $ %(Bow)sfjoin ! $ move ! (1 ∷ 0 ∷ []) $ fjoin ! $ nothing ! $ move ! (2 ∷ 0 ∷ []) $ join ! $ frame ! $ done !

    pub after : (w : Val) → ent 𝓤 (Called .post to w) (H .⇛ (guard 𝓤 (w ≡ vunit) (sep 𝓤 (A .res γ (%(Trow)s .coded .code (%(grown)s a n))) (A .lft κ q))))
    after w =
        qed W (raw (Called .post to w) ∷ []) ∵ updating ! $
        use1 W (later (some (λ (r : Unit {0}). ((‵ (flft κ q) ⊛ ‵ ftrue) ⊛ ‵ (unit .own r (w ∷ []))) ⊛ raw (ensured 𝓤 H A %(F)s.ended (%(F)s.clauses 𝓤 H A mem run″) (κ, tt) (to .0 .3) tt r)))) (id⊢ 𝓤 _) $ await ! tt $ pick ! (λ r.
        split ! $ move ! (1 ∷ []) $ use1 W (some (λ (zs : %(T)s × (Unit {0} × Unit {0})). ‵ (lasts %(F)s.ended (κ, tt) (to .0 .3) zs) ⊛ raw (fact 𝓤 (zs .0 ≡ %(grown)s a n)))) (id⊢ 𝓤 _) $ pick ! (λ zs.
        split ! $ move ! (1 ∷ []) $ heard ! (zs .0 ≡ %(grown)s a n) (λ e. fsplit ! $ rewrite ! 0 (λ (h : %(T)s). ‵ (fres γ (%(Trow)s .coded .code h))) e refl $
        move ! (2 ∷ []) $ split ! $ move ! (1 ∷ []) $ facts ! unit (Is unit) (shows 𝓤 H A unit) r (w ∷ []) (λ is. split ! $ at-once ! $ check ! (ap only is) $ keep ! (2 ∷ 0 ∷ []) $ done !))))
'''
