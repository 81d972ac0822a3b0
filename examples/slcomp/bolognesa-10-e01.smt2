; Ten list segments and cells, of which others are joined: it holds.
(set-logic QF_SHLS)

(set-info :source |
J. A. Navarro Perez and A. Rybalchenko. Separation Logic + Superposition Calculus = Heap Theorem Prover. PLDI 2011.
Not a file of SL-COMP: written from memory, in the manner of its family.
|)
(set-info :smt-lib-version 2.6)
(set-info :category "random")
(set-info :status unsat)
(set-info :version "2026-11-30")

; truth: valid by a decision procedure for lists, which splits all cases

; Sorts for locations
(declare-sort RefSll_t 0)

; Types of cells
(declare-datatypes (
	(Sll_t 0)
	) (
	((c_Sll_t (next RefSll_t)))
	)
)

; Type of heap
(declare-heap (RefSll_t Sll_t)
)

; User-defined predicates
(define-fun-rec ls ((in RefSll_t) (out RefSll_t)) Bool
	(or
		(and (= in out)
			(_ emp RefSll_t Sll_t)
		)

		(exists ((u RefSll_t))
			(and (distinct in out)
				(sep
					(pto in (c_Sll_t u))
					(ls u out)
				)
			)
		)
	)
)

;; variables
(declare-const x1 RefSll_t)
(declare-const x2 RefSll_t)
(declare-const x3 RefSll_t)
(declare-const x4 RefSll_t)
(declare-const x5 RefSll_t)
(declare-const x6 RefSll_t)
(declare-const x7 RefSll_t)
(declare-const x8 RefSll_t)
(declare-const x9 RefSll_t)
(declare-const x10 RefSll_t)

(assert
	(and
		(distinct x2 x10)
		(sep
			(ls x9 x8)
			(pto x3 (c_Sll_t x5))
			(pto x6 (c_Sll_t x9))
			(pto x8 (c_Sll_t x4))
			(ls x2 x6)
			(pto x4 (c_Sll_t x3))
			(pto x5 (c_Sll_t x10))
			(ls x1 (as nil RefSll_t))
			(pto x7 (c_Sll_t x2))
			(ls x10 x7)
		)
	)
)

(assert (not
	(sep
			(pto x6 (c_Sll_t x9))
			(ls x2 x6)
			(ls x1 (as nil RefSll_t))
			(ls x10 x2)
			(ls x9 x4)
			(ls x4 x5)
			(pto x5 (c_Sll_t x10))
		)
))

(check-sat)
