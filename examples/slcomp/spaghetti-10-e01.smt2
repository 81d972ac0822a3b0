; Is there no heap with these list segments? Asked as an entailment of false.
(set-logic QF_SHLS)

(set-info :source |
J. A. Navarro Perez and A. Rybalchenko. Separation Logic + Superposition Calculus = Heap Theorem Prover. PLDI 2011.
Not a file of SL-COMP: written from memory, in the manner of its family.
|)
(set-info :smt-lib-version 2.6)
(set-info :category "random")
(set-info :status unsat)
(set-info :version "2026-11-30")

; truth: no case split of the list segments is consistent (a decision procedure for lists)

; Sorts for locations
(declare-sort RefSll_t 0)

; Types of cells
(declare-datatypes (
	(Sll_t 0)
	) (
	((c_Sll_t (next RefSll_t)))
	)
)

; Type of heap
(declare-heap (RefSll_t Sll_t)
)

; User-defined predicates
(define-fun-rec ls ((in RefSll_t) (out RefSll_t)) Bool
	(or
		(and (= in out)
			(_ emp RefSll_t Sll_t)
		)

		(exists ((u RefSll_t))
			(and (distinct in out)
				(sep
					(pto in (c_Sll_t u))
					(ls u out)
				)
			)
		)
	)
)

;; variables
(declare-const x1 RefSll_t)
(declare-const x2 RefSll_t)
(declare-const x3 RefSll_t)
(declare-const x4 RefSll_t)
(declare-const x5 RefSll_t)
(declare-const x7 RefSll_t)
(declare-const x8 RefSll_t)
(declare-const x9 RefSll_t)
(declare-const x10 RefSll_t)

(assert
	(and
		(distinct x1 x7)
		(distinct x5 x10)
		(distinct x2 x10)
		(distinct x1 x8)
		(distinct x3 x4)
		(sep
			(ls x5 x7)
			(ls x9 x7)
			(ls x2 x10)
			(ls x2 x3)
			(ls x4 x7)
			(ls x4 x5)
			(ls x9 x2)
			(ls x7 x10)
			(ls x2 x7)
		)
	)
)

(assert (not false))

(check-sat)
