; Three list segments in a ring: can that be?
(set-logic QF_SHLS)

(set-info :source |
J. A. Navarro Perez and A. Rybalchenko. Separation Logic + Superposition Calculus = Heap Theorem Prover. PLDI 2011.
Not a file of SL-COMP: written from memory, in the manner of its family.
|)
(set-info :smt-lib-version 2.6)
(set-info :category "crafted")
(set-info :status sat)
(set-info :version "2026-11-30")

; truth: model: stack x=1 y=2 z=3; heap 1->4, 2->5, 3->6, 4->2, 5->3, 6->1

; Sorts for locations
(declare-sort RefSll_t 0)

; Types of cells
(declare-datatypes (
	(Sll_t 0)
	) (
	((c_Sll_t (next RefSll_t)))
	)
)

; Type of heap
(declare-heap (RefSll_t Sll_t)
)

; User-defined predicates
(define-fun-rec ls ((in RefSll_t) (out RefSll_t)) Bool
	(or
		(and (= in out)
			(_ emp RefSll_t Sll_t)
		)

		(exists ((u RefSll_t))
			(and (distinct in out)
				(sep
					(pto in (c_Sll_t u))
					(ls u out)
				)
			)
		)
	)
)

;; variables
(declare-const x RefSll_t)
(declare-const y RefSll_t)
(declare-const z RefSll_t)

(assert
	(and
		(distinct x y)
		(distinct y z)
		(distinct x z)
		(sep
			(ls x y)
			(ls y z)
			(ls z x)
		)
	)
)

(check-sat)
