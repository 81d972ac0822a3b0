; The same family: it does not hold.
(set-logic QF_SHLS)

(set-info :source |
J. A. Navarro Perez and A. Rybalchenko. Separation Logic + Superposition Calculus = Heap Theorem Prover. PLDI 2011.
Not a file of SL-COMP: written from memory, in the manner of its family.
|)
(set-info :smt-lib-version 2.6)
(set-info :category "random")
(set-info :status sat)
(set-info :version "2026-11-30")

; truth: counter-model: stack x1=1 x2=2 x3=1 x4=3 x5=1 x6=4 x7=5 x8=4 x9=6 x10=1; heap 1->3, 2->0, 3->6, 4->4, 5->1, 6->5

; Sorts for locations
(declare-sort RefSll_t 0)

; Types of cells
(declare-datatypes (
	(Sll_t 0)
	) (
	((c_Sll_t (next RefSll_t)))
	)
)

; Type of heap
(declare-heap (RefSll_t Sll_t)
)

; User-defined predicates
(define-fun-rec ls ((in RefSll_t) (out RefSll_t)) Bool
	(or
		(and (= in out)
			(_ emp RefSll_t Sll_t)
		)

		(exists ((u RefSll_t))
			(and (distinct in out)
				(sep
					(pto in (c_Sll_t u))
					(ls u out)
				)
			)
		)
	)
)

;; variables
(declare-const x1 RefSll_t)
(declare-const x2 RefSll_t)
(declare-const x3 RefSll_t)
(declare-const x4 RefSll_t)
(declare-const x5 RefSll_t)
(declare-const x6 RefSll_t)
(declare-const x7 RefSll_t)
(declare-const x8 RefSll_t)
(declare-const x9 RefSll_t)
(declare-const x10 RefSll_t)

(assert
	(and
		(distinct x1 x8)
		(distinct x1 x7)
		(sep
			(pto x4 (c_Sll_t x9))
			(pto x8 (c_Sll_t x6))
			(ls x5 x10)
			(ls x1 x5)
			(pto x7 (c_Sll_t x1))
			(ls x10 x3)
			(pto x9 (c_Sll_t x7))
			(pto x2 (c_Sll_t (as nil RefSll_t)))
			(ls x6 x8)
			(pto x3 (c_Sll_t x4))
		)
	)
)

(assert (not
	(sep
			(ls x1 x5)
			(ls x5 x1)
			(ls x6 x8)
			(pto x2 (c_Sll_t (as nil RefSll_t)))
			(pto x8 (c_Sll_t x6))
		)
))

(check-sat)
