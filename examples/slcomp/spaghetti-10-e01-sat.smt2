; List segments between ten names: can that be?
(set-logic QF_SHLS)

(set-info :source |
J. A. Navarro Perez and A. Rybalchenko. Separation Logic + Superposition Calculus = Heap Theorem Prover. PLDI 2011.
Not a file of SL-COMP: written from memory, in the manner of its family.
|)
(set-info :smt-lib-version 2.6)
(set-info :category "random")
(set-info :status sat)
(set-info :version "2026-11-30")

; truth: model: stack x1=1 x2=2 x3=2 x4=3 x5=1 x6=2 x7=4 x8=1 x9=2 x10=1; heap 1->6, 2->5, 3->7, 5->1, 6->2, 7->1

; Sorts for locations
(declare-sort RefSll_t 0)

; Types of cells
(declare-datatypes (
	(Sll_t 0)
	) (
	((c_Sll_t (next RefSll_t)))
	)
)

; Type of heap
(declare-heap (RefSll_t Sll_t)
)

; User-defined predicates
(define-fun-rec ls ((in RefSll_t) (out RefSll_t)) Bool
	(or
		(and (= in out)
			(_ emp RefSll_t Sll_t)
		)

		(exists ((u RefSll_t))
			(and (distinct in out)
				(sep
					(pto in (c_Sll_t u))
					(ls u out)
				)
			)
		)
	)
)

;; variables
(declare-const x1 RefSll_t)
(declare-const x2 RefSll_t)
(declare-const x3 RefSll_t)
(declare-const x4 RefSll_t)
(declare-const x5 RefSll_t)
(declare-const x6 RefSll_t)
(declare-const x7 RefSll_t)
(declare-const x8 RefSll_t)
(declare-const x9 RefSll_t)
(declare-const x10 RefSll_t)

(assert
	(and
		(distinct x3 x5)
		(distinct x2 x10)
		(distinct x5 x7)
		(distinct x4 x10)
		(distinct x7 x9)
		(sep
			(ls x5 x1)
			(ls x2 x9)
			(ls x5 x10)
			(ls x9 x6)
			(ls x9 x2)
			(ls x3 x1)
			(ls x10 x1)
			(ls x3 x9)
			(ls x10 x8)
			(ls x10 x6)
			(ls x4 x1)
			(ls x3 x6)
		)
	)
)

(check-sat)
