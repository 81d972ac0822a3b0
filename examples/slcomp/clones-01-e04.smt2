; A step of a program: a cell is put into a list.
(set-logic QF_SHLS)

(set-info :source |
J. A. Navarro Perez and A. Rybalchenko. Separation Logic + Superposition Calculus = Heap Theorem Prover. PLDI 2011.
Not a file of SL-COMP: written from memory, in the manner of its family.
|)
(set-info :smt-lib-version 2.6)
(set-info :category "crafted")
(set-info :status unsat)
(set-info :version "2026-11-30")

; insert behind p. truth: one copy is valid by a decision procedure for lists, which splits all cases; copies side by side follow by A |- B, C |- D => A * C |- B * D

; Sorts for locations
(declare-sort RefSll_t 0)

; Types of cells
(declare-datatypes (
	(Sll_t 0)
	) (
	((c_Sll_t (next RefSll_t)))
	)
)

; Type of heap
(declare-heap (RefSll_t Sll_t)
)

; User-defined predicates
(define-fun-rec ls ((in RefSll_t) (out RefSll_t)) Bool
	(or
		(and (= in out)
			(_ emp RefSll_t Sll_t)
		)

		(exists ((u RefSll_t))
			(and (distinct in out)
				(sep
					(pto in (c_Sll_t u))
					(ls u out)
				)
			)
		)
	)
)

;; variables
(declare-const p_1 RefSll_t)
(declare-const q_1 RefSll_t)
(declare-const r_1 RefSll_t)
(declare-const x_1 RefSll_t)

(assert
	(and
		(distinct p_1 (as nil RefSll_t))
		(sep
			(ls x_1 p_1)
			(pto p_1 (c_Sll_t q_1))
			(pto q_1 (c_Sll_t r_1))
			(ls r_1 (as nil RefSll_t))
		)
	)
)

(assert (not
	(sep
			(ls x_1 r_1)
			(ls r_1 (as nil RefSll_t))
		)
))

(check-sat)
