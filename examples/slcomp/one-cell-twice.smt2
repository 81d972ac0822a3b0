; One cell cannot be there twice: the left side cannot be satisfied.
(set-logic QF_SHID)

(set-info :source |
Q.-T. Ta, T. C. Le, S.-C. Khoo, and W.-N. Chin. Automated Lemma Synthesis in Symbolic-Heap Separation Logic. POPL 2018.
Not a file of SL-COMP: written again from memory, in the manner of its family.
|)
(set-info :smt-lib-version 2.6)
(set-info :category "crafted")
(set-info :status unsat)
(set-info :version "2026-11-30")

; truth: no heap has the cell at x twice: the antecedent is unsatisfiable, which takes induction on lsrev to see

; Sorts for locations
(declare-sort RefSll_t 0)

; Types of cells
(declare-datatypes (
	(Sll_t 0)
	) (
	((c_Sll_t (next RefSll_t)))
	)
)

; Type of heap
(declare-heap (RefSll_t Sll_t)
)

; User-defined predicates
(define-fun-rec lsp ((x RefSll_t) (y RefSll_t)) Bool
	(or
		(pto x (c_Sll_t y))
		(exists ((u RefSll_t))
			(sep
				(pto x (c_Sll_t u))
				(lsp u y)
			)
		)
	)
)

(define-fun-rec lsrev ((x RefSll_t) (y RefSll_t)) Bool
	(or
		(pto x (c_Sll_t y))
		(exists ((u RefSll_t))
			(sep
				(lsrev x u)
				(pto u (c_Sll_t y))
			)
		)
	)
)


;; variables
(declare-const x RefSll_t)
(declare-const y RefSll_t)
(declare-const z RefSll_t)

(assert
	(sep
		(lsp x y)
		(lsrev x z)
	)
)

(assert (not
	(lsp y z)
))

(check-sat)
