; Two predicates that unfold for ever: nothing satisfies them.
(set-logic QF_SHID)

(set-info :source |
J. Brotherston, C. Fuhs, N. Gorogiannis, and J. Navarro Perez. A Decision Procedure for Satisfiability in Separation Logic with Inductive Predicates. CSL-LICS 2014.
Not a file of SL-COMP: written from memory, in the manner of its family.
|)
(set-info :smt-lib-version 2.6)
(set-info :category "crafted")
(set-info :status unsat)
(set-info :version "2026-11-30")

; truth: no case of either predicate is without a call

; Sorts for locations
(declare-sort RefGTyp 0)

; Types of cells
(declare-datatypes (
	(GTyp 0)
	) (
	((c_GTyp (f0 RefGTyp) (f1 RefGTyp)))
	)
)

; Type of heap
(declare-heap (RefGTyp GTyp)
)

; User-defined predicates
(define-funs-rec (
	(p ((x RefGTyp) (y RefGTyp)) Bool)
	(q ((x RefGTyp) (y RefGTyp)) Bool)
) (
	(exists ((u RefGTyp))
			(sep
				(pto x (c_GTyp u y))
				(q u y)
			)
		)

	(or
		(exists ((u RefGTyp))
			(sep
				(pto x (c_GTyp y u))
				(p u x)
			)
		)
		(and
			(= x y)
			(p x y)
		)
	)

))

;; variables
(declare-const x RefGTyp)
(declare-const y RefGTyp)

(assert
	(p x y)
)

(check-sat)
