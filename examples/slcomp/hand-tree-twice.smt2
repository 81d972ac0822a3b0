; One tree twice: yes, where it is empty.
(set-logic QF_SHID)

(set-info :source |
J. Brotherston, C. Fuhs, N. Gorogiannis, and J. Navarro Perez. A Decision Procedure for Satisfiability in Separation Logic with Inductive Predicates. CSL-LICS 2014.
Not a file of SL-COMP: written from memory, in the manner of its family.
|)
(set-info :smt-lib-version 2.6)
(set-info :category "crafted")
(set-info :status sat)
(set-info :version "2026-11-30")

; truth: x is nil

; Sorts for locations
(declare-sort RefGTyp 0)

; Types of cells
(declare-datatypes (
	(GTyp 0)
	) (
	((c_GTyp (f0 RefGTyp) (f1 RefGTyp)))
	)
)

; Type of heap
(declare-heap (RefGTyp GTyp)
)

; User-defined predicates
(define-funs-rec (
	(tree ((x RefGTyp)) Bool)
) (
	(or
		(and
			(= x (as nil RefGTyp))
			(_ emp RefGTyp GTyp)
		)
		(exists ((l RefGTyp) (r RefGTyp))
			(sep
				(pto x (c_GTyp l r))
				(tree l)
				(tree r)
			)
		)
	)

))

;; variables
(declare-const x RefGTyp)
(declare-const y RefGTyp)

(assert
	(and
		(= x y)
		(sep
			(tree x)
			(tree y)
		)
	)
)

(check-sat)
