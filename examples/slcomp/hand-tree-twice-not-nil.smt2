; One tree twice, and it is not empty: no.
(set-logic QF_SHID)

(set-info :source |
J. Brotherston, C. Fuhs, N. Gorogiannis, and J. Navarro Perez. A Decision Procedure for Satisfiability in Separation Logic with Inductive Predicates. CSL-LICS 2014.
Not a file of SL-COMP: written from memory, in the manner of its family.
|)
(set-info :smt-lib-version 2.6)
(set-info :category "crafted")
(set-info :status unsat)
(set-info :version "2026-11-30")

; truth: sub allocates x

; Sorts for locations
(declare-sort RefGTyp 0)

; Types of cells
(declare-datatypes (
	(GTyp 0)
	) (
	((c_GTyp (f0 RefGTyp) (f1 RefGTyp)))
	)
)

; Type of heap
(declare-heap (RefGTyp GTyp)
)

; User-defined predicates
(define-funs-rec (
	(tree ((x RefGTyp)) Bool)
	(sub ((x RefGTyp) (y RefGTyp)) Bool)
) (
	(or
		(and
			(= x (as nil RefGTyp))
			(_ emp RefGTyp GTyp)
		)
		(exists ((l RefGTyp) (r RefGTyp))
			(sep
				(pto x (c_GTyp l r))
				(tree l)
				(tree r)
			)
		)
	)

	(or
		(exists ((l RefGTyp))
			(sep
				(pto x (c_GTyp l y))
				(tree l)
			)
		)
		(exists ((l RefGTyp) (r RefGTyp))
			(sep
				(pto x (c_GTyp l r))
				(tree l)
				(sub r y)
			)
		)
	)

))

;; variables
(declare-const x RefGTyp)
(declare-const y RefGTyp)

(assert
	(sep
		(sub x y)
		(sub x y)
	)
)

(check-sat)
