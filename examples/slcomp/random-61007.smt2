; Definitions at random.
(set-logic QF_SHID)

(set-info :source |
J. Brotherston, C. Fuhs, N. Gorogiannis, and J. Navarro Perez. A Decision Procedure for Satisfiability in Separation Logic with Inductive Predicates. CSL-LICS 2014.
Not a file of SL-COMP: written from memory, in the manner of its family.
|)
(set-info :smt-lib-version 2.6)
(set-info :category "random")
(set-info :status sat)
(set-info :version "2026-11-30")

; truth: base pairs (by another program), 14 of them in all

; Sorts for locations
(declare-sort RefGTyp 0)

; Types of cells
(declare-datatypes (
	(GTyp 0)
	) (
	((c_GTyp (f0 RefGTyp) (f1 RefGTyp)))
	)
)

; Type of heap
(declare-heap (RefGTyp GTyp)
)

; User-defined predicates
(define-funs-rec (
	(p0 ((x0 RefGTyp) (x1 RefGTyp) (x2 RefGTyp) (x3 RefGTyp)) Bool)
	(p1 ((x0 RefGTyp) (x1 RefGTyp) (x2 RefGTyp)) Bool)
	(p2 ((x0 RefGTyp) (x1 RefGTyp) (x2 RefGTyp) (x3 RefGTyp)) Bool)
) (
	(or
		(and
			(distinct x0 (as nil RefGTyp))
			(_ emp RefGTyp GTyp)
		)
		(sep
			(pto x0 (c_GTyp x3 x1))
			(p0 x3 x0 x2 (as nil RefGTyp))
		)
	)

	(or
		(and
			(distinct x1 x2)
			(= x1 x0)
			(_ emp RefGTyp GTyp)
		)
		(exists ((u RefGTyp))
			(and
				(= x1 x0)
				(p0 x2 x2 x1 x0)
			)
		)
	)

	(or
		(and
			(distinct x0 (as nil RefGTyp))
			(distinct x1 x2)
			(_ emp RefGTyp GTyp)
		)
		(and
			(distinct x0 x2)
			(sep
				(pto x1 (c_GTyp x2 x1))
				(p0 x2 x3 x0 x3)
			)
		)
		(exists ((u RefGTyp) (v RefGTyp))
			(and
				(distinct x2 x0)
				(sep
					(p1 v u x0)
					(p0 x3 u x0 u)
				)
			)
		)
	)

))

;; variables
(declare-const x RefGTyp)
(declare-const y RefGTyp)
(declare-const z RefGTyp)

(assert
	(and
		(distinct y z)
		(distinct (as nil RefGTyp) y)
		(distinct x y)
		(sep
			(p0 y z x y)
			(p2 y x z z)
		)
	)
)

(check-sat)
