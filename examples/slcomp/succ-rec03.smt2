; The same counter, defined bit by bit.
(set-logic QF_SHID)

(set-info :source |
J. Brotherston, C. Fuhs, N. Gorogiannis, and J. Navarro Perez. A Decision Procedure for Satisfiability in Separation Logic with Inductive Predicates. CSL-LICS 2014.
Not a file of SL-COMP: written from memory, in the manner of its family.
|)
(set-info :smt-lib-version 2.6)
(set-info :category "crafted")
(set-info :status sat)
(set-info :version "2026-11-30")

; truth: a counter of 3 bits reaches all ones, by construction; succ3 has 6 parameters

; Sorts for locations
(declare-sort RefGTyp 0)

; Types of cells
(declare-datatypes (
	(GTyp 0)
	) (
	((c_GTyp (f0 RefGTyp) (f1 RefGTyp)))
	)
)

; Type of heap
(declare-heap (RefGTyp GTyp)
)

; User-defined predicates
(define-funs-rec (
	(zero ((a RefGTyp)) Bool)
	(one ((a RefGTyp)) Bool)
	(succ1 ((x1 RefGTyp) (y1 RefGTyp)) Bool)
	(succ2 ((x1 RefGTyp) (x2 RefGTyp) (y1 RefGTyp) (y2 RefGTyp)) Bool)
	(succ3 ((x1 RefGTyp) (x2 RefGTyp) (x3 RefGTyp) (y1 RefGTyp) (y2 RefGTyp) (y3 RefGTyp)) Bool)
	(P ((x1 RefGTyp) (x2 RefGTyp) (x3 RefGTyp)) Bool)
	(Q ((x1 RefGTyp) (x2 RefGTyp) (x3 RefGTyp)) Bool)
) (
	(and
			(= a (as nil RefGTyp))
			(_ emp RefGTyp GTyp)
		)

	(and
			(distinct a (as nil RefGTyp))
			(_ emp RefGTyp GTyp)
		)

	(sep
			(zero x1)
			(one y1)
		)

	(or
		(and
			(= x2 y2)
			(sep
				(zero x1)
				(one y1)
			)
		)
		(sep
			(one x1)
			(zero y1)
			(succ1 x2 y2)
		)
	)

	(or
		(and
			(= x2 y2)
			(= x3 y3)
			(sep
				(zero x1)
				(one y1)
			)
		)
		(sep
			(one x1)
			(zero y1)
			(succ2 x2 x3 y2 y3)
		)
	)

	(or
		(sep
			(zero x1)
			(zero x2)
			(zero x3)
		)
		(exists ((y1 RefGTyp) (y2 RefGTyp) (y3 RefGTyp))
			(sep
				(P y1 y2 y3)
				(succ3 y1 y2 y3 x1 x2 x3)
			)
		)
	)

	(sep
			(P x1 x2 x3)
			(one x1)
			(one x2)
			(one x3)
		)

))

;; variables
(declare-const x1 RefGTyp)
(declare-const x2 RefGTyp)
(declare-const x3 RefGTyp)

(assert
	(Q x1 x2 x3)
)

(check-sat)
