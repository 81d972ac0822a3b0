; A counter of three bits, as a predicate: does it reach all ones?
(set-logic QF_SHID)

(set-info :source |
J. Brotherston, C. Fuhs, N. Gorogiannis, and J. Navarro Perez. A Decision Procedure for Satisfiability in Separation Logic with Inductive Predicates. CSL-LICS 2014.
Not a file of SL-COMP: written from memory, in the manner of its family.
|)
(set-info :smt-lib-version 2.6)
(set-info :category "crafted")
(set-info :status sat)
(set-info :version "2026-11-30")

; truth: a counter of 3 bits from zero in steps of 1 reaches all ones, by construction; P has 8 base pairs

; Sorts for locations
(declare-sort RefGTyp 0)

; Types of cells
(declare-datatypes (
	(GTyp 0)
	) (
	((c_GTyp (f0 RefGTyp) (f1 RefGTyp)))
	)
)

; Type of heap
(declare-heap (RefGTyp GTyp)
)

; User-defined predicates
(define-funs-rec (
	(zero ((a RefGTyp)) Bool)
	(one ((a RefGTyp)) Bool)
	(inv ((a RefGTyp) (b RefGTyp)) Bool)
	(exor ((a RefGTyp) (b RefGTyp) (c RefGTyp)) Bool)
	(conj ((a RefGTyp) (b RefGTyp) (c RefGTyp)) Bool)
	(P ((x1 RefGTyp) (x2 RefGTyp) (x3 RefGTyp)) Bool)
	(Q ((x1 RefGTyp) (x2 RefGTyp) (x3 RefGTyp)) Bool)
) (
	(and
			(= a (as nil RefGTyp))
			(_ emp RefGTyp GTyp)
		)

	(and
			(distinct a (as nil RefGTyp))
			(_ emp RefGTyp GTyp)
		)

	(or
		(sep
			(zero a)
			(one b)
		)
		(sep
			(one a)
			(zero b)
		)
	)

	(or
		(sep
			(zero a)
			(zero b)
			(zero c)
		)
		(sep
			(zero a)
			(one b)
			(one c)
		)
		(sep
			(one a)
			(zero b)
			(one c)
		)
		(sep
			(one a)
			(one b)
			(zero c)
		)
	)

	(or
		(sep
			(zero a)
			(zero b)
			(zero c)
		)
		(sep
			(zero a)
			(one b)
			(zero c)
		)
		(sep
			(one a)
			(zero b)
			(zero c)
		)
		(sep
			(one a)
			(one b)
			(one c)
		)
	)

	(or
		(sep
			(zero x1)
			(zero x2)
			(zero x3)
		)
		(exists ((y1 RefGTyp) (y2 RefGTyp) (y3 RefGTyp) (c2 RefGTyp))
			(sep
				(P y1 y2 y3)
				(inv y1 x1)
				(exor y2 y1 x2)
				(conj y2 y1 c2)
				(exor y3 c2 x3)
			)
		)
	)

	(sep
			(P x1 x2 x3)
			(one x1)
			(one x2)
			(one x3)
		)

))

;; variables
(declare-const x1 RefGTyp)
(declare-const x2 RefGTyp)
(declare-const x3 RefGTyp)

(assert
	(Q x1 x2 x3)
)

(check-sat)
