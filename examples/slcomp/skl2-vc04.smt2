; Skip lists of two levels.
(set-logic QF_SHLID)

(set-info :source |
C. Enea, O. Lengal, M. Sighireanu, and T. Vojnar. Compositional Entailment Checking for a Fragment of Separation Logic. APLAS 2014.
Not a file of SL-COMP: written again from memory, in the manner of its family.
|)
(set-info :smt-lib-version 2.6)
(set-info :category "crafted")
(set-info :status unsat)
(set-info :version "2026-11-30")

; truth: t is nil or allocated apart, so skl1(a,b) * b->c * skl1(c,t) is skl1(a,t)

; Sorts for locations
(declare-sort RefSL2_t 0)

; Types of cells
(declare-datatypes (
	(SL2_t 0)
	) (
	((c_SL2_t (n1 RefSL2_t) (n2 RefSL2_t)))
	)
)

; Type of heap
(declare-heap (RefSL2_t SL2_t)
)

; User-defined predicates
(define-fun-rec skl1 ((hd RefSL2_t) (ex RefSL2_t)) Bool
	(or
		(and
			(= hd ex)
			(_ emp RefSL2_t SL2_t)
		)
		(exists ((tl RefSL2_t))
			(and
				(distinct hd ex)
				(sep
					(pto hd (c_SL2_t tl (as nil RefSL2_t)))
					(skl1 tl ex)
				)
			)
		)
	)
)

(define-fun-rec skl2 ((hd RefSL2_t) (ex RefSL2_t)) Bool
	(or
		(and
			(= hd ex)
			(_ emp RefSL2_t SL2_t)
		)
		(exists ((tl RefSL2_t) (Z1 RefSL2_t))
			(and
				(distinct hd ex)
				(sep
					(pto hd (c_SL2_t Z1 tl))
					(skl1 Z1 tl)
					(skl2 tl ex)
				)
			)
		)
	)
)


;; variables
(declare-const h RefSL2_t)
(declare-const x RefSL2_t)
(declare-const a RefSL2_t)
(declare-const b RefSL2_t)
(declare-const c RefSL2_t)
(declare-const t RefSL2_t)

(assert
	(sep
		(skl2 h x)
		(pto x (c_SL2_t a t))
		(skl1 a b)
		(pto b (c_SL2_t c (as nil RefSL2_t)))
		(skl1 c t)
		(skl2 t (as nil RefSL2_t))
	)
)

(assert (not
	(skl2 h (as nil RefSL2_t))
))

(check-sat)
