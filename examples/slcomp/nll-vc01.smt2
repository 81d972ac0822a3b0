; Lists of lists: two sorts of locations, each with its cells.
(set-logic QF_SHLID)

(set-info :source |
C. Enea, O. Lengal, M. Sighireanu, and T. Vojnar. Compositional Entailment Checking for a Fragment of Separation Logic. APLAS 2014.
Not a file of SL-COMP: written again from memory, in the manner of its family.
|)
(set-info :smt-lib-version 2.6)
(set-info :category "crafted")
(set-info :status unsat)
(set-info :version "2026-11-30")

; truth: induction on the first segment: its cells are allocated, so none is nil

; Sorts for locations
(declare-sort RefNLL_lvl1_t 0)
(declare-sort RefNLL_lvl2_t 0)

; Types of cells
(declare-datatypes (
	(NLL_lvl1_t 0)
	(NLL_lvl2_t 0)
	) (
	((c_NLL_lvl1_t (next1 RefNLL_lvl1_t)))
	((c_NLL_lvl2_t (next2 RefNLL_lvl2_t) (down RefNLL_lvl1_t)))
	)
)

; Type of heap
(declare-heap (RefNLL_lvl1_t NLL_lvl1_t) (RefNLL_lvl2_t NLL_lvl2_t)
)

; User-defined predicates
(define-fun-rec lso ((in RefNLL_lvl1_t) (out RefNLL_lvl1_t)) Bool
	(or
		(and
			(= in out)
			(_ emp RefNLL_lvl1_t NLL_lvl1_t)
		)
		(exists ((u RefNLL_lvl1_t))
			(and
				(distinct in out)
				(sep
					(pto in (c_NLL_lvl1_t u))
					(lso u out)
				)
			)
		)
	)
)

(define-fun-rec nll ((in RefNLL_lvl2_t) (out RefNLL_lvl2_t) (boundary RefNLL_lvl1_t)) Bool
	(or
		(and
			(= in out)
			(_ emp RefNLL_lvl1_t NLL_lvl1_t)
		)
		(exists ((u RefNLL_lvl2_t) (Z1 RefNLL_lvl1_t))
			(and
				(distinct in out)
				(sep
					(pto in (c_NLL_lvl2_t u Z1))
					(lso Z1 boundary)
					(nll u out boundary)
				)
			)
		)
	)
)


;; variables
(declare-const x RefNLL_lvl2_t)
(declare-const y RefNLL_lvl2_t)
(declare-const b RefNLL_lvl1_t)

(assert
	(sep
		(nll x y b)
		(nll y (as nil RefNLL_lvl2_t) b)
	)
)

(assert (not
	(nll x (as nil RefNLL_lvl2_t) b)
))

(check-sat)
