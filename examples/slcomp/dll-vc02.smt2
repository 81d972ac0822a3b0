; Doubly linked lists, with one link too few: it does not hold.
(set-logic QF_SHLID)

(set-info :source |
C. Enea, O. Lengal, M. Sighireanu, and T. Vojnar. Compositional Entailment Checking for a Fragment of Separation Logic. APLAS 2014.
Not a file of SL-COMP: written again from memory, in the manner of its family.
|)
(set-info :smt-lib-version 2.6)
(set-info :category "crafted")
(set-info :status sat)
(set-info :version "2026-11-30")

; truth: z may be p, and bk != pr is wanted

; Sorts for locations
(declare-sort RefDll_t 0)

; Types of cells
(declare-datatypes (
	(Dll_t 0)
	) (
	((c_Dll_t (next RefDll_t) (prev RefDll_t)))
	)
)

; Type of heap
(declare-heap (RefDll_t Dll_t)
)

; User-defined predicates
(define-fun-rec dll ((fr RefDll_t) (bk RefDll_t) (pr RefDll_t) (nx RefDll_t)) Bool
	(or
		(and
			(= fr nx)
			(= bk pr)
			(_ emp RefDll_t Dll_t)
		)
		(exists ((u RefDll_t))
			(and
				(distinct fr nx)
				(distinct bk pr)
				(sep
					(pto fr (c_Dll_t u pr))
					(dll u bk fr nx)
				)
			)
		)
	)
)


;; variables
(declare-const x RefDll_t)
(declare-const y RefDll_t)
(declare-const z RefDll_t)
(declare-const w RefDll_t)
(declare-const p RefDll_t)

(assert
	(sep
		(dll x w p y)
		(dll y z w (as nil RefDll_t))
	)
)

(assert (not
	(dll x z p (as nil RefDll_t))
))

(check-sat)
