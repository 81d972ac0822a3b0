; Doubly linked lists: from the front, from the back, and from a cell in the middle.
(set-logic QF_SHID)

(set-info :source |
R. Iosif, A. Rogalewicz, and T. Vojnar. Deciding Entailments in Inductive Separation Logic with Tree Automata. ATVA 2014.
Not a file of SL-COMP: written again from memory, in the manner of its family.
|)
(set-info :smt-lib-version 2.6)
(set-info :category "crafted")
(set-info :status unsat)
(set-info :version "2026-11-30")

; truth: one cell, two cells, or three and more: then a cell that is not the first and not the last is taken for the middle

; Sorts for locations
(declare-sort RefDll_t 0)

; Types of cells
(declare-datatypes (
	(Dll_t 0)
	) (
	((c_Dll_t (next RefDll_t) (prev RefDll_t)))
	)
)

; Type of heap
(declare-heap (RefDll_t Dll_t)
)

; User-defined predicates
(define-fun-rec DLL_plus ((hd RefDll_t) (p RefDll_t) (tl RefDll_t) (n RefDll_t)) Bool
	(or
		(and
			(= hd tl)
			(pto hd (c_Dll_t n p))
		)
		(exists ((x RefDll_t))
			(sep
				(pto hd (c_Dll_t x p))
				(DLL_plus x hd tl n)
			)
		)
	)
)

(define-fun-rec DLL_plus_rev ((hd RefDll_t) (p RefDll_t) (tl RefDll_t) (n RefDll_t)) Bool
	(or
		(and
			(= hd tl)
			(pto hd (c_Dll_t n p))
		)
		(exists ((x RefDll_t))
			(sep
				(pto tl (c_Dll_t n x))
				(DLL_plus_rev hd p x tl)
			)
		)
	)
)

(define-fun-rec DLL_plus_mid ((hd RefDll_t) (p RefDll_t) (tl RefDll_t) (n RefDll_t)) Bool
	(or
		(and
			(= hd tl)
			(pto hd (c_Dll_t n p))
		)
		(sep
			(pto hd (c_Dll_t tl p))
			(pto tl (c_Dll_t n hd))
		)
		(exists ((x RefDll_t) (y RefDll_t) (z RefDll_t))
			(sep
				(pto x (c_Dll_t y z))
				(DLL_plus y x tl n)
				(DLL_plus_rev hd p z x)
			)
		)
	)
)


;; variables
(declare-const x RefDll_t)
(declare-const p RefDll_t)
(declare-const y RefDll_t)
(declare-const n RefDll_t)

(assert
	(DLL_plus x p y n)
)

(assert (not
	(DLL_plus_mid x p y n)
))

(check-sat)
