; A tree with a hole, and a tree in it.
(set-logic QF_SHID)

(set-info :source |
Q.-T. Ta, T. C. Le, S.-C. Khoo, and W.-N. Chin. Automated Lemma Synthesis in Symbolic-Heap Separation Logic. POPL 2018.
Not a file of SL-COMP: written again from memory, in the manner of its family.
|)
(set-info :smt-lib-version 2.6)
(set-info :category "crafted")
(set-info :status unsat)
(set-info :version "2026-11-30")

; truth: fold at y, then induction on the segment

; Sorts for locations
(declare-sort RefTree_t 0)

; Types of cells
(declare-datatypes (
	(Tree_t 0)
	) (
	((c_Tree_t (left RefTree_t) (right RefTree_t)))
	)
)

; Type of heap
(declare-heap (RefTree_t Tree_t)
)

; User-defined predicates
(define-fun-rec tree ((x RefTree_t)) Bool
	(or
		(and
			(= x (as nil RefTree_t))
			(_ emp RefTree_t Tree_t)
		)
		(exists ((l RefTree_t) (r RefTree_t))
			(sep
				(pto x (c_Tree_t l r))
				(tree l)
				(tree r)
			)
		)
	)
)

(define-fun-rec tseg ((x RefTree_t) (y RefTree_t)) Bool
	(or
		(and
			(= x y)
			(_ emp RefTree_t Tree_t)
		)
		(exists ((l RefTree_t) (r RefTree_t))
			(sep
				(pto x (c_Tree_t l r))
				(tseg l y)
				(tree r)
			)
		)
		(exists ((l RefTree_t) (r RefTree_t))
			(sep
				(pto x (c_Tree_t l r))
				(tree l)
				(tseg r y)
			)
		)
	)
)


;; variables
(declare-const x RefTree_t)
(declare-const y RefTree_t)
(declare-const l RefTree_t)
(declare-const r RefTree_t)

(assert
	(sep
		(tseg x y)
		(pto y (c_Tree_t l r))
		(tree l)
		(tree r)
	)
)

(assert (not
	(tree x)
))

(check-sat)
