(set-logic QF_LIA)
(assert (! (= (+ 1 2 3) 7) :named wrong))
(check-sat)
(exit)
