(declare-const n Int)
(assert (= n 1 2))
