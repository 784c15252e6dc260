(assert true)
