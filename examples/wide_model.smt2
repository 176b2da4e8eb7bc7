; Each bound is met, but a number of the model, 2^100 and half of 2^-40, leaves 128 bits.
(declare-const x Real)
(declare-const y Real)
(assert (> x 1267650600228229401496703205376.0))
(assert (> y 0.0))
(assert (< y (/ 1.0 1099511627776.0)))
(check-sat)
(get-info :reason-unknown)
