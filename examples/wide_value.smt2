; The value of a form at the point leaves 128 bits: 64 times a bound of 2^122.
(declare-const x Real)
(declare-const y Real)
(assert (>= x 5316911983139663491615228241121378304.0))
(assert (<= (+ (* 64.0 x) y) 5.0))
(check-sat)
(get-info :reason-unknown)
