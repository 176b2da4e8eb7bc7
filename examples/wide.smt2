(declare-const x Real)
(assert (< x (+ 170141183460469231731687303715884105727 1.0)))
(check-sat)
(get-info :reason-unknown)
