; The two bounds of x contradict, and the sum that says so leaves 128 bits.
(declare-const x Real)
(assert (>= x (/ 1.0 18446744073709551629.0)))
(assert (<= x (- (/ 1.0 18446744073709551653.0))))
(check-sat)
(get-info :reason-unknown)
