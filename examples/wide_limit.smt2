; What bounds allow the infinitesimal leaves 128 bits: the difference of two fractions over large primes.
(declare-const x Real)
(declare-const y Real)
(assert (> x (- (/ 9223372036854775837.0 18446744073709551629.0))))
(assert (>= y (/ 9223372036854775837.0 18446744073709551653.0)))
(assert (>= x y))
(check-sat)
(get-info :reason-unknown)
