; Such sums that join after a check, when no start is sought: where one is exchanged with x, a coefficient of the other leaves 128 bits.
(declare-const x Real)
(declare-const y Real)
(assert (>= x 0.0))
(check-sat)
(assert (>= (+ (* 3.0 x) (* 1267650600228229401496703205376.0 y)) 1.0))
(assert (<= (+ (* 1267650600228229401496703205376.0 x) y) 5.0))
(check-sat)
(get-info :reason-unknown)
