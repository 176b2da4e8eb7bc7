; Two sums whose coefficients differ by a factor of 2^100: as one of them is exchanged with y from the start, a coefficient of the other leaves 128 bits where it joins.
(declare-const x Real)
(declare-const y Real)
(assert (>= (+ (* 3.0 x) (* 1267650600228229401496703205376.0 y)) 1.0))
(assert (<= (+ (* 1267650600228229401496703205376.0 x) y) 5.0))
(check-sat)
(get-info :reason-unknown)
