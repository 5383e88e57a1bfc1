; Two members share one press. Each rule is reasonable; together they cannot be kept.
(set-logic QF_IDL)
(declare-fun pick-north () Int)
(declare-fun pick-south () Int)
(declare-fun press-north () Int)
(declare-fun press-south () Int)

(assert (and (>= (- press-north pick-north) 0) (<= (- press-north pick-north) 2))) ; fruit waits two days at most
(assert (and (>= (- press-south pick-south) 0) (<= (- press-south pick-south) 2)))
(assert (>= (- press-south press-north) 3))   ; cleaning the press takes three days
(check-sat)
(get-value (pick-north press-north pick-south press-south))

(push 1)
(assert (not (> (- pick-south pick-north) 0))) ; the south is to be picked no later than the north
(check-sat)
(assert (<= (- pick-south press-south) 0))     ; more rules do not help
(check-sat)
(pop 1)

(assert (<= (- pick-south pick-north) 1))      ; a day later is enough
(check-sat)
(get-value (pick-north press-north pick-south press-south))
(assert (> (- pick-north pick-north) 0))       ; no step is later than itself: nothing after this can be kept
(check-sat)
(push 1)
(check-sat)
(pop 1)
(check-sat)
