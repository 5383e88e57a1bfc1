; Hay from one meadow: five rules, and a buyer who asks for it on the third day.
(set-logic QF_IDL)
(declare-fun cut () Int)
(declare-fun turn () Int)
(declare-fun bale () Int)
(declare-fun cart () Int)
(declare-fun graze () Int)
(assert (>= (- turn cut) 1))    ; turned the day after cutting, or later
(assert (>= (- bale turn) 2))   ; baled at least two days after turning
(assert (<= (- bale turn) 4))   ; and at most four
(assert (>= (- cart bale) 1))   ; carted the day after baling, or later
(assert (>= (- graze cart) 21)) ; the meadow rests three weeks
(check-sat)
(get-value (cut turn bale cart graze))
(assert (<= (- cart cut) 3))    ; the buyer asks: carted three days after cutting
(check-sat)
