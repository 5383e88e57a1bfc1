; A season of hay, from the first cut to the last cart.
; A rule says how the days of two steps stand to each other: (<= (- a b) (- 2)) is "b at least two days after a".
(set-logic QF_IDL)
(declare-fun cut () Int)
(declare-fun turn () Int)
(declare-fun dry () Int)
(declare-fun bale () Int)
(declare-fun cart () Int)
(declare-fun second-cut () Int)
(declare-fun graze () Int)

(assert (<= (- cut turn) (- 1)))          ; turned at the earliest the day after cutting
(assert (<= (- turn dry) (- 2)))          ; dry at least two days after turning
(assert (>= (- bale dry) 0))              ; baled when it is dry
(assert (<= (- bale dry) 3))              ; and not more than three days later
(assert (< (- bale cart) 0))              ; carted after the day of baling
(assert (and (>= (- second-cut cut) 42)   ; six to eight weeks between the cuts
             (<= (- second-cut cut) 56)))
(assert (not (< (- second-cut cart) 21))) ; the meadow rests three weeks after carting
(assert (>= (- graze second-cut) 30))

(check-sat)
(get-value (cut turn dry bale cart))
(get-value (second-cut graze))

; The contractor can bale on no day before the tenth after cutting.
(assert (>= (- bale cut) 10))
(check-sat)
(get-value (cut turn dry bale cart second-cut graze))
(exit)
