; Threshing for the mill, and a deadline that the mill moves. What depends on the deadline stands inside push and pop.
(set-logic QF_IDL)
(declare-fun order () Int)
(declare-fun reap () Int)
(declare-fun dry () Int)
(declare-fun thresh () Int)
(declare-fun deliver () Int)

(assert (>= (- reap order) 4))        ; the reaper comes four days after it is ordered
(assert (>= (- dry reap) 5))
(assert (>= (- thresh dry) 1))
(assert (>= (- deliver thresh) 2))
(check-sat)
(get-value (deliver))

(push 1)
(assert (<= (- deliver order) 14))    ; the mill first says: within fourteen days of the order
(check-sat)
(get-value (reap dry thresh deliver))

(push 1)
(assert (>= (- reap order) 7))        ; could the reaper come three days late?
(check-sat)
(pop 1)
(push 1)
(assert (>= (- reap order) 6))        ; and two days late?
(check-sat)
(get-value (reap deliver))
(pop 2)

(push 1)
(assert (<= (- deliver order) 11))    ; the mill moves the deadline to eleven days
(check-sat)
(pop 1)
(push 1)
(assert (<= (- deliver order) 12))    ; it is moved once more, to twelve
(check-sat)
(get-value (reap dry thresh deliver))
