//! Levels: push, pop, contradictory levels, and the earliest plan after a pop.

use super::*;

pub fn cases(c: &mut Cases) {
    let no = "(assert (< (- x x) 0))";
    c.xy("(push 1)(assert (<= (- x y) (- 2)))(check-sat)(get-value (y))(pop 1)(check-sat)(get-value (y))", "sat\n((y 2))\nsat\n((y 0))\n");
    c.xy("(push 2)(assert (<= (- x y) (- 2)))(pop 1)(check-sat)(get-value (y))(pop 1)(check-sat)", "sat\n((y 0))\nsat\n");
    c.xy("(push 3)(pop 3)(pop 1)", NOMARK);
    c.xy("(pop 0)(push 0)(pop 0)(check-sat)", "sat\n");
    c.xy("(pop 1)", NOMARK);
    c.xy("(push 1)(pop 2)", NOMARK);
    c.xy("(pop 18446744073709551617)", NOMARK);
    c.xy("(pop 18446744073709551616)", NOMARK);
    c.xy("(pop 4294967296)", NOMARK);
    c.xy(format!("(pop 1{})", "0".repeat(3000)), NOMARK);
    c.xy("(push 64)(pop 65)", NOMARK);

    // Contradictory levels.
    c.xy(format!("{}(check-sat)(check-sat)", no), "unsat\nunsat\n");
    c.xy(format!("{}(push 1)(check-sat)(pop 1)(check-sat)", no), "unsat\nunsat\n");
    c.xy(format!("(push 1){}(check-sat)(pop 1)(check-sat)", no), "unsat\nsat\n");
    c.xy(format!("(push 1){}(push 1)(check-sat)(pop 1)(check-sat)(pop 1)(check-sat)", no), "unsat\nunsat\nsat\n");
    c.xy(format!("(push 1){}(push 5)(pop 6)(check-sat)", no), "sat\n");
    c.xy(format!("(push 1){}(pop 0)(check-sat)", no), "unsat\n");
    c.xy(format!("(push 2){}(pop 1)(check-sat)", no), "sat\n");
    c.xy(format!("(push 1)(push 1){}(pop 1)(check-sat)(pop 1)(check-sat)", no), "sat\nsat\n");
    // A level that is made contradictory below an open mark stays so when the mark goes.
    c.xy("(push 1)(assert (<= (- x y) (- 1)))(assert (<= (- y x) (- 1)))(push 1)(pop 1)(check-sat)(pop 1)(check-sat)", "unsat\nsat\n");
    c.xy("(assert (<= (- x y) (- 1)))(push 1)(assert (<= (- y x) (- 1)))(check-sat)(pop 1)(check-sat)(get-value (x y))", "unsat\nsat\n((x 0) (y 1))\n");
    // Later terms of a contradictory level are not added, and those after it is popped are.
    c.xy(format!("(push 1){}(assert (<= (- x y) (- 9)))(pop 1)(check-sat)(get-value (y))", no), "sat\n((y 0))\n");
    c.xy(format!("(push 1){}(pop 1)(assert (<= (- x y) (- 9)))(check-sat)(get-value (y))", no), "sat\n((y 9))\n");
    c.xy(format!("(push 1){}(push 1){}(pop 1)(check-sat)(pop 1)(check-sat)", no, no), "unsat\nsat\n");
    // A term that conflicts in its second rule: the first goes with the level too.
    c.xy("(push 1)(assert (and (<= (- x y) (- 9)) (< (- x x) 0) (<= (- x y) (- 11))))(check-sat)(pop 1)(check-sat)(get-value (y))", "unsat\nsat\n((y 0))\n");
    c.xy("(assert (<= (- x y) (- 2)))(push 1)(assert (and (<= (- x y) (- 5)) (<= (- y x) 4)))(check-sat)(pop 1)(assert (<= (- y x) 4))(check-sat)(get-value (x y))", "unsat\nsat\n((x 0) (y 2))\n");
    // Twenty marks, set one by one: after mark k the day of y is k. They go one by one, in one go, and in parts.
    let twenty: String = (1..=20).map(|k| format!("(push 1)(assert (<= (- x y) (- {})))", k)).collect();
    let y = "(check-sat)(get-value (y))";
    let pop_y = format!("(pop 1){}", y);
    c.xy(
        format!("{}{}{}", twenty, y, pop_y.repeat(20)),
        "sat\n((y 20))\nsat\n((y 19))\nsat\n((y 18))\nsat\n((y 17))\nsat\n((y 16))\nsat\n((y 15))\nsat\n((y 14))\nsat\n((y 13))\nsat\n((y 12))\nsat\n((y 11))\n\
         sat\n((y 10))\nsat\n((y 9))\nsat\n((y 8))\nsat\n((y 7))\nsat\n((y 6))\nsat\n((y 5))\nsat\n((y 4))\nsat\n((y 3))\nsat\n((y 2))\nsat\n((y 1))\nsat\n((y 0))\n",
    );
    c.xy(format!("{}(pop 20){}", twenty, y), "sat\n((y 0))\n");
    c.xy(format!("{}(pop 3){}(pop 16){}{}", twenty, y, y, pop_y), "sat\n((y 17))\nsat\n((y 1))\nsat\n((y 0))\n");
    // Marks that are set again where others were dropped: each has the days of its own time, also those that stayed open below.
    c.xy(format!("{}(pop 20)(assert (<= (- x y) (- 30))){}(pop 20){}", twenty, twenty, y), "sat\n((y 30))\n");
    c.xy(
        format!("{}(pop 17)(assert (<= (- x y) (- 30)))(push 20)(assert (<= (- x y) (- 40))){}{}(pop 18){}{}", twenty, y, pop_y, y, pop_y.repeat(4)),
        "sat\n((y 40))\nsat\n((y 30))\nsat\n((y 30))\nsat\n((y 30))\nsat\n((y 2))\nsat\n((y 1))\nsat\n((y 0))\n",
    );
    // Declared names stay after a pop, also those declared while contradictory.
    c.xy(format!("(push 1){}(declare-fun z () Int)(pop 1)(assert (< (- x z) 0))(check-sat)(get-value (z))", no), "sat\n((z 1))\n");
    // exit stands anywhere.
    c.xy(format!("{}(exit)(check-sat)", no), "");
    c.xy("(push 3)(check-sat)(exit)(pop 9)", "sat\n");

    // The paper's worked cases, as scripts: a, b, c, d are the steps 0 to 3.
    let abcd = "(set-logic QF_IDL)(declare-fun a () Int)(declare-fun b () Int)(declare-fun c () Int)(declare-fun d () Int)";
    let two = "(assert (<= (- a b) (- 2)))";
    let three = "(assert (<= (- a b) (- 2)))(assert (<= (- b c) (- 3)))";
    let show = "(check-sat)(get-value (a b c d))";
    for (name, text, out) in [
        ("case 1", show.to_string(), "sat\n((a 0) (b 0) (c 0) (d 0))\n"),
        ("case 2", format!("{}{}", two, show), "sat\n((a 0) (b 2) (c 0) (d 0))\n"),
        ("case 3", format!("{}{}", three, show), "sat\n((a 0) (b 2) (c 5) (d 0))\n"),
        ("case 4", format!("{}(assert (<= (- c a) 5)){}", three, show), "sat\n((a 0) (b 2) (c 5) (d 0))\n"),
        ("case 5", format!("{}(assert (<= (- c a) 4))(check-sat)", three), "unsat\n"),
        ("case 6", "(assert (<= (- d d) 0))(check-sat)(assert (<= (- d d) (- 1)))(check-sat)".to_string(), "sat\nunsat\n"),
        ("case 7", format!("(assert (<= (- c a) (- 7))){}", show), "sat\n((a 7) (b 0) (c 0) (d 0))\n"),
        ("case 8", format!("(assert (<= (- a b) 0))(assert (<= (- b a) 0)){}", show), "sat\n((a 0) (b 0) (c 0) (d 0))\n"),
        ("case 9", format!("{}(push 1)(assert (<= (- b c) (- 3)))(pop 1){}", two, show), "sat\n((a 0) (b 2) (c 0) (d 0))\n"),
        ("case 11", format!("(assert (not (<= (- a b) (- 2))))(assert (<= (- b a) (- 2)))(check-sat)(assert (<= (- a b) (- 2)))(check-sat)"), "sat\nunsat\n"),
    ] {
        c.whole(name, format!("{}{}", abcd, text), out);
    }
}
