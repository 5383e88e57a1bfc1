//! Which refusal comes first, and the modes.

use super::*;

pub fn cases(c: &mut Cases) {
    before_set_logic(c);
    remembered_sat(c);
    names_and_amounts(c);
}

fn before_set_logic(c: &mut Cases) {
    for text in ["(declare-fun x () Int)", "(assert (<= (- x y) 1))", "(push 1)", "(push 0)", "(pop 1)", "(pop 0)", "(check-sat)", "(get-value (x))", "(pop 99)", "(push 99)"] {
        c.whole(&format!("before set-logic: {}", text), text, MODE);
    }
    c.whole("exit before set-logic", "(exit)(check-sat)", "");
    c.whole("comments before set-logic", "; c\n(set-logic QF_IDL)(check-sat)", "sat\n");
    c.whole("unsupported is judged before MODE", "(foo)(assert true)(check-sat)", [UNSUPPORTED, UNSUPPORTED, MODE].concat());
    c.whole("another command before set-logic", "(set-info :status sat)(set-logic QF_IDL)(check-sat)", [UNSUPPORTED, "sat\n"].concat());
    for text in ["(assert (<= x y))", "(push)", "(exit 0)", "(get-value ())", "(declare-fun let () Int)"] {
        c.whole(&format!("SYNTAX before MODE: {}", text), text, SYNTAX);
    }
    c.whole("SIZE before MODE", format!("(declare-fun {} () Int)", "n".repeat(33)), SIZE);
    c.whole("MODE before AMOUNT", "(assert (<= (- x y) 1000001))", MODE);
    c.whole("a second set-logic", "(set-logic QF_IDL)(set-logic QF_IDL)", MODE);
    c.whole("a second set-logic with another logic", "(set-logic QF_IDL)(set-logic QF_LIA)", SYNTAX);
    c.xy("(push 1)(set-logic QF_IDL)", MODE);
}

fn remembered_sat(c: &mut Cases) {
    c.xy("(get-value (x))", MODE);
    c.xy("(get-value (z))", MODE);
    c.xy("(check-sat)(get-value (z))", ["sat\n", NAME].concat());
    c.xy("(check-sat)(get-value (x z y))", ["sat\n", NAME].concat());
    c.xy("(check-sat)(get-value (x))(get-value (y x y))", "sat\n((x 0))\n((y 0) (x 0) (y 0))\n");
    c.xy("(check-sat)(foo)(assert true)(get-value (x))", ["sat\n", UNSUPPORTED, UNSUPPORTED, "((x 0))\n"].concat());
    c.xy("(check-sat)(reset)(get-value (x))", ["sat\n", UNSUPPORTED, "((x 0))\n"].concat());
    c.xy("(check-sat);comment\n\n(get-value (x))", "sat\n((x 0))\n");
    c.xy("(check-sat)(check-sat)(get-value (x))", "sat\nsat\n((x 0))\n");
    for between in ["(push 0)", "(pop 0)", "(push 1)", "(push 1)(pop 1)", "(declare-fun z () Int)", "(assert (<= (- x y) 1))"] {
        c.xy(format!("(check-sat){}(get-value (x))", between), ["sat\n", MODE].concat());
        c.xy(format!("(check-sat)(get-value (y)){}(get-value (x))", between), ["sat\n((y 0))\n", MODE].concat());
    }
    c.xy("(assert (<= (- x x) (- 1)))(check-sat)(get-value (x))", ["unsat\n", MODE].concat());
    c.xy("(push 1)(check-sat)(pop 1)(get-value (x))", ["sat\n", MODE].concat());
    c.xy("(push 1)(assert (< (- x x) 0))(check-sat)(pop 1)(get-value (x))", ["unsat\n", MODE].concat());
    c.xy("(push 1)(assert (< (- x x) 0))(check-sat)(pop 1)(check-sat)(get-value (x))", "unsat\nsat\n((x 0))\n");
}

fn names_and_amounts(c: &mut Cases) {
    c.xy("(declare-fun x () Int)", NAME);
    c.xy("(push 1)(declare-fun z () Int)(pop 1)(declare-fun z () Int)", NAME);
    c.xy("(push 1)(declare-fun z () Int)(pop 1)(assert (<= (- x z) (- 1)))(check-sat)(get-value (z))", "sat\n((z 1))\n");
    c.terms(&["(<= (- x z) 1)", "(<= (- z x) 1)", "(<= (- z z) 1)", "(not (<= (- x z) 1))", "(and (<= (- x y) 1) (<= (- x z) 1))", "(<= (- X y) 1)"], NAME);
    // In an atom names come first; among atoms the leftmost.
    c.terms(&["(<= (- x z) 1000001)", "(<= (- z x) 1000001)", "(and (<= (- x z) 1) (<= (- x y) 1000001))", "(and (<= (- z x) 9999999) (<= (- x y) 1000001))"], NAME);
    c.terms(&["(<= (- x y) 1000001)", "(and (<= (- x y) 1000001) (<= (- x z) 1))", "(and (<= (- x y) 1) (and (<= (- x y) 1000001) (<= (- z y) 1)))"], AMOUNT);
    // The form comes before names and amounts, also to their right.
    c.terms(&["(and (<= (- x z) 1) (<= x y))", "(and (<= (- x y) 1000001) 5)", "(and (<= (- x z) 1))"], SYNTAX);
    c.terms(&["(and (<= (- x z) 1) (or))", "(and (<= (- x y) 1000001) p)"], UNSUPPORTED);
    c.terms(&[&format!("(and (<= (- x z) 1000001) (<= (- x {}) 1))", "n".repeat(33))], SIZE);
    c.xy("(check-sat)(get-value (z 5))", ["sat\n", SYNTAX].concat());
    // A declared name may be any symbol, and is told apart in every byte.
    c.xy("(declare-fun xx () Int)(declare-fun xy () Int)(assert (<= (- xx xy) (- 4)))(check-sat)(get-value (xy xx y x))", "sat\n((xy 4) (xx 0) (y 0) (x 0))\n");
    let (one, other) = ("n".repeat(31) + "a", "n".repeat(31) + "b");
    c.xy(format!("(declare-fun {0} () Int)(declare-fun {1} () Int)(assert (< (- {0} {1}) 0))(check-sat)(get-value ({0} {1}))", one, other), format!("sat\n(({} 0) ({} 1))\n", one, other));
    c.xy(format!("(declare-fun {0} () Int)(declare-fun {0} () Int)", one), NAME);
    // While a level is contradictory, terms are still read and tested.
    let no = "(assert (< (- x x) 0))";
    c.xy(format!("{}(assert (<= (- x z) 1))", no), NAME);
    c.xy(format!("{}(assert (<= (- x y) 1000001))", no), AMOUNT);
    c.xy(format!("{}(assert (<= x y))", no), SYNTAX);
    c.xy(format!("{}(assert p)(check-sat)", no), [UNSUPPORTED, "unsat\n"].concat());
    c.xy(format!("{}(declare-fun x () Int)", no), NAME);
}
