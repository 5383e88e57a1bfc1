//! The form of every command and term, and what is unsupported.

use super::*;

pub fn cases(c: &mut Cases) {
    commands(c);
    operators(c);
    departures(c);
    leftmost(c);
}

fn commands(c: &mut Cases) {
    // A listed command is known by its name.
    c.whole("another logic", "(set-logic QF_LIA)", SYNTAX);
    for text in ["(set-logic)", "(set-logic QF_IDL QF_IDL)", "(set-logic (QF_IDL))", "(set-logic 5)", "(set-logic qf_idl)", "(set-logic QF_IDL ())", "(set-logic :QF_IDL)"] {
        c.whole(text, text, SYNTAX);
    }
    c.whole("a logic over 32 bytes is no name", format!("(set-logic {})", "Q".repeat(33)), SYNTAX);
    c.commands(
        &[
            "(declare-fun)", "(declare-fun z)", "(declare-fun z ())", "(declare-fun z () Real)", "(declare-fun z () Bool)", "(declare-fun z Int)", "(declare-fun () Int)",
            "(declare-fun z (Int) Int)", "(declare-fun z (()) Int)", "(declare-fun z () (Int))", "(declare-fun z () Int Int)", "(declare-fun z () Int ())", "(declare-fun z () int)",
            "(declare-fun z () 5)", "(declare-fun z 5 Int)",
            "(assert)", "(assert (<= (- x y) 1) (<= (- x y) 1))", "(assert (<= (- x y) 1) true)", "(assert (<= (- x y) 1) 5)",
            "(push)", "(push 1 1)", "(push (1))", "(push x)", "(push -1)", "(push (- 1))", "(push 1.0)", "(push #x1)", "(push :k)",
            "(pop)", "(pop 1 1)", "(pop (1))", "(pop x)", "(pop -1)", "(pop (- 1))", "(pop 0.0)", "(pop #b0)",
            "(check-sat 1)", "(check-sat ())", "(check-sat x)",
            "(get-value)", "(get-value ())", "(get-value x)", "(get-value (x) (y))", "(get-value (x) y)", "(get-value (5))", "(get-value (x 5))", "(get-value ((- x y)))",
            "(get-value ((x)))", "(get-value (x (y)))", "(get-value (:k))", "(get-value x y)",
            "(exit 0)", "(exit ())", "(exit exit)",
            "()", "(5)", "(1.5)", "(#x1)", "(:assert)", "((check-sat))", "((foo))", "(())", "(() foo)", "(5 check-sat)",
        ],
        SYNTAX,
    );
    c.xy(format!("({} 1)", "f".repeat(33)), UNSUPPORTED);
    c.xy(format!("({})", "f".repeat(2000)), UNSUPPORTED);
}

fn operators(c: &mut Cases) {
    // What each operator says of x and y, seen in the earliest plan.
    for (term, days) in [
        ("(<= (- x y) (- 3))", "((x 0) (y 3))"),
        ("(< (- x y) (- 3))", "((x 0) (y 4))"),
        ("(>= (- x y) 3)", "((x 3) (y 0))"),
        ("(> (- x y) 3)", "((x 4) (y 0))"),
        ("(not (<= (- x y) 3))", "((x 4) (y 0))"),
        ("(not (< (- x y) 3))", "((x 3) (y 0))"),
        ("(not (>= (- x y) (- 3)))", "((x 0) (y 4))"),
        ("(not (> (- x y) (- 3)))", "((x 0) (y 3))"),
        ("(not (not (<= (- x y) (- 3))))", "((x 0) (y 3))"),
        ("(not (not (< (- x y) (- 3))))", "((x 0) (y 4))"),
        ("(not (not (not (> (- x y) (- 3)))))", "((x 0) (y 3))"),
        ("(<= (- x y) (- 0))", "((x 0) (y 0))"),
        ("(<= (- x y) 0)", "((x 0) (y 0))"),
        ("(< (- x y) 0)", "((x 0) (y 1))"),
        ("(< (- x y) (- 0))", "((x 0) (y 1))"),
        ("(> (- x y) 0)", "((x 1) (y 0))"),
        ("(>= (- x y) (- 5))", "((x 0) (y 0))"),
        ("(<= (- x x) 0)", "((x 0) (y 0))"),
        ("(and (<= (- x y) (- 3)) (<= (- y x) 3))", "((x 0) (y 3))"),
        ("(and (<= (- x y) (- 3)) (<= (- x y) (- 5)) (<= (- x y) (- 4)))", "((x 0) (y 5))"),
        ("(not (not (and (<= (- x y) (- 3)) (not (<= (- x y) 9)))))", ""),
        ("(and (<= (- x y) 1) (and (<= (- x y) 1) (not (>= (- x y) (- 1)))))", "((x 0) (y 2))"),
        ("(<= (- y x) (- 1000000))", "((x 1000000) (y 0))"),
    ] {
        if days.is_empty() {
            c.xy(format!("(assert {})(check-sat)", term), "unsat\n");
        } else {
            c.xy(format!("(assert {})(check-sat)(get-value (x y))", term), format!("sat\n{}\n", days));
        }
    }
    // A rule and its negation never hold together; a rule and the next weaker negation do.
    for (one, other, answer) in [
        ("(<= (- x y) 3)", "(not (<= (- x y) 3))", "unsat\n"),
        ("(<= (- x y) 3)", "(> (- x y) 3)", "unsat\n"),
        ("(<= (- x y) 3)", "(>= (- x y) 3)", "sat\n"),
        ("(< (- x y) 3)", "(>= (- x y) 3)", "unsat\n"),
        ("(< (- x y) 3)", "(> (- x y) 1)", "sat\n"),
        ("(< (- x y) 3)", "(> (- x y) 2)", "unsat\n"),
        ("(<= (- x x) (- 1))", "(<= (- x x) 0)", "unsat\n"),
        ("(< (- x x) 0)", "(<= (- x x) 0)", "unsat\n"),
        ("(not (<= (- x x) 0))", "(<= (- x x) 0)", "unsat\n"),
        ("(>= (- x x) 0)", "(<= (- x x) 0)", "sat\n"),
    ] {
        c.xy(format!("(assert {})(assert {})(check-sat)", one, other), answer);
        c.xy(format!("(assert (and {} {}))(check-sat)", one, other), answer);
    }
}

fn departures(c: &mut Cases) {
    // Unsupported: another operator at a term's place, or `and` under an odd number of `not`.
    c.terms(
        &[
            "true", "p", "(or)", "(or (<= (- x y) 1) (<= (- y x) 1))", "(= (- x y) 1)", "(=> p q)", "(let ((z 1)) (<= (- x y) z))", "(distinct x y)", "(p)", "(! (<= (- x y) 1) :named a)",
            "(- x y)", "(-)", "-", "x", "(x)", "let", "(let)", "(+ 1)", "(exit)", "exit", "(check-sat)",
            "(not p)", "(not (or))", "(not true)", "(not (not q))",
            "(and (<= (- x y) 1) p)", "(and p (<= (- x y) 1))", "(and p)", "(and (or))", "(and (<= (- x y) 1) (= x y))",
            "(not (and (<= (- x y) 1) (<= (- x y) 2)))", "(not (and))", "(not (and 5))", "(and (<= (- x y) 1) (not (and (<= (- x y) 1) (<= (- x y) 2))))",
            "(not (not (not (and p p))))", "(not (not (and (<= (- x y) 1) (not (and p q)))))", "(or 5 () 1.5 :k)",
        ],
        UNSUPPORTED,
    );
    c.terms(&[&format!("{}", "p".repeat(33)), &format!("({} x)", "p".repeat(33)), &format!("(and (<= (- x y) 1) {})", "p".repeat(40))], UNSUPPORTED);
    // An even number of `not` lets `and` stand.
    c.xy("(assert (not (not (and (<= (- x y) (- 1)) (<= (- x y) (- 2))))))(check-sat)(get-value (y))", "sat\n((y 2))\n");

    // SYNTAX: departures that are no other operator.
    c.terms(
        &[
            "()", "5", "0", "1.5", "#x1", "#b1", ":k", "and", "not", "<=", "<", ">=", ">",
            "(and)", "(not)", "(<=)", "(<)", "(>=)", "(>)", "(and (<= (- x y) 1))", "(not (<= (- x y) 1) (<= (- x y) 1))", "(not (<= (- x y) 1) true)",
            "(and (<= (- x y) 1) 5)", "(and (<= (- x y) 1) and)", "(and 5 (or))", "(not 5)", "(not ())", "(not not)", "(not and)",
            "(5)", "(:k)", "(())", "((and))", "((<= (- x y) 1))", "((_ p 1) x)",
            "(<= x y)", "(<= x 1)", "(<= (+ x y) 1)", "(<= (- x) 1)", "(<= (- x y y) 1)", "(<= (-) 1)", "(<= () 1)", "(<= (- (x) y) 1)", "(<= (- x 1) 1)", "(<= (- 1 x) 1)",
            "(<= (- x (- x y)) 1)", "(<= - 1)", "(<= 1 (- x y))", "(<= (x - y) 1)", "(<= (- x y))", "(<= (- x y) z)", "(<= (- x y) x)", "(<= (- x y) -1)", "(<= (- x y) 1 1)",
            "(<= (- x y) 1 (or))", "(<= (- x y) (- 1 1))", "(<= (- x y) (-))", "(<= (- x y) (- x))", "(<= (- x y) (- (- 1)))", "(<= (- x y) (+ 1))", "(<= (- x y) (1))",
            "(<= (- x y) ())", "(<= (- x y) (- -1))", "(<= (- x y) 1.0)", "(<= (- x y) #x1)", "(<= (- x y) (- 1.0))", "(<= (- x y) (- 1) 2)", "(<= (- x y) (- x y))", "(<= (- x y) :k)",
            "(<= (- :k y) 1)", "(<= (- x y) let)", "(>= x y)", "(< (* 2 x) 1)", "(> (- x y) p)", "(<= (- x y) (not 1))",
        ],
        SYNTAX,
    );
}

fn leftmost(c: &mut Cases) {
    let long = "n".repeat(33);
    // Tokens and brackets of the command come first, wherever they stand.
    c.terms(&["(or 00)", "(or |a|)", "(or \"a\")", "(and (or) 1a)"], SYNTAX);
    c.xy(format!("(declare-fun {} () Int 00)", long), SYNTAX);
    c.xy(format!("(declare-fun {} () Int", long), SYNTAX);
    c.xy("(foo (bar 1.)", SYNTAX);
    // Another operator against SYNTAX and SIZE, by place.
    c.terms(&["(and (or) 5)", "(and (= 1 2) (<= x y))", "(and p ())", "(and (<= (- x y) 1) q 5)"], UNSUPPORTED);
    c.terms(&["(and 5 (or))", "(and (<= x y) (= 1 2))", "(and () p)", "(and (<= (- x y) 1) 5 q)", "(not 5 (or))"], SYNTAX);
    c.terms(&[&format!("(and (or) (<= (- x {}) 1))", long), &format!("(or (<= (- x {}) 1))", long)], UNSUPPORTED);
    c.terms(&[&format!("(and (<= (- x {}) 1) (or))", long), &format!("(<= (- x {}) z)", long), &format!("(<= (- {} 5) z)", long)], SIZE);
    c.terms(&[&format!("(and (<= (- 5 {}) 1) (or))", long), &format!("(<= x {})", long), &format!("(<= (- x y) {})", long)], SYNTAX);
    c.xy("(assert (or) (or))", UNSUPPORTED);
    c.xy("(assert (<= (- x y) 1) (or))", SYNTAX);
    c.xy(format!("(declare-fun {} 5)", long), SIZE);
    c.xy(format!("(declare-fun 5 {})", long), SYNTAX);
    c.xy(format!("(declare-fun z {} Int)", long), SYNTAX);
    c.xy(format!("(declare-fun z () {})", long), SYNTAX);
    c.xy(format!("(check-sat)(get-value (x {} 5))", long), ["sat\n", SIZE].concat());
    c.xy(format!("(check-sat)(get-value (x 5 {}))", long), ["sat\n", SYNTAX].concat());
    c.xy(format!("(check-sat {})", long), SYNTAX);
}
