//! Every bound, at it and one past it.

use super::*;

pub fn cases(c: &mut Cases) {
    amounts(c);
    depth(c);
    names(c);
    rules(c);
    marks(c);
    bytes(c);
}

fn amounts(c: &mut Cases) {
    // The largest and smallest amount that each operator takes: it is judged on the final rule.
    for (operator, least, most) in [("<=", -1_000_000, 1_000_000), ("<", -999_999, 1_000_001), (">=", -1_000_000, 1_000_000), (">", -1_000_001, 999_999)] {
        for negated in [false, true] {
            // `not` of an operator takes what its opposite takes: `not <=` is `>`, `not <` is `>=`.
            let (least, most) = match (operator, negated) {
                ("<=", true) => (-1_000_001, 999_999),
                ("<", true) => (-1_000_000, 1_000_000),
                (">=", true) => (-999_999, 1_000_001),
                (">", true) => (-1_000_000, 1_000_000),
                _ => (least, most),
            };
            for (amount, out) in [(least - 1, AMOUNT), (least, "sat\n"), (most, "sat\n"), (most + 1, AMOUNT)] {
                let atom = format!("({} (- x y) {})", operator, numeral(amount));
                let term = if negated { format!("(not {})", atom) } else { atom };
                c.xy(format!("(assert {})(check-sat)", term), out);
                c.xy(format!("(assert (not (not {})))(check-sat)", term), out);
            }
        }
    }
    c.xy("(assert (not (<= (- x y) (- 1000000))))(check-sat)(get-value (x y))", "sat\n((x 0) (y 0))\n");
    c.xy("(assert (not (<= (- x y) (- 1000000))))(assert (<= (- x y) (- 999999)))(check-sat)(get-value (x y))", "sat\n((x 0) (y 999999))\n");
    c.xy("(assert (not (<= (- x y) (- 1000000))))(assert (<= (- x y) (- 1000000)))(check-sat)", "unsat\n");
    // Numerals of any length never wrap.
    for digits in ["4294967295", "4294967296", "4294967297", "18446744073709551615", "18446744073709551616", "18446744073709551617", "340282366920938463463374607431768211457"] {
        c.terms(&[&format!("(<= (- x y) {})", digits), &format!("(<= (- x y) (- {}))", digits), &format!("(not (> (- x y) {}))", digits)], AMOUNT);
        c.xy(format!("(push {})", digits), FULL);
        c.xy(format!("(pop {})", digits), NOMARK);
    }
    c.terms(&[&format!("(<= (- x y) 1{})", "0".repeat(5000)), &format!("(>= (- x y) (- {}))", "9".repeat(5000))], AMOUNT);
}

fn numeral(amount: i32) -> String {
    if amount < 0 {
        format!("(- {})", -amount)
    } else {
        amount.to_string()
    }
}

fn depth(c: &mut Cases) {
    let nots = |count: usize, inner: &str| format!("{}{}{}", "(not ".repeat(count), inner, ")".repeat(count));
    let atom = "(<= (- x y) (- 1))";
    // 14 `not` and the atom at depth 15; then at 16; then at 17.
    c.xy(format!("(assert {})(check-sat)(get-value (x y))", nots(14, atom)), "sat\n((x 0) (y 1))\n");
    c.xy(format!("(assert {})(check-sat)(get-value (x y))", nots(15, atom)), "sat\n((x 0) (y 0))\n");
    c.terms(&[&nots(16, atom), &nots(17, atom), &nots(300, atom), &nots(16, "(or)"), &nots(16, "()"), &nots(16, "(5)"), &nots(16, "(and)")], SIZE);
    // Without a bracket there is no size fault at depth 17.
    c.terms(&[&nots(16, "p"), &nots(16, "let"), &nots(15, "(or)"), &nots(15, "(and)")], UNSUPPORTED);
    c.terms(&[&nots(16, "5"), &nots(16, "not"), &nots(16, ""), &nots(15, "()"), &nots(14, "(and)")], SYNTAX);
    c.terms(&[&format!("(or {})", nots(300, atom)), &format!("(and p {})", nots(300, atom))], UNSUPPORTED);
    c.terms(&[&format!("(and 5 {})", nots(300, atom)), &format!("(<= (- x y) {})", nots(300, "1")), &format!("(not {} 5)", nots(3, atom))], SYNTAX);
    // `and` counts too, on either side.
    let ands = |count: usize, inner: &str| format!("{}{}{}", format!("(and {} ", atom).repeat(count), inner, ")".repeat(count));
    c.xy(format!("(assert {})(check-sat)", ands(15, atom)), "sat\n");
    c.terms(&[&ands(16, atom), &ands(15, &nots(1, atom))], SIZE);
    let left = |count: usize| format!("{}{}{}", "(and ".repeat(count), atom, format!(" {})", atom).repeat(count));
    c.xy(format!("(assert {})(check-sat)", left(15)), "sat\n");
    c.terms(&[&left(16)], SIZE);
    // Depth falls again after a term.
    c.xy(format!("(assert (and {} {}))(check-sat)", nots(14, atom), nots(14, atom)), "sat\n");
    c.terms(&[&format!("(and {} {})", nots(14, atom), nots(15, atom)), &format!("(and {} {})", nots(15, atom), nots(14, atom))], SIZE);
    // Leftmost: the bracket at depth 17 against what stands left and right of it; NAME and AMOUNT come later.
    c.terms(&[&format!("(and {} (or))", nots(15, atom)), &format!("(and {} 5)", nots(15, atom)), &format!("(and (<= (- x z) 1000001) {})", nots(15, atom))], SIZE);
    c.terms(&[&format!("(and (or) {})", nots(15, atom))], UNSUPPORTED);
    // Brackets of another command may nest as deep as they like.
    c.xy(format!("(foo {}{})", "(".repeat(5000), ")".repeat(5000)), UNSUPPORTED);
    c.xy(format!("(foo {}{})(check-sat)", "(".repeat(5000), ")".repeat(4999)), SYNTAX);
    c.xy(format!("(foo {}{})(check-sat)", "(".repeat(5000), ")".repeat(5001)), [UNSUPPORTED, SYNTAX].concat());
}

/// A logic and the names n0, n1, .. up to a count.
fn many(count: usize) -> String {
    let declared: String = (0..count).map(|i| format!("(declare-fun n{} () Int)", i)).collect();
    format!("(set-logic QF_IDL){}", declared)
}

/// A name of two letters for each step. It begins with a capital, so that none is a word of the standard.
fn short(number: usize) -> String {
    const LETTERS: &[u8; 40] = b"ABCDEFGHIJKLMNOPQRSTUVWXYZabcdefghijklmn";
    [LETTERS[number / 40], LETTERS[number % 40]].map(char::from).iter().collect()
}

/// All names and a rule from each to the next, the largest day there is, with its ring and without it: large as they are, for the peers as well.
pub fn all_steps() -> [(&'static str, String); 2] {
    let declared: String = (0..NAMES).map(|i| format!("(declare-fun {} () Int)", short(i))).collect();
    let link = |i: usize| format!("(assert (<= (- {} {}) (- 1000000)))", short(i - 1), short(i));
    let end = format!("(check-sat)(push 1)(assert (<= (- {} {}) 1000000))(check-sat)(pop 1)(check-sat)", short(NAMES - 1), short(0));
    let whole = |rules: String| format!("(set-logic QF_IDL){}{}{}", declared, rules, end);
    [("all steps in a chain", whole((1..NAMES).map(link).collect())), ("all steps in a chain, from its end", whole((1..NAMES).rev().map(link).collect()))]
}

fn names(c: &mut Cases) {
    let (n32, n33) = ("n".repeat(32), "n".repeat(33));
    c.xy(format!("(declare-fun {0} () Int)(assert (<= (- x {0}) (- 1)))(check-sat)(get-value ({0}))", n32), format!("sat\n(({} 1))\n", n32));
    c.xy(format!("(declare-fun {} () Int)", n33), SIZE);
    c.terms(&[&format!("(<= (- {} x) 1)", n33), &format!("(<= (- x {}) 1)", n33)], SIZE);
    c.terms(&[&format!("(<= (- {} x) 1)", n32)], NAME);
    c.xy(format!("(get-value ({}))", n33), SIZE);
    c.xy(format!("(get-value ({}))", n32), MODE);
    c.xy(format!("(check-sat)(get-value (x {}))", n33), ["sat\n", SIZE].concat());

    // All names, one fewer, and one more.
    let (last, all) = (NAMES - 1, many(NAMES));
    c.whole("one name fewer than there may be", many(last) + "(check-sat)", "sat\n");
    c.whole("the last name that there may be", many(last) + "(declare-fun z () Int)(assert (<= (- n0 z) (- 9)))(check-sat)(get-value (z))", "sat\n((z 9))\n");
    c.whole("all names", all.clone() + "(check-sat)", "sat\n");
    c.whole("one name more", all.clone() + "(declare-fun z () Int)", FULL);
    c.whole("one name more that stands", all.clone() + &format!("(declare-fun n{} () Int)", last), NAME);
    c.whole("one name more while contradictory", all.clone() + "(assert (< (- n0 n0) 0))(declare-fun z () Int)", FULL);
    c.whole("one name more after a pop", "(set-logic QF_IDL)(push 1)".to_string() + &all[18..] + "(pop 1)(declare-fun z () Int)", FULL);
    c.whole("a name over 32 bytes at all names", all.clone() + &format!("(declare-fun {} () Int)", n33), SIZE);
    // The bound that there was before: nothing is refused there now.
    c.whole("257 names", many(257) + "(assert (<= (- n255 n256) (- 9)))(check-sat)(get-value (n256))", "sat\n((n256 9))\n");

    // A rule of -1,000,000 from each name to the next, 1,023 of them: the largest day.
    let link = |i: usize| format!("(assert (<= (- n{} n{}) (- 1000000)))", i - 1, i);
    let chain = all.clone() + &(1..NAMES).map(link).collect::<String>();
    let reversed = all + &(1..NAMES).rev().map(link).collect::<String>();
    let (asked, days) = ("(check-sat)(get-value (n0 n1 n1023))", "sat\n((n0 0) (n1 1000000) (n1023 1023000000))\n");
    c.whole("the largest day", chain.clone() + asked, days);
    c.whole("the largest day, rules from the end", reversed + asked, days);
    c.whole("a ring over all steps", chain.clone() + "(push 1)(assert (<= (- n1023 n0) 1000000))(check-sat)(pop 1)(check-sat)", "unsat\nsat\n");
    c.whole("a rule on the last two of all steps that fits", chain + "(push 1)(assert (< (- n1022 n1023) (- 999999)))(check-sat)(pop 1)(check-sat)", "sat\nsat\n");

    for (name, script) in all_steps() {
        c.whole(name, script, "sat\nunsat\nsat\n");
    }

    // 256 names at once, each of 32 bytes, with the days of a chain.
    let long = |i: usize| format!("{}{:03}", "n".repeat(29), i);
    let declared: String = (0..ASKED).map(|i| format!("(declare-fun {} () Int)", long(i))).collect();
    let chain: String = (1..ASKED).map(|i| format!("(assert (<= (- {} {}) (- 1000000)))", long(i - 1), long(i))).collect();
    let asked: Vec<String> = (0..ASKED).map(long).collect();
    let pairs: Vec<String> = (0..ASKED).map(|i| format!("({} {})", long(i), i * 1_000_000)).collect();
    let script = format!("(set-logic QF_IDL){}{}(check-sat)(get-value ({}))", declared, chain, asked.join(" "));
    c.whole("a long answer", script, format!("sat\n({})\n", pairs.join(" ")));

    // The longest answer there is: 256 times a name of 32 bytes on the largest day.
    let name = |i: usize| if i == last { n32.clone() } else { short(i) };
    let declared: String = (0..NAMES).map(|i| format!("(declare-fun {} () Int)", name(i))).collect();
    let rules: Vec<String> = (1..NAMES).map(|i| format!("(<= (- {} {}) (- 1000000))", name(i - 1), name(i))).collect();
    let script = format!("(set-logic QF_IDL){}(assert (and {}))(check-sat)(get-value ({}))", declared, rules.join(" "), vec![&n32[..]; ASKED].join(" "));
    let line = format!("({})\n", vec![format!("({} 1023000000)", n32); ASKED].join(" "));
    assert_eq!(line.len(), 11_778);
    c.whole("the longest answer", script, "sat\n".to_string() + &line);

    // 256 names in one get-value, and one more.
    let (xs, pairs) = (vec!["x"; ASKED].join(" "), vec!["(x 0)"; ASKED].join(" "));
    c.xy(format!("(check-sat)(get-value ({}))(check-sat)", xs), format!("sat\n({})\nsat\n", pairs));
    c.xy(format!("(check-sat)(get-value ({} x))", xs), ["sat\n", SIZE].concat());
    c.xy(format!("(get-value ({} x))", xs), SIZE);
    c.xy(format!("(check-sat)(get-value ({} z))", xs), ["sat\n", SIZE].concat());
    c.xy(format!("(check-sat)(get-value (z {}))", xs), ["sat\n", SIZE].concat());
    c.xy(format!("(check-sat)(get-value ({} 5))", xs), ["sat\n", SYNTAX].concat());
    c.xy(format!("(check-sat)(get-value ({} let))", xs), ["sat\n", SYNTAX].concat());
    c.xy(format!("(check-sat)(get-value ({} (x)))", xs), ["sat\n", SYNTAX].concat());
    c.xy(format!("(check-sat)(get-value ({} x 5))", xs), ["sat\n", SIZE].concat());
    c.xy(format!("(check-sat)(get-value (5 {}))", xs), ["sat\n", SYNTAX].concat());
    c.xy(format!("(get-value ({}))", xs), MODE);
}

fn rules(c: &mut Cases) {
    let atom = "(< (- x y) 9)";
    // One term with many rules: fourteen bytes each, so that 4,097 of them fit a script.
    let term = |count: usize| format!("(assert (and {}))", vec![atom; count].join(" "));
    let one = format!("(assert {})", atom);
    let no = "(assert (< (- x x) 0))";
    c.xy(term(4096) + "(check-sat)", "sat\n");
    c.xy(term(4097), FULL);
    c.xy(term(4095) + &one + "(check-sat)", "sat\n");
    c.xy(term(4096) + &one, FULL);
    c.xy(term(4095) + "(assert (and (< (- x y) 9) (< (- x y) 9)))", FULL);
    c.xy(term(4095) + "(assert (and (< (- x x) 0) (< (- x y) 9)))", FULL);
    c.xy(term(4094) + "(assert (and (< (- x x) 0) (< (- x y) 9)))(check-sat)", "unsat\n");
    c.xy(term(4096) + "(assert (<= (- x z) 1))", NAME);
    c.xy(term(4096) + "(assert (<= (- x y) 1000001))", AMOUNT);
    c.xy(term(4096) + "(assert p)(check-sat)", [UNSUPPORTED, "sat\n"].concat());
    c.xy(term(4096) + no, FULL);
    // Rules of a popped level give their places back.
    c.xy(format!("(push 1){}(pop 1){}{}(check-sat){}", term(2000), term(2095), one, one) + "(check-sat)", "sat\nsat\n".to_string());
    c.xy(format!("(push 1){}(pop 1){}(check-sat){}", term(100), term(4096), one), ["sat\n", FULL].concat());
    // No FULL while a level is contradictory; again when it is popped.
    c.xy(format!("{}{}(check-sat)", no, term(4200)), "unsat\n");
    c.xy(format!("{}(push 1){}{}(check-sat)(pop 1){}", term(4090), no, term(100), term(7)), ["unsat\n", FULL].concat());
    c.xy(format!("{}(push 1){}{}(check-sat)(pop 1){}(check-sat)", term(4090), no, term(100), term(6)), "unsat\nsat\n");
    // The rules left of the conflicting one stay held while their level is open, and take places only while it is.
    c.xy(format!("{}(push 1)(assert (and {} (< (- x x) 0) {}))(check-sat)(pop 1){}(check-sat)", term(4090), atom, atom, term(6)), "unsat\nsat\n");
}

fn marks(c: &mut Cases) {
    let no = "(assert (< (- x x) 0))";
    c.xy("(push 64)(check-sat)(pop 64)", "sat\n");
    c.xy("(push 65)", FULL);
    c.xy("(push 64)(push 1)", FULL);
    c.xy("(push 64)(push 0)(check-sat)", "sat\n");
    c.xy("(push 1)(push 64)", FULL);
    c.xy("(push 1)".repeat(64) + "(check-sat)", "sat\n");
    c.xy("(push 1)".repeat(65), FULL);
    c.xy("(push 64)(pop 1)(push 1)(push 1)", FULL);
    c.xy("(push 64)(pop 64)(push 64)(pop 64)(pop 1)", NOMARK);
    c.xy(format!("{}(push 64)(check-sat)", no), "unsat\n");
    c.xy(format!("{}(push 65)", no), FULL);
    c.xy(format!("(push 64){}(check-sat)(pop 1)(check-sat)", no), "unsat\nsat\n");
}

fn bytes(c: &mut Cases) {
    let fill = |to: usize, end: &str| {
        let begun = format!("{}(check-sat)", XY);
        let blanks = " ".repeat(to - begun.len() - end.len());
        begun + &blanks + end
    };
    c.whole("65,536 bytes", fill(65_536, "(check-sat)"), "sat\nsat\n");
    c.whole("65,537 bytes", fill(65_537, "(check-sat)"), SIZE);
    c.whole("65,537 bytes, the last a blank", fill(65_537, ""), SIZE);
    c.whole("65,536 bytes that end inside a comment", fill(65_536, ";("), "sat\n");
    c.whole("65,536 bytes that end inside a command", fill(65_536, "("), ["sat\n", SYNTAX].concat());
    c.whole("65,537 bytes that begin with exit", "(exit)".to_string() + &" ".repeat(65_531), SIZE);
    c.whole("65,536 bytes that begin with exit", "(exit)".to_string() + &"(".repeat(65_530), "");
    c.whole("65,537 bytes of no token", vec![0u8; 65_537], SIZE);
    c.whole("65,536 bytes of no token", vec![0u8; 65_536], SYNTAX);
    c.whole("200,000 bytes", vec![b' '; 200_000], SIZE);
    c.whole("65,536 opening brackets", "(".repeat(65_536), SYNTAX);
    c.whole("one comment of 65,536 bytes", ";".repeat(65_536), "");
    c.whole("one piece of 65,536 bytes", "(".to_string() + &"a".repeat(65_534) + ")", UNSUPPORTED);
    c.whole("deep brackets to the end", "(a".to_string() + &"(".repeat(32_766) + &")".repeat(32_767), UNSUPPORTED);
    // Many answers: more than any buffer of one command.
    c.whole("21,000 unsupported commands", "(a)".repeat(21_000), UNSUPPORTED.repeat(21_000));
    let list = format!("(get-value ({}))", vec!["x"; ASKED].join(" "));
    let line = format!("({})\n", vec!["(x 1000000)"; ASKED].join(" "));
    c.xy(format!("(assert (<= (- y x) (- 1000000)))(check-sat){}", list.repeat(120)), format!("sat\n{}", line.repeat(120)));
}
