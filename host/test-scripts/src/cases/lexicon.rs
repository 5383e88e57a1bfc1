//! White space, comments, tokens, reserved words, what stands between commands.

use super::*;

pub fn cases(c: &mut Cases) {
    c.whole("empty text", "", "");
    c.whole("white space alone", " \t\r\n", "");
    c.whole("a comment alone, ended by the end of text", "; (exit", "");
    c.whole("the paper's example", EXAMPLE, "sat\n((cut 0) (dry 2))\nunsat\nsat\n");

    c.whole("the paper's example with CR LF", EXAMPLE.replace('\n', "\r\n"), "sat\n((cut 0) (dry 2))\nunsat\nsat\n");
    c.whole("the paper's example with CR alone", EXAMPLE.replace('\n', "\r"), "sat\n((cut 0) (dry 2))\nunsat\nsat\n");
    c.whole("the paper's example in one line", EXAMPLE.replace('\n', ""), "sat\n((cut 0) (dry 2))\nunsat\nsat\n");
    c.whole("a byte order mark", [b"\xef\xbb\xbf", EXAMPLE.as_bytes()].concat(), SYNTAX);

    // Between commands stand white space and comments.
    for text in ["x", "5", ")", "|", "\"", ":k", "\0", "\x0b", "\x0c", "\x7f", "exit"] {
        c.xy(text, SYNTAX);
        c.xy(format!("(check-sat) {}(check-sat)", text), format!("sat\n{}", SYNTAX));
    }
    c.xy(b"\xa0", SYNTAX);
    c.xy("(check-sat)\t\r\n (check-sat)", "sat\nsat\n");
    c.xy("(exit) ) | \" \0", "");
    c.xy("(exit)(", "");

    // Comments run to LF, CR or the end of text, and hold any byte.
    c.xy("; a (check-sat)\n(check-sat)", "sat\n");
    c.xy("; a (check-sat)\r(check-sat)", "sat\n");
    c.xy("; a (check-sat)\r\n(check-sat)", "sat\n");
    c.xy("; a (check-sat)", "");
    c.xy(";\n;\r;", "");
    c.xy(b";\0\x80\xff|\"\x0b\n(check-sat)", "sat\n");
    c.xy(b"(check-sat ;\0\x80\xff|\"()\r)", "sat\n");
    c.xy("(check-sat;c\n)", "sat\n");
    c.xy("(check-sat) ; and ; again ; (\n(check-sat)", "sat\nsat\n");
    c.xy("(assert;\n(<=;(\n(-;)\nx;y\ny)3))(check-sat)", "sat\n");
    c.xy("(check-sat ; no end of line )", SYNTAX);

    // Text that ends inside a command.
    for text in ["(", "(check-sat", "(check-sat ", "(check-sat;", "(check-sat ;\n", "(assert (<= (- x y) 1)", "(assert (", "(foo (bar)", "(foo", "(foo 1 "] {
        c.xy(text, SYNTAX);
        c.xy(format!("(check-sat){}", text), format!("sat\n{}", SYNTAX));
    }

    // Bytes that are no part of a token, inside a command.
    for byte in [0u8, 1, 8, 11, 12, 14, 31, b'\'', b',', b'[', b'\\', b']', b'`', b'{', b'}', 127, 128, 160, 255] {
        c.xy([b"(check-sat ", &[byte][..], b")"].concat(), SYNTAX);
        c.xy([b"(foo a", &[byte][..], b")"].concat(), SYNTAX);
        c.xy([b"(declare-fun z", &[byte][..], b" () Int)"].concat(), SYNTAX);
    }
    c.xy("(foo caf\u{e9})", SYNTAX);

    // `|` and `"` outside comments, also where the command is another one.
    for text in ["(foo |a b|)", "(foo \"text\")", "(foo |)", "(foo \")", "(foo a|)", "(foo a\")", "(set-info :source |here|)", "(echo \"hello\")"] {
        c.xy(text, SYNTAX);
    }

    // Every piece is one token, whole.
    for piece in ["12ab", "00", "01", "007", "a:b", "1.", "1..2", "1.2.3", "01.5", "00.5", "1.5e3", "#x", "#b", "#b2", "#b12", "#X1", "#B1", "#xg", "#x1g", "#o7", "#",
        ":", "::", ":1", ":a:b", "::a", "a#b", "1-2", "0x1F", "1a", "5!", "a,b", "a'", "#x-1"]
    {
        c.xy(format!("(foo {})", piece), SYNTAX);
        c.xy(format!("(foo ({}))", piece), SYNTAX);
    }
    for piece in ["0", "10", "99999999999999999999999", "0.0", "0.50", "1.50", "10.00", "#x0", "#xaF9", "#b0", "#b0110", ":k", ":assert", ":-", ":.5", "-1", ".5", "@x", "-",
        "a.b", "a-b", "~!@$%^&*_-+=<>.?/", "x1", "Z9", "..", "true", "let", "_", "!", "as", "BINARY", "assert", "exit", "()", "(())", "(a (b) 1.5 #b1)"]
    {
        c.xy(format!("(foo {})", piece), UNSUPPORTED);
    }
    c.commands(&["(push 00)", "(pop 00)", "(push 01)", "(assert (<= (- x y) 007))", "(assert (<= (- x y) (- 00)))", "(assert (<= (- x y) 1a))"], SYNTAX);
    c.xy("(foo)(foo)()", [UNSUPPORTED, UNSUPPORTED, SYNTAX].concat());
    c.xy("(foo(a)b(c))", UNSUPPORTED);
    c.xy("(check-sat)(check-sat)", "sat\nsat\n");
    c.xy("(push 1)(pop 1)(check-sat)", "sat\n");

    // Names: simple symbols that are not reserved.
    for word in RESERVED {
        c.xy(format!("(declare-fun {} () Int)", word), SYNTAX);
        c.terms(&[&format!("(<= (- x {}) 1)", word), &format!("(<= (- {} x) 1)", word)], SYNTAX);
        c.xy(format!("(check-sat)(get-value ({}))", word), ["sat\n", SYNTAX].concat());
        c.terms(&[word, &format!("({})", word), &format!("({} x (y) 5)", word)], UNSUPPORTED);
    }
    for word in OTHER_COMMANDS {
        c.xy(format!("({})", word), UNSUPPORTED);
        c.xy(format!("({} () 5 (:k a))", word), UNSUPPORTED);
    }
    for word in NO_COMMANDS {
        c.xy(format!("({} a)", word), UNSUPPORTED);
    }
    for name in ["lambda", "true", "false", "not", "and", "or", "Int", "QF_IDL", "<=", "<", "-", "+", "=>", "-1", ".5", "@x", "~!@$%^&*_-+=<>.?/", "sat", "error", "X", "x1", "Assert", "define-const", "binary"] {
        c.xy(format!("(declare-fun {0} () Int)(assert (<= (- x {0}) (- 7)))(check-sat)(get-value ({0} x))", name), format!("sat\n(({} 7) (x 0))\n", name));
    }
    for name in ["5", "1.5", "#x1", "#b1", ":k", "(z)", "()"] {
        c.xy(format!("(declare-fun {} () Int)", name), SYNTAX);
    }
}

const EXAMPLE: &str = "(set-logic QF_IDL)
(declare-fun cut () Int)
(declare-fun dry () Int)
(assert (<= (- cut dry) (- 2)))
(check-sat)
(get-value (cut dry))
(push 1)
(assert (<= (- dry cut) 1))
(check-sat)
(pop 1)
(check-sat)
";

const RESERVED: [&str; 43] = [
    "!", "_", "as", "BINARY", "DECIMAL", "exists", "HEXADECIMAL", "forall", "let", "match", "NUMERAL", "par", "STRING",
    "assert", "check-sat", "check-sat-assuming", "declare-const", "declare-datatype", "declare-datatypes", "declare-fun",
    "declare-sort", "define-fun", "define-fun-rec", "define-funs-rec", "define-sort", "echo", "exit", "get-assertions",
    "get-assignment", "get-info", "get-model", "get-option", "get-proof", "get-unsat-assumptions", "get-unsat-core",
    "get-value", "pop", "push", "reset", "reset-assertions", "set-info", "set-logic", "set-option",
];

/// The commands of the standard that the program does not know.
const OTHER_COMMANDS: [&str; 22] = [
    "check-sat-assuming", "declare-const", "declare-datatype", "declare-datatypes", "declare-sort", "define-fun",
    "define-fun-rec", "define-funs-rec", "define-sort", "echo", "get-assertions", "get-assignment", "get-info", "get-model",
    "get-option", "get-proof", "get-unsat-assumptions", "get-unsat-core", "reset", "reset-assertions", "set-info", "set-option",
];

/// Symbols and reserved words that head no command of the standard.
const NO_COMMANDS: [&str; 12] = ["foo", "let", "_", "!", "true", "Assert", "check-sa", "check-satt", "exit-", "push1", "get", "-"];
