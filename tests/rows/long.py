"""The rows whose texts are too long to be read in a file, made of parts that are repeated.

Those of NESTED have a name, a text, and its refusal or None: brackets and `if`s inside each other, of which a text may have 128.
Those of LONG have a name, a text, and its layout at the default width and indentation.
"""

BEGIN = "permit(principal,action,resource)when{"
IF = "if true then true else "

NESTED = (
    # Nestings that are closed.
    ("128 brackets", BEGIN + 128 * "(" + "true" + 128 * ")" + "};", None),
    ("129 brackets", BEGIN + 129 * "(" + "true" + 129 * ")" + "};", "nested too deeply at byte 166"),
    ("index in 128 brackets", BEGIN + 128 * "(" + 'principal["x"]' + 128 * ")" + "};", None),
    ("empty list in 127 brackets", BEGIN + 127 * "(" + "[]" + 127 * ")" + "};", None),
    ("call in 127 brackets", BEGIN + 127 * "(" + "f()" + 127 * ")" + "};", None),
    ("empty list in 128 brackets", BEGIN + 128 * "(" + "[]" + 128 * ")" + "};", "nested too deeply at byte 166"),
    ("128 lists, records, calls and brackets", BEGIN + 42 * "[{a:f(" + "((1))" + 42 * ")}]" + "};", None),
    ("129 lists, records, calls and brackets", BEGIN + 42 * "[{a:f(" + "(((1)))" + 42 * ")}]" + "};", "nested too deeply at byte 292"),
    ("128 ifs", BEGIN + 128 * IF + "true" + "};", None),
    ("129 ifs", BEGIN + 129 * IF + "true" + "};", "nested too deeply at byte 2982"),
    # Nestings that are left open.
    ("record in 128 brackets", BEGIN + 128 * "(" + "{" + "};", "nested too deeply at byte 166"),
    ("call in 128 brackets", BEGIN + 128 * "(" + "f(" + "};", "nested too deeply at byte 167"),
    ("method in 128 brackets", BEGIN + 128 * "(" + "context.f(" + "};", "nested too deeply at byte 175"),
    ("if in 128 brackets", BEGIN + 128 * "(" + "if" + "};", "nested too deeply at byte 166"),
    ("nothing in 128 brackets", BEGIN + 128 * "(" + ")" + "};", "not in the grammar at byte 166"),
    ("closing square bracket in 128 brackets", BEGIN + 128 * "(" + "]" + "};", "not in the grammar at byte 166"),
    ("closing square bracket in 129 brackets", BEGIN + 129 * "(" + "]" + "};", "nested too deeply at byte 166"),
    ("call of a number in 128 brackets", BEGIN + 128 * "(" + "1(" + "};", "not in the grammar at byte 167"),
    ("record in 64 lists and 64 brackets", BEGIN + 64 * "[(" + "{" + "};", "nested too deeply at byte 166"),
    ("129 brackets that are not closed", BEGIN + 129 * "(" + "true};", "nested too deeply at byte 166"),
    ("129 ifs, made of fewer parts", BEGIN + 129 * IF + "true};", "nested too deeply at byte 2982"),
    ("list that begins at the end of the text", BEGIN + 128 * "(" + "[", "nested too deeply at byte 166"),
    ("call that begins at the end of the text", BEGIN + 128 * "(" + "f(", "nested too deeply at byte 167"),
    ("bracket closed at the end of the text", BEGIN + 128 * "(" + ")", "not in the grammar at byte 166"),
    ("if at the end of the text", BEGIN + 128 * "(" + "if", "nested too deeply at byte 166"),
    ("129 brackets and a square one at the end of the text", BEGIN + 129 * "(" + "]", "nested too deeply at byte 166"),
    ("128 brackets and a square one at the end of the text", BEGIN + 128 * "(" + "]", "not in the grammar at byte 166"),
)

# How the layout of a policy begins whose condition is too wide.
BROKEN = "permit (principal, action, resource)\nwhen\n{\n"
PACKED, SPACED = "permit(principal,action,resource);", "permit (principal, action, resource);\n"

LONG = (
    ("sum of 10,000 numbers", BEGIN + "1" + 9999 * "+1" + "};", BROKEN + 9999 * "  1 +\n" + "  1\n};\n"),
    ("product of 10,000 numbers", BEGIN + "1" + 9999 * "*1" + "};", BROKEN + 9999 * "  1 *\n" + "  1\n};\n"),
    ("10,000 operands of and", BEGIN + "1" + 9999 * "&&1" + "};", BROKEN + 9999 * "  1 &&\n" + "  1\n};\n"),
    ("10,000 operands of or", BEGIN + "1" + 9999 * "||1" + "};", BROKEN + 9999 * "  1 ||\n" + "  1\n};\n"),
    ("list of 10,000 numbers", BEGIN + "[1" + 9999 * ",1" + "]};", BROKEN + "  [1,\n" + 9998 * "   1,\n" + "   1]\n};\n"),
    ("10,000 accesses", BEGIN + "context" + 10_000 * ".a" + "};", BROKEN + "  context.a\n" + 9999 * "    .a\n" + "};\n"),
    ("path of 10,000 names", BEGIN + "a" + 9999 * "::a" + '::"x"};', BROKEN + "  a" + 9999 * "::a" + '::"x"\n};\n'),
    ("10,000 policies", 10_000 * PACKED, 9999 * (SPACED + "\n") + SPACED),
)
