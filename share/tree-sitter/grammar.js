// The grammar of lucy programs for tree-sitter: the productions of docs/language.md.
const list = (it) => seq(it, repeat(seq(",", it)));
const binary = (level, operators) => ($) => prec.left(level, seq($._expr, field("operator", choice(...operators)), $._expr));

module.exports = grammar({
  name: "lucy",
  extras: ($) => [/[ \t\r\n]/, $.comment],
  word: ($) => $.name,
  rules: {
    program: ($) => repeat1($.node),
    comment: () => token(seq("(*", /[^*]*\*+([^)*][^*]*\*+)*/, ")")),
    node: ($) =>
      seq("let", "node", field("name", $.name), field("parameters", $.parameters), "=", field("results", $.results),
        optional(seq("where", "rec", $.definition, repeat(seq("and", $.definition))))),
    parameters: ($) => choice($.name, seq("(", optional(list($.declaration)), ")")),
    declaration: ($) => seq($.name, optional(seq(":", $.type)), optional(seq("::", $.clock))),
    type: () => choice("int", "bool"),
    results: ($) => choice($.name, seq("(", list($.name), ")")),
    definition: ($) => choice(seq($.declaration, "=", $._expr), seq("(", $.declaration, repeat1(seq(",", $.declaration)), ")", "=", $.call)),
    _expr: ($) => choice($.conditional, $.binary, $.sampling, $._prefix),
    conditional: ($) => prec.right(seq("if", $._expr, "then", $._expr, "else", $._expr)),
    binary: ($) =>
      choice(
        binary(1, ["||"])($), binary(2, ["&&"])($), binary(3, ["==", "!=", "<", "<=", ">", ">="])($),
        binary(4, ["+", "-"])($), binary(5, ["*", "/", "%"])($)),
    sampling: ($) => prec.left(6, seq($._expr, choice("when", "whenot"), $.clock)),
    _prefix: ($) => choice($.not, $.buffer, $.merge, $.delay, $._atom),
    not: ($) => prec.right(7, seq("not", $._prefix)),
    buffer: ($) => choice(prec.right(7, seq("buffer", $._prefix)), prec(8, seq("buffer", field("bound", $.number), "(", $._expr, ")"))),
    merge: ($) => prec(7, seq("merge", $.clock, $._small, $._small)),
    delay: ($) => prec.right(7, seq($._literal, "fby", $._prefix)),
    _atom: ($) => choice($._literal, $.name, $.call, $.host, seq("(", $._expr, ")")),
    call: ($) => seq(field("node", $.name), optional(seq("at", $.clock)), "(", optional(list($._expr)), ")"),
    host: ($) => seq("host", field("operator", $.name), "(", $._expr, ",", $._expr, ")"),
    _small: ($) => choice($._literal, $.name, seq("(", $._expr, ")")),
    _literal: ($) => choice($.number, "true", "false"),
    number: () => /-?[0-9]+/,
    clock: () => /([01](\{[0-9]+\})?)*\(([01](\{[0-9]+\})?)+\)/,
    name: () => /[A-Za-z_][A-Za-z0-9_]*/,
  },
});
