// Comments in every place of a condition.
permit (principal, action, resource)
// before when
when { // after the brace
  // before the first operand
  principal.level > 3 && // of the sign
  // before the second
  resource.level < 3 && // of the sign
  principal.name != "// no comment"
  // before the closing brace
} // of the brace
// before unless
unless { context.closed } // of the last
;
// after all
