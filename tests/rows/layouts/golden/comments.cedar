// licence

// about the file
@id("a") // the id
permit // effect
( // scope
  principal, // who
  // what
  action,
  resource // of what
) // before conditions
when { // why
  // first
  context.a && // both
  context.b
} // closed
; // done

// the second
forbid(principal, action, resource) when {
  [ 1, // one
    2, // two
  ].contains(context.n)
  || context.text like "*//*" // a string, no comment
};
// last
// of all
