// Comments in lists, records and calls.
permit (principal, action, resource)
when {
  [
    // before the first
    "a", // of the first
    // before the second
    "b" // of the second
  ].contains(context.letter) &&
  context.origin == { // of the brace
    // before the key
    host: "a.example", // of the comma
    port: 443,
  }
};
