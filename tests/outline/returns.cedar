// One.
// Two.
permit(
  principal, action, resource);
