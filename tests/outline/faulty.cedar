// One.
// Two.

// Alone.
permit(principal, action, resource); // not alone
// Three.
  // Four.
permit(principal # action, resource)
when
{
  true
};
@id(" ")
permit(principal is A::B, action == A::B::"c", resource);
@id("last")
permit(principal, action, resource) when { "a
