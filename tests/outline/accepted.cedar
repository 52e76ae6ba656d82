// Owners.
@id("owner")
@advice
permit(principal, action in [Action::"view", Action::"edit"], resource is Photo in Album::"x") // trailing
when { resource.owner == principal && !(context has a.b) };
forbid(
  principal == ?principal,
  action,
  resource
)
unless
{
  ip("1.2.3.4").isIn(x::y::f({k: 1, "s": -3}))
};
