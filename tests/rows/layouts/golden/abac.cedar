// A trip may be booked by travellers for themselves, within their budget.
permit (principal is Traveller, action == Action::"book", resource is Trip)
when {
  resource.traveller == principal && resource.price <= principal.budget.remaining && context.now < resource.departure
}
unless { principal.suspended || (resource.region == "restricted" && !principal.clearances.contains(resource.clearance)) };

forbid (principal, action, resource) unless { context has mfa && context.mfa.age < 3600 };

permit(principal,action in [Action::"view",Action::"list"],resource in Folder::"shared") when {
  if context.device.managed then true else ip(context.source).isInRange(ip("10.0.0.0/8"))
};
