// The office, the tunnel and this machine, and no other network.
@id("networks")
forbid (principal, action, resource)
unless {
  context.address.isLoopback() ||
  context.address.isInRange(ip("10.20.0.0/16")) ||
  context.address.isInRange(ip("2001:db8::/32"))
};
