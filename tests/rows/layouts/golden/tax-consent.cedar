// What a client has not agreed to is not seen, nor is it ever sent abroad.
@id("consent")
forbid(principal is Tax::Preparer, action, resource is Tax::Return)
unless {
  // the agreement is of this year
  context has agreement && context.agreement.client == resource.client && context.agreement.until > context.now
};
@id("abroad")
forbid(principal, action == Tax::Action::"send", resource) when { context.country != "here" };
