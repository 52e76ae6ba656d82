// A preparer works on the returns of the clients of their own office,
// once the client has agreed.
@id("preparer")
permit (
  principal is Tax::Preparer,
  action in [Tax::Action::"open", Tax::Action::"edit"],
  resource is Tax::Return
) when {
  principal.office == resource.office &&
  resource.client.agreed.contains(principal) &&
  context.year - resource.year <= 7
};
