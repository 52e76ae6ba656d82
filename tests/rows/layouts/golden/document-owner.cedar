// Owners may do anything with their documents,
// and lend them to others.
@id("document-owner")
permit (principal, action, resource is Document) when { resource.owner == principal };
