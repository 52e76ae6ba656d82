@id("read-shared") @reason("the document was shared")
permit(principal,action in[Action::"read",Action::"comment"],resource)
when{principal in resource.readers||principal in resource.writers};

// A link that is open to everybody needs no account.
@id("open-link")
permit(principal, action == Action::"read", resource)
when { resource.link == "open" || resource.link == "open to guests" }
unless { resource.owner.blocked.contains(principal) };
