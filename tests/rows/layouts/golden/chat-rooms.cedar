// Members write to a room; guests read the last hour of it.
@id("write")
permit (principal, action == Action::"write", resource is Room)
when { resource.members.contains(principal) && !resource.muted.contains(principal) };
@id("guests")
permit (principal is Guest, action == Action::"read", resource is Message in Room::"lobby")
when { context.now - resource.sent < 3600 };
