// Protected branches take no push by hand, not even an owner's.
@id("protected")
@severity("high")
forbid (principal, action in [Action::"push", Action::"forcePush", Action::"deleteBranch"], resource is Branch)
when { resource.isProtected }
// (the merge queue is the one that may)
unless { principal == Bot::"merge-queue" && context.checks == "passed" };
