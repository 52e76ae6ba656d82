// Tags by name: the keys are known only when a request comes.
permit(principal, action == Action::"deploy", resource is Service)
when {
  principal.hasTag("team") && resource.hasTag("team")
  && principal.getTag("team") == resource.getTag("team")
};
