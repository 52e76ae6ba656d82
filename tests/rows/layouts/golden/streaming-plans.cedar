// Everybody who pays sees films; what is rented is seen while the rent runs.
@id("films")
permit(principal is Viewer, action == Action::"watch", resource is Film)
when { principal.plan != "free" && !resource.forRent };

@id("rented")
permit(principal is Viewer, action == Action::"watch", resource is Film)
when {
  principal.rented.contains(resource) // it was paid for
  && context.now.day < principal.rentEnds
};
