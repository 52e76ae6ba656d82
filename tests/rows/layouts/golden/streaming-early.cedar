// Subscribers of the first hour may watch a day early.
permit(
  principal is Viewer,
  action == Action::"watch", // and not "download"
  // shows only
  resource is Show
)
when { resource.isEarly && principal.plan == "first" && context.now >= resource.airs - 0086400 };
